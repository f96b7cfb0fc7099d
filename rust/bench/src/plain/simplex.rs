//! The enclosing simplex of a position: its points of weight above 0, a slot for each remainder. Each coordinate is
//! divided once by W; the corner of each place then follows from differences of floors and of remainders.

/// The weight of each slot, 0 where it has no point, and the coordinates of each slot's point.
#[derive(Default)]
pub struct Simplex {
    pub weights: [u32; 6],
    pub points: [[i32; 6]; 6],
}

impl Simplex {
    /// The kept coordinates and the weight of each point, in ascending remainder.
    pub fn shares(&self, d: usize) -> impl Iterator<Item = (&[i32], u32)> {
        let slots = self.points.iter().zip(self.weights);
        slots
            .filter(|(_, weight)| *weight > 0)
            .map(move |(point, weight)| (&point[..d], weight))
    }
}

/// The points of weight above 0 for a position of d + 1 coordinates.
pub fn enclose(position: &[i32], fineness: u32) -> Simplex {
    let n = position.len();
    let total = n as i32 * fineness as i32;
    let mut floors = [0; 6];
    let mut rests = [0; 6];
    for (i, coordinate) in position.iter().enumerate() {
        floors[i] = coordinate.div_euclid(total);
        rests[i] = coordinate.rem_euclid(total);
    }
    let mut simplex = Simplex::default();
    for place in 0..n {
        let (slot, point, weight) = corner(&floors[..n], &rests[..n], total, place);
        simplex.weights[slot] = weight;
        simplex.points[slot] = point;
    }
    simplex
}

/// The corner of a place: the remainder that its coordinates leave, the coordinates, and the weight. Its weight is W
/// less the greatest remainder of the differences from that place.
fn corner(floors: &[i32], rests: &[i32], total: i32, place: usize) -> (usize, [i32; 6], u32) {
    let n = floors.len() as i32;
    let mut point = [0; 6];
    let mut sum = 0;
    let mut spread = 0;
    for (z, (floor, rest)) in point.iter_mut().zip(floors.iter().zip(rests)) {
        let difference = rest - rests[place];
        let borrowed = i32::from(difference < 0);
        *z = floor - floors[place] - borrowed;
        sum += *z;
        spread = spread.max(difference + total * borrowed);
    }
    for z in &mut point[..floors.len()] {
        *z = n * *z - sum;
    }
    ((-sum).rem_euclid(n) as usize, point, (total - spread) as u32)
}
