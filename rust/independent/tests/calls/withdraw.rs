//! What a withdrawal leaves in lent memory, number for number. With C = 8 an index has 16 places, and the factor leaves
//! 3 on division by 16: the home place of a key (a) is 3a, and of a key (a, b) it is 9a + 3b, modulo 16.

use crate::table::{index_of, Table};

#[test]
fn a_point_without_mass_leaves_and_the_last_takes_its_number() {
    let mut table = Table::worked();
    let given = table.head;
    let answer = table.withdraw(7);
    assert_eq!(answer.number, 0);
    assert_eq!((answer.head.readings, answer.head.points), (1, 1));
    assert_eq!((answer.head.d, answer.head.fineness), (given.d, given.fineness));
    assert_eq!((answer.head.capacity, answer.head.room), (given.capacity, given.room));
    // (2, -2) was point 0 and had 2 and 20 from reading 7 alone.
    assert_eq!(table.keys, [1, 0, 77, 77, 77, 77, 77, 77]);
    assert_eq!(table.sums[..4], [4, 16, 0, 0]);
    assert_eq!(table.sums[4..], [-77; 12]);
    assert_eq!(table.index, index_of(16, &[(3, 1)]));
    assert_eq!(table.book, [-3, 2, -2, 4, 0, 0, 0, 0, 9, 9, 9, 9]);
}

#[test]
fn a_point_that_keeps_mass_stays() {
    let mut table = Table::worked();
    let answer = table.withdraw(-3);
    assert_eq!((answer.number, answer.head.readings, answer.head.points), (0, 1, 2));
    assert_eq!(table.keys, [2, 1, 77, 77, 77, 77, 77, 77]);
    assert_eq!(table.sums[..4], [2, 20, 2, 20]);
    assert_eq!(table.sums[4..], [-77; 12]);
    assert_eq!(table.index, index_of(16, &[(6, 1), (3, 2)]));
    assert_eq!(table.book, [7, 3, -3, 10, 0, 0, 0, 0, 9, 9, 9, 9]);
}

#[test]
fn nothing_is_left_of_two_withdrawn_readings() {
    for order in [[7, -3], [-3, 7]] {
        let mut table = Table::worked();
        assert_eq!(order.map(|number| table.withdraw(number).number), [0, 0]);
        assert_eq!((table.head.readings, table.head.points), (0, 0));
        assert_eq!(table.keys, [0, 0, 77, 77, 77, 77, 77, 77]);
        assert_eq!(table.sums[..4], [0; 4]);
        assert_eq!(table.sums[4..], [-77; 12]);
        assert_eq!(table.index, [0; 16]);
        assert_eq!(table.book, [0, 0, 0, 0, 0, 0, 0, 0, 9, 9, 9, 9]);
    }
}

/// d = 2: reading 7 touches (0,0,0) 1, (1,1,-2) 1, (2,-1,-1) 4; reading -3 touches (15,-6,-9), (16,-5,-11) and
/// (14,-4,-10), 2 each; reading 0 touches (1,1,-2) 6.
fn plane() -> Table {
    let mut table = Table::fresh_with_spare(2, 2, 8, 4);
    let list = [7, 3, -1, -2, 5, -3, 30, -10, -20, 7, 0, 2, 2, -4, -3];
    assert_eq!(table.enter(&list).taken, 3);
    table
}

#[test]
fn the_plane_before_a_withdrawal() {
    let table = plane();
    assert_eq!(table.keys[..12], [0, 0, 1, 1, 2, -1, 15, -6, 16, -5, 14, -4]);
    assert_eq!(table.keys[12..], [77; 4]);
    assert_eq!(table.sums[..12], [1, 5, 7, -13, 4, 20, 2, 14, 2, 14, 2, 14]);
    let entries = [(0, 1), (12, 2), (15, 3), (5, 4), (1, 5), (2, 6)];
    assert_eq!(table.index, index_of(16, &entries));
    assert_eq!(table.book[15..], [9; 5]);
}

#[test]
fn two_points_leave_in_ascending_remainder() {
    let mut table = plane();
    let answer = table.withdraw(7);
    assert_eq!((answer.number, answer.head.readings, answer.head.points), (0, 2, 4));
    // (0,0,0) was point 0: the last one, (14,-4,-10), takes its number. Then (2,-1,-1), point 2, leaves, and the then
    // last one, (16,-5,-11), takes that. The other way round the two would have changed places.
    assert_eq!(table.keys[..8], [14, -4, 1, 1, 16, -5, 15, -6]);
    assert_eq!(table.keys[8..], [0, 0, 0, 0, 77, 77, 77, 77]);
    assert_eq!(table.sums[..8], [2, 14, 6, -18, 2, 14, 2, 14]);
    assert_eq!(table.sums[8..], [0, 0, 0, 0, -77, -77, -77, -77]);
    assert_eq!(table.index, index_of(16, &[(2, 1), (12, 2), (1, 3), (5, 4)]));
    assert_eq!(table.book[..10], [-3, 30, -10, -20, 7, 0, 2, 2, -4, -3]);
    assert_eq!(table.book[10..], [0, 0, 0, 0, 0, 9, 9, 9, 9, 9]);
}

#[test]
fn an_entry_from_the_middle_and_the_last_entry() {
    let mut middle = plane();
    assert_eq!(middle.withdraw(-3).number, 0);
    // The last three points leave: (15,-6,-9) first, so that (14,-4,-10) is moved once before it leaves itself.
    assert_eq!(middle.keys[..6], [0, 0, 1, 1, 2, -1]);
    assert_eq!(middle.keys[6..], [0, 0, 0, 0, 0, 0, 77, 77, 77, 77]);
    assert_eq!(middle.sums[..6], [1, 5, 7, -13, 4, 20]);
    assert_eq!(middle.sums[6..], [0, 0, 0, 0, 0, 0, -77, -77, -77, -77]);
    assert_eq!(middle.index, index_of(16, &[(0, 1), (12, 2), (15, 3)]));
    assert_eq!(middle.book[..10], [7, 3, -1, -2, 5, 0, 2, 2, -4, -3]);
    assert_eq!(middle.book[10..], [0, 0, 0, 0, 0, 9, 9, 9, 9, 9]);

    let mut last = plane();
    assert_eq!(last.withdraw(0).number, 0);
    assert_eq!((last.head.readings, last.head.points), (2, 6));
    assert_eq!(last.sums[..12], [1, 5, 1, 5, 4, 20, 2, 14, 2, 14, 2, 14]);
    assert_eq!(last.book[..10], [7, 3, -1, -2, 5, -3, 30, -10, -20, 7]);
    assert_eq!(last.book[10..], [0, 0, 0, 0, 0, 9, 9, 9, 9, 9]);
}

#[test]
fn the_last_point_takes_the_number_even_where_it_leaves_later() {
    // Reading 1 stores (0,0,0) and (1,1,-2), 2 stores (3,0,-3) and 3 stores (4,1,-5). Reading 4 then adds (2,-1,-1).
    let mut table = Table::fresh_with_spare(2, 2, 8, 4);
    let list = [1, 1, 1, -2, 5, 2, 6, 0, -6, 1, 3, 8, 2, -10, 2, 4, 3, -1, -2, 5];
    assert_eq!(table.enter(&list).taken, 4);
    assert_eq!(table.withdraw(1).number, 0);
    assert_eq!(table.keys[..10], [0, 0, 1, 1, 3, 0, 4, 1, 2, -1]);
    assert_eq!(table.sums[..10], [1, 5, 1, 5, 6, 6, 6, 12, 4, 20]);
    // (0,0,0) leaves and (2,-1,-1) becomes 0; (1,1,-2) leaves and (4,1,-5) becomes 1; (2,-1,-1) leaves and (3,0,-3)
    // becomes 0. Were the leaving points passed over as movers, the two that stay would have changed places.
    assert_eq!(table.withdraw(4).number, 0);
    assert_eq!(table.keys[..10], [3, 0, 4, 1, 0, 0, 0, 0, 0, 0]);
    assert_eq!(table.keys[10..], [77; 6]);
    assert_eq!(table.sums[..10], [6, 6, 6, 12, 0, 0, 0, 0, 0, 0]);
    assert_eq!(table.sums[10..], [-77; 6]);
    assert_eq!(table.index, index_of(16, &[(11, 1), (7, 2)]));
    assert_eq!(table.book[..10], [2, 6, 0, -6, 1, 3, 8, 2, -10, 2]);
    assert_eq!(table.book[10..], [0; 10]);
}

#[test]
fn the_index_is_made_afresh_where_no_point_leaves() {
    // Keys 1 and 17 share the home place 3. The table is sound with 17 there as well.
    let mut table = Table::fresh(1, 1, 8, 3);
    assert_eq!(table.enter(&[1, 1, -1, 5, 2, 17, -17, 6, 3, 1, -1, 7]).taken, 3);
    table.index = index_of(16, &[(3, 2), (4, 1)]);
    assert_eq!(table.withdraw(1).number, 0);
    assert_eq!((table.head.points, &table.sums[..4]), (2, &[2, 14, 2, 12][..]));
    assert_eq!(table.index, index_of(16, &[(3, 1), (4, 2)]));
}

#[test]
fn the_index_is_entered_by_the_new_numbers() {
    // Keys 4, 1 and 17 are points 0, 1, 2, and 1 and 17 share the home place 3. Once 4 leaves, 17 is point 0.
    let mut table = Table::fresh(1, 1, 8, 3);
    assert_eq!(table.enter(&[1, 4, -4, 5, 2, 1, -1, 6, 3, 17, -17, 7]).taken, 3);
    assert_eq!(table.index, index_of(16, &[(12, 1), (3, 2), (4, 3)]));
    assert_eq!(table.withdraw(1).number, 0);
    assert_eq!(table.keys[..3], [17, 1, 0]);
    assert_eq!(table.index, index_of(16, &[(3, 1), (4, 2)]));
}

#[test]
fn a_point_with_value_sum_0_stays() {
    let mut table = Table::fresh(1, 1, 4, 3);
    assert_eq!(table.enter(&[1, 1, -1, 5, 2, 1, -1, 0, 3, 1, -1, -5]).taken, 3);
    assert_eq!((table.head.points, &table.sums[..2]), (1, &[6, 0][..]));
    assert_eq!(table.withdraw(1).number, 0);
    assert_eq!((table.head.points, &table.sums[..2]), (1, &[4, -10][..]));
    assert_eq!(table.withdraw(3).number, 0);
    assert_eq!((table.head.points, &table.sums[..2]), (1, &[2, 0][..]));
    assert_eq!(table.numbers(), [2]);
}

#[test]
fn of_two_equal_readings_the_number_says_which_one_goes() {
    let mut table = Table::fresh(1, 2, 8, 3);
    let list = [5, 3, -3, 10, i32::MIN, 3, -3, 10, i32::MAX, 3, -3, 10];
    assert_eq!(table.enter(&list).taken, 3);
    assert_eq!(table.withdraw(i32::MIN).number, 0);
    assert_eq!(table.sums[..4], [4, 40, 4, 40]);
    assert_eq!(table.book, [5, 3, -3, 10, i32::MAX, 3, -3, 10, 0, 0, 0, 0]);
    assert_eq!(table.withdraw(i32::MAX).number, 0);
    assert_eq!(table.numbers(), [5]);
}

#[test]
fn a_withdrawn_number_and_its_room_may_be_used_again() {
    let mut table = Table::fresh(1, 2, 2, 2);
    assert_eq!(table.enter(&[7, 3, -3, 10, -3, 2, -2, 4]).taken, 2);
    // Book and capacity are full: key 20 needs a place of its own.
    assert_eq!(table.enter(&[8, 40, -40, 1]).number, 7);
    assert_eq!(table.withdraw(7).number, 0);
    let entered = table.enter(&[7, 40, -40, 1]);
    assert_eq!((entered.taken, entered.number), (1, 0));
    assert_eq!((entered.head.readings, entered.head.points), (2, 2));
    assert_eq!(table.keys, [1, 20]);
    assert_eq!(table.sums, [4, 16, 4, 4]);
    assert_eq!(table.book, [-3, 2, -2, 4, 7, 40, -40, 1]);
    // C = 2 makes four places: key 1 has the home place 3, and key 20 has 0.
    assert_eq!(table.index, [2, 0, 0, 1]);
}

#[test]
fn the_stored_order_of_a_sound_table_is_free() {
    let mut table = Table::worked();
    table.keys[..2].copy_from_slice(&[1, 2]);
    table.sums[..4].copy_from_slice(&[6, 36, 2, 20]);
    table.index = index_of(16, &[(3, 1), (6, 2)]);
    assert_eq!(table.withdraw(7).number, 0);
    assert_eq!(table.keys[..3], [1, 0, 77]);
    assert_eq!(table.sums[..5], [4, 16, 0, 0, -77]);
    assert_eq!(table.index, index_of(16, &[(3, 1)]));
}
