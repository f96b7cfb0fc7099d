//! Document 01's errors that look right, each as a case that such an error would fail.

use crate::table::Table;

#[test]
fn the_remainder_of_a_negative_coordinate_is_not_negative() {
    let mut table = Table::fresh(2, 2, 4, 1);
    assert_eq!(table.enter(&[7, -2, -2, 4, 1]).number, 0);
    assert_eq!(table.listing(), [(vec![-1, -1, 2], 6, 6)]);
}

#[test]
fn a_vertex_of_weight_0_is_not_stored() {
    let mut table = Table::fresh(2, 2, 4, 1);
    assert_eq!(table.enter(&[7, 1, 1, -2, 5]).number, 0);
    assert_eq!(table.listing(), [(vec![0, 0, 0], 3, 15), (vec![1, 1, -2], 3, 15)]);
    let mut table = Table::fresh(2, 2, 1, 1);
    assert_eq!(table.enter(&[7, 2, 2, -4, 5]).number, 0);
    assert_eq!(table.listing(), [(vec![1, 1, -2], 6, 30)]);
}

#[test]
fn the_blur_is_not_made_in_place() {
    let mut table = Table::fresh(1, 1, 4, 2);
    assert_eq!(table.enter(&[7, 0, 0, 0, 8, 1, -1, 1_000]).taken, 2);
    // Masses 2 and 2 become 6 and 6, then 18 and 18; value sums 0 and 2000 become 2000 and 4000, then 8000 and 10000.
    // Made in place, the passes would end with (22, 10000) and (42, 22000), and the answers would be 455 and 524.
    assert_eq!(table.answers(&[0, 0, 1, -1]), [(444, 0), (556, 0)]);
}

#[test]
fn a_search_goes_round_the_end_of_the_index() {
    // Keys 5 and 21 both have the home place 15, the last one of 16.
    let mut table = Table::fresh(1, 1, 8, 4);
    let readings = [7, 5, -5, 1, 8, 21, -21, 2, 9, 21, -21, 3];
    assert_eq!(table.enter(&readings).taken, 3);
    assert_eq!(table.enter(&[10, 21, -21, 2]).taken, 1);
    assert_eq!((table.index[15], table.index[0]), (1, 2));
    assert_eq!(table.listing(), [(vec![5, -5], 2, 2), (vec![21, -21], 6, 14)]);
}

#[test]
fn only_new_points_count_against_the_room() {
    let mut table = Table::fresh(1, 2, 2, 4);
    assert_eq!(table.enter(&[7, 3, -3, 10, 8, 3, -3, 11, 9, 2, -2, 4]).taken, 3);
    assert_eq!(table.head.points, 2);
    let before = table.clone();
    let entered = table.enter(&[10, 5, -5, 1]);
    assert_eq!((entered.taken, entered.number), (0, 8));
    assert_eq!(table, before);
}
