//! The order of readings, and how they were shared out over merged tables, does not matter. The store of a whole and
//! the tables of its parts must list the same points and give the same answers.

use independent::Store;

use crate::table::Table;

/// Readings of dimension 2 in a small region, so that many share points. Their numbers go from 0 up.
fn readings() -> Vec<[i32; 5]> {
    let mut state = 99u64;
    let mut draw = |reach: i64| {
        state = state.wrapping_mul(6_364_136_223_846_793_005).wrapping_add(1);
        ((state >> 33) as i64 % (2 * reach + 1) - reach) as i32
    };
    let mut reading = |number: i32| {
        let (x, y, value) = (draw(30), draw(30), draw(1_000_000));
        [number, x, y, -x - y, value]
    };
    (0..200).map(&mut reading).collect()
}

fn store_of(readings: &[[i32; 5]]) -> Store {
    let mut store = Store::new(2, 3);
    for reading in readings {
        store.add(&reading[1..4], reading[4]);
    }
    store
}

fn table_of(readings: &[[i32; 5]]) -> Table {
    let mut table = Table::fresh(2, 3, 512, 200);
    assert_eq!(table.enter(&readings.concat()).taken, readings.len());
    table
}

#[test]
fn the_listing_does_not_depend_on_the_order() {
    let forwards = readings();
    let backwards: Vec<_> = forwards.iter().rev().copied().collect();
    let store = store_of(&forwards);
    assert_eq!(store.listing(), store_of(&backwards).listing());
    assert_eq!(store.total_mass(), 9 * 200);
    assert_ne!(table_of(&forwards).keys, table_of(&backwards).keys);
    assert_eq!(table_of(&forwards).listing(), table_of(&backwards).listing());
}

#[test]
fn merged_parts_are_the_whole() {
    let whole = readings();
    let (left, right) = whole.split_at(77);
    let mut merged = table_of(right);
    assert_eq!(merged.merge(&table_of(left)).number, 0);
    let store = store_of(&whole);
    assert_eq!(merged.head.readings, 200);
    assert_eq!(merged.listing(), store.listing());
    let queries: Vec<i32> = whole.iter().flat_map(|reading| reading[1..4].to_vec()).collect();
    let answers = store.answers(&queries);
    assert_eq!(merged.answers(&queries), answers);
    assert!(answers.iter().all(|(_, code)| *code == 0));
}
