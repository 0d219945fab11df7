//! Column order, worked out by hand.

use crate::{from_columns, test_columns, to_columns};

#[test]
fn three_rows_of_two() {
    let rows = [1, 10, 6, 10, 5, 12];
    let columns = [1, 5, u32::MAX, 10, 0, 2];
    assert_eq!(to_columns(2, &rows), columns);
    assert_eq!(from_columns(2, &columns), rows);
    assert_eq!(to_columns(6, &rows), rows);
    assert_eq!(to_columns(3, &[]), []);
    assert_eq!(from_columns(3, &[]), []);
}

#[test]
fn the_checks_in_order() {
    for (width, cells, output, outcome) in [
        (0, 7, 0, Err(1)),
        (9, 18, 18, Err(1)),
        (8, 17, 0, Err(13)),
        (8, 16, 15, Err(2)),
        (8, 16, 16, Ok(())),
        (1, 0, 0, Ok(())),
    ] {
        assert_eq!(test_columns(width, cells, output), outcome);
    }
}
