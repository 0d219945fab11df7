//! Merge rules: what becomes of a known key's row when a new row with that key comes in.

use calls::Opening;
use std::cmp::{max_by_key, min_by_key};

/// The row that the rule makes of the old and the new one, or nothing if the old row is kept.
pub fn make_row(o: &Opening, old: &[u32], new: &[u32]) -> Option<Vec<u32>> {
    match o.rule {
        // "Rule 0 keeps the old row."
        0 => None,
        // "Rule 1 takes the new row if a cell outside keys and sort column differs, else keeps the old."
        1 => differs_outside(o, old, new).then(|| new.to_vec()),
        // "Rules 2 and 3 take the smaller and the larger of each such cell"; they "compare cells as signed numbers".
        2 => changed(o, old, mix(o, old, new, |a, b| min_by_key(a, b, signed))),
        _ => changed(o, old, mix(o, old, new, |a, b| max_by_key(a, b, signed))),
    }
}

/// "Recorded in two's complement, so that 4294967295 means minus one."
fn signed(cell: &u32) -> i64 {
    match i64::from(*cell) {
        number if number <= 2_147_483_647 => number,
        number => number - 4_294_967_296,
    }
}

/// A column "outside keys and sort column".
fn is_outside(o: &Opening, column: usize) -> bool {
    column >= o.keys as usize && column != o.sort as usize
}

fn differs_outside(o: &Opening, old: &[u32], new: &[u32]) -> bool {
    (0..old.len()).any(|column| is_outside(o, column) && old[column] != new[column])
}

/// "Key cells stay; the sort cell is the new row's"; every other cell is chosen.
fn mix(o: &Opening, old: &[u32], new: &[u32], choose: fn(u32, u32) -> u32) -> Vec<u32> {
    let cell = |column: usize| {
        if is_outside(o, column) {
            choose(old[column], new[column])
        } else if column == o.sort as usize {
            new[column]
        } else {
            old[column]
        }
    };
    (0..old.len()).map(cell).collect()
}

/// "If none of them changes, the old row is kept."
fn changed(o: &Opening, old: &[u32], made: Vec<u32>) -> Option<Vec<u32>> {
    differs_outside(o, old, &made).then_some(made)
}
