//! The same operations at other sizes, from ten rows in a small table to a full one: the key store's size classes make its load differ.
//! Lookups and removals that find their row and that do not; tables that are copied for each round, and one that is reused, so that
//! its key store has a history.

use crate::report::Report;
use crate::tables::{Both, inserts, key, play_all, play_all_there, removal};
use calls::Call;
use mouldgrey::lent;
use rust_table::RustTable;
use std::hint::black_box;

const COLUMNS: u32 = 4;
const SMALL: u32 = 64;
const LARGE: u32 = 65_536;
/// The number of keys that no row has starts here.
const ABSENT: u32 = 1_000_000;
const BATCH: u32 = 1_000;

/// Row count and capacity.
const SIZES: [(u32, u32); 7] = [
    (10, SMALL),
    (1_000, LARGE),
    (7_000, LARGE),
    (8_192, LARGE),
    (20_000, LARGE),
    (60_000, LARGE),
    (65_536, LARGE),
];

/// The last row count of a size class of ours: the merge of one row more inserts all rows again.
const GROWING: u32 = 8_192;
/// The row counts at which the Rust's hash table is full, seven eighths of its slots: one row more, and it grows.
const GROWING_THERE: [u32; 4] = [7_168, 14_336, 28_672, 57_344];

/// A number with a comma before its last three digits, as the other rows write it.
fn thousands(n: u32) -> String {
    match n {
        0..1_000 => n.to_string(),
        _ => format!("{},{:03}", n / 1_000, n % 1_000),
    }
}

fn filled(rows: u32, capacity: u32) -> Both {
    Both::opened_with(capacity, COLUMNS, capacity)
        .staged(inserts(rows, COLUMNS, 1))
        .merged()
}

/// So many places below a count, in an order that no store follows.
fn places(count: u32, most: u32) -> Vec<u32> {
    let step = (40_503 % count.max(2)) | 1;
    (0..most.min(count))
        .map(|i| i.wrapping_mul(step) % count)
        .collect()
}

fn lookups(report: &mut Report, size: &str, both: &Both, rows: u32) {
    let s = both.ours.stores();
    // More keys than a processor's branch prediction learns by heart.
    let hits: Vec<[u32; 2]> = places(rows, 65_536).into_iter().map(key).collect();
    let misses: Vec<[u32; 2]> = (0..200_000u32).map(|i| key(ABSENT + i)).collect();
    for (what, keys) in [("hit", &hits), ("miss", &misses)] {
        let theirs = || {
            keys.iter()
                .filter_map(|key| both.theirs.cell(key, 2))
                .fold(0, u32::wrapping_add)
        };
        report.compare(
            &format!("{size}: row {what}"),
            keys.len(),
            || {
                keys.iter()
                    .filter_map(|key| {
                        lent::get_row(&s.header, &s.rows, &s.keys, key).expect("a fit key")
                    })
                    .fold(0, u32::wrapping_add)
            },
            theirs,
        );
        report.compare(
            &format!("{size}: one cell, {what}"),
            keys.len(),
            || {
                keys.iter()
                    .filter_map(|key| {
                        lent::get_row_column(&s.header, &s.rows, &s.keys, key, 2)
                            .expect("a fit key")
                    })
                    .fold(0, u32::wrapping_add)
            },
            theirs,
        );
    }
}

/// A quarter of the rows: too few for the merge to compact.
fn removals(report: &mut Report, size: &str, both: &Both, rows: u32) {
    let dying = places(rows, rows / 4);
    let pieces = dying.len();
    let staged = both.clone().staged(dying.iter().map(|&i| removal(i)));
    staged.once(
        report,
        &format!("{size}: removal, each"),
        pieces as u32,
        &[Call::Merge],
    );
    let absent = (0..pieces as u32).map(|i| removal(ABSENT + i));
    let nothing = both.clone().staged(absent);
    nothing.once(
        report,
        &format!("{size}: removal of no row, each"),
        pieces as u32,
        &[Call::Merge],
    );
    report.compare_along(
        &format!("{size}: removal, table reused, each"),
        pieces,
        &mut both.clone(),
        |both, round| {
            if 0 < round {
                let again = dying
                    .iter()
                    .map(|&i| Call::Insert(crate::tables::row(i, COLUMNS, 1, 1_000)));
                both.stage(
                    [Call::Compact]
                        .into_iter()
                        .chain(again)
                        .chain([Call::Merge]),
                );
            }
            both.stage(dying.iter().map(|&i| removal(i)));
        },
        |both| both.ours.merge().is_ok(),
        |both| both.theirs.play(&Call::Merge),
    );
}

/// So many keys that are new behind so many rows.
fn new_keys(rows: u32, count: u32) -> impl Iterator<Item = Call> {
    (rows..rows + count).map(|i| Call::Insert(crate::tables::row(i, COLUMNS, 1, 1_000)))
}

const NEW: [(&str, u32); 2] = [("1,000 new keys, each", BATCH), ("one new key, whole", 1)];

/// Each side where it inserts all rows again. The size classes and the sizes of the Rust's hash table end at other row counts, so that
/// at one and the same count one side is at its worst and the other at its best.
fn growths(report: &mut Report) {
    for (what, count) in NEW {
        let staged = |rows| filled(rows, LARGE).staged(new_keys(rows, count));
        let theirs: Vec<RustTable> = GROWING_THERE.map(|rows| staged(rows).theirs).into();
        report.compare_with_worst(
            &format!("at the worst row count of each: merge of {what}"),
            count as usize,
            (&staged(GROWING).ours, play_all(&[Call::Merge])),
            (&theirs, play_all_there(&[Call::Merge])),
        );
    }
}

fn merges(report: &mut Report, size: &str, both: &Both, rows: u32, capacity: u32) {
    for (what, count) in NEW {
        if rows + count <= capacity {
            let staged = both.clone().staged(new_keys(rows, count));
            staged.once(
                report,
                &format!("{size}: merge of {what}"),
                count,
                &[Call::Merge],
            );
        }
    }
    both.once(
        report,
        &format!("{size}: merge of nothing, whole"),
        1,
        &[Call::Merge],
    );
    both.once(
        report,
        &format!("{size}: compact, no row dead, whole"),
        1,
        &[Call::Compact],
    );
    let dying = places(rows, rows / 4);
    let quarter = both.clone().staged(dying.iter().map(|&i| removal(i)));
    let name = format!("{size}: compact, a quarter of the rows dead, whole");
    quarter.merged().once(report, &name, 1, &[Call::Compact]);
    both.once(report, &format!("{size}: clear, whole"), 1, &[Call::Clear]);
}

/// The key hash of docs/FORMAT.md.
pub fn hash(key: &[u32]) -> u32 {
    key.iter().fold(0, |hash: u32, &cell| {
        let sum = hash.wrapping_add(cell).wrapping_add(2_654_435_761);
        let product = u64::from(sum) * u64::from(sum.rotate_left(16));
        ((product >> 31) as u32).wrapping_add(product as u32)
    })
}

/// Whether a row's key leads to the row, from its home slot on: the first slot whose row has the key is its own.
fn is_found(rows: &[u32], slots: &[u32], key: &[u32], row: u32) -> bool {
    let hash = hash(key);
    let home = ((u64::from(hash) * slots.len() as u64) >> 32) as usize;
    let bits = hash % (1 << 15);
    let has_key = |slot: u32| {
        let at = ((slot % (1 << 17)) as usize).wrapping_sub(1) * COLUMNS as usize;
        slot >> 17 == bits && rows.get(at..at + 2) == Some(key)
    };
    let (before, behind) = slots.split_at(home);
    let mut path = behind.iter().chain(before);
    path.find(|&&slot| slot == 0 || has_key(slot)) == Some(&(bits << 17 | (row + 1)))
}

/// What a plain Rust program tests of the same stores: that rows have the values of their sort entries, that each live row is found
/// by its key, and the counts of dead rows and of taken slots.
fn is_sound(both: &Both) -> bool {
    let s = both.ours.stores();
    let h = &s.header;
    let class = [128, 512, 2_048, 8_192, LARGE]
        .into_iter()
        .find(|&class| h.rows <= class);
    let slots = &s.keys[..2 * class.unwrap_or(LARGE).min(h.capacity) as usize];
    let entries = &s.sorts[..2 * h.entries as usize];
    let (mut entry, mut dead) = (0, 0);
    let rows = s.rows.chunks(COLUMNS as usize).take(h.rows as usize);
    for (number, row) in rows.enumerate() {
        let next = entries.get(2 * entry + 3);
        entry += usize::from(next.is_some_and(|&first| first as usize == number));
        if row[0] == mouldgrey::DEAD {
            dead += 1;
        } else if row[3] != entries[2 * entry]
            || !is_found(&s.rows, slots, &row[..2], number as u32)
        {
            return false;
        }
    }
    let taken = slots.iter().filter(|&&slot| slot != 0).count() as u32;
    dead == h.dead && taken == h.rows - dead
}

fn soundness(report: &mut Report, size: &str, both: &Both) {
    assert!(is_sound(both));
    report.compare(
        &format!("{size}: is sound, whole"),
        1,
        || black_box(&both.ours).is_sound(),
        || is_sound(black_box(both)),
    );
}

pub fn sizes(report: &mut Report) {
    for (rows, capacity) in SIZES {
        let size = format!("{} rows in {}", thousands(rows), thousands(capacity));
        let both = filled(rows, capacity);
        lookups(report, &size, &both, rows);
        removals(report, &size, &both, rows);
        merges(report, &size, &both, rows, capacity);
        soundness(report, &size, &both);
    }
    let few = filled(32, LARGE);
    merges(report, "32 rows in 65,536", &few, 32, LARGE);
    soundness(report, "32 rows in 65,536", &few);
    growths(report);
}
