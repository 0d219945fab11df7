//! What the Rust does not have, beside plain Rust that does the same: the precedence of rows, and every short history in order.

use crate::report::Report;
use crate::tables::Both;
use calls::Call;
use mouldgrey::{Header, lent};
use rustc_hash::FxHasher;
use std::collections::HashMap;
use std::hash::BuildHasherDefault;
use std::hint::black_box;

const PAIRS_OF_ROWS: u32 = 10_000;
const COLUMNS: u32 = 4;
const SORT: usize = 3;
/// Side 2, after the diplexer, needs side 1, before it.
const PAIR: [u32; 2] = [2, 1];

type Keys = HashMap<(u32, u32), u32, BuildHasherDefault<FxHasher>>;

/// The stamp of each key, then the first row of the pair's first side whose modem has no earlier row of the other.
fn precedence(header: &Header, rows: &[u32], keys: &mut Keys) -> Option<(u32, u32)> {
    keys.clear();
    let rows = rows.chunks(COLUMNS as usize).take(header.rows as usize);
    for row in rows.clone() {
        keys.insert((row[0], row[1]), row[SORT]);
    }
    let is_met = |row: &[u32]| match keys.get(&(row[0], PAIR[1])) {
        Some(&stamp) => stamp <= row[SORT],
        None => false,
    };
    let mut wanted = rows.enumerate().filter(|(_, row)| row[1] == PAIR[0]);
    let failing = wanted.find(|(_, row)| !is_met(row))?;
    Some((failing.0 as u32, 0))
}

/// Two rows of each modem, first before and then after the diplexer.
fn checking(report: &mut Report) {
    let row = |i: u32| vec![i / 2 * 7, 1 + i % 2, 1, i / 100];
    let calls = (0..2 * PAIRS_OF_ROWS).map(|i| Call::Insert(row(i)));
    let both = Both::opened(COLUMNS, 2 * PAIRS_OF_ROWS)
        .staged(calls)
        .merged();
    let s = both.ours.stores();
    let mut keys = Keys::default();
    report.compare(
        "precedence: 20,000 rows, none fails, each row",
        2 * PAIRS_OF_ROWS as usize,
        || lent::check_precedence(&s.header, &s.rows, &s.keys, 1, &PAIR).expect("a fit check"),
        || precedence(black_box(&s.header), black_box(&s.rows), &mut keys),
    );
}

const STEPS: u32 = 7;
const LONGEST: usize = 6;

/// The next sequence, as an odometer counts, shorter ones first, with the same tests: its length, or none after the last.
fn next(sequence: &[u32], output: &mut [u32]) -> Option<usize> {
    let known = sequence.len() <= LONGEST && sequence.iter().all(|&step| step < STEPS);
    assert!(known && sequence.len() < output.len());
    output[..sequence.len()].copy_from_slice(sequence);
    for step in output[..sequence.len()].iter_mut().rev() {
        *step += 1;
        if *step < STEPS {
            return Some(sequence.len());
        }
        *step = 0;
    }
    output[sequence.len()] = 0;
    (sequence.len() < LONGEST).then_some(sequence.len() + 1)
}

fn generating(report: &mut Report) {
    let all = 137_257;
    report.compare(
        "short histories: all in order, each",
        all,
        || {
            let (mut count, mut length) = (1, 0);
            let (mut one, mut other) = ([0; LONGEST], [0; LONGEST]);
            while let Some(next) = lent::next_sequence(&one[..length], &mut other).expect("known") {
                (one, length) = (other, next);
                count += 1;
            }
            assert_eq!(count, all);
        },
        || {
            let (mut count, mut length) = (1, 0);
            let (mut one, mut other) = ([0; LONGEST + 1], [0; LONGEST + 1]);
            while let Some(next) = next(black_box(&one[..length]), &mut other) {
                (one, length) = (other, next);
                count += 1;
            }
            assert_eq!(count, all);
        },
    );
}

pub fn added(report: &mut Report) {
    checking(report);
    generating(report);
}
