//! Keys and values chosen by somebody who knows the hash, so that all of them collide: for ours against our hash, for the Rust
//! against its own.

use crate::report::Report;
use crate::sizes::hash;
use crate::tables::{Both, key};
use calls::Call;
use mouldgrey::lent;
use rustc_hash::FxHasher;
use std::hash::Hasher;

const COLUMNS: u32 = 4;
const KEYS: usize = 5_000;
type Key = [u32; 2];

fn have_one_hash(keys: &[Key], hash: fn(&[u32]) -> u32) -> bool {
    keys.iter().all(|key| hash(key) == hash(&keys[0]))
}

/// Keys with one hash: each cell is added to the hash so far, so the second cell can undo what the first one made.
fn keys() -> Vec<Key> {
    let undone = |first| [first, hash(&[first]).wrapping_neg()];
    let keys: Vec<Key> = (0..KEYS as u32).map(undone).collect();
    assert!(have_one_hash(&keys, single_parts::compact_hash));
    keys
}

/// Keys with one home slot and other hashes, found by search.
fn keys_of_one_slot() -> Vec<Key> {
    let slots = 2 * KEYS as u64;
    let in_first = |key: &Key| (u64::from(hash(key)) * slots) >> 32 == 0;
    let all = (0..).map(|second| [0, second]);
    all.filter(in_first).take(KEYS).collect()
}

/// The Rust multiplies by this number after each word that it adds.
const MULTIPLIER: u64 = 0xf135_7aea_2e62_a9c5;

/// The least n for which the remainder of n times a step is from `low` to `high`, where 0 < `low`: as in the Euclidean algorithm,
/// if no multiple is there in the first lap, how many laps there are is a question of the same kind about smaller numbers.
fn first_within(step: u128, modulus: u128, low: u128, high: u128) -> Option<u128> {
    if step == 0 {
        return None;
    }
    let first = low.div_ceil(step);
    if step * first <= high {
        return Some(first);
    }
    let laps = first_within(modulus % step, step, step - high % step, step - low % step)?;
    Some((low + modulus * laps).div_ceil(step))
}

/// The least n for which a start and n steps, modulo 2^64, are below a bound.
fn steps_below(start: u64, step: u64, bound: u64) -> Option<u32> {
    if start < bound {
        return Some(0);
    }
    let low = (1 << 64) - u128::from(start);
    let high = low + u128::from(bound) - 1;
    first_within(step.into(), 1 << 64, low, high)?
        .try_into()
        .ok()
}

/// Keys with one compact hash of the Rust's: it is bits 31 to 62 of the last product.
fn keys_there() -> Vec<Key> {
    let step = MULTIPLIER << 1;
    let chosen = |first: u32| {
        let start = u64::from(first).wrapping_mul(MULTIPLIER).wrapping_mul(step);
        steps_below(start, step, 1 << 32).map(|second| [first, second])
    };
    let keys: Vec<Key> = (0..).filter_map(chosen).take(KEYS).collect();
    assert!(have_one_hash(&keys, rust_table::key_hash));
    keys
}

/// So many values of the index's bucket 0, of however many buckets: the inverse of the bucket's multiplier, times small numbers.
pub fn values(count: u32) -> Vec<u32> {
    let multiplier: u32 = 2_654_435_769;
    // Each round doubles how many low bits of the product are right, from three on.
    let inverse = (0..4).fold(multiplier, |it, _| {
        it.wrapping_mul(2u32.wrapping_sub(multiplier.wrapping_mul(it)))
    });
    assert_eq!(inverse.wrapping_mul(multiplier), 1);
    (1..=count).map(|i| inverse.wrapping_mul(i)).collect()
}

/// Where the Rust's hash table of 16,384 slots has a value, and the tag that it has there.
fn place_there(value: u32) -> (u64, u64) {
    let mut hasher = FxHasher::default();
    hasher.write_u32(value);
    (hasher.finish() % 16_384, hasher.finish() >> 57)
}

/// So many values with one place and one tag in a hash table of the Rust's of 16,384 slots: bits 31 to 51 of the product.
pub fn values_there(count: usize) -> Vec<u32> {
    let step = MULTIPLIER << 12;
    let behind = |value: u32| {
        let next = value.checked_add(1)?;
        let steps = steps_below(u64::from(next).wrapping_mul(step), step, 1 << 43)?;
        next.checked_add(steps)
    };
    let all = std::iter::successors(behind(0), |&value| behind(value));
    let values: Vec<u32> = all.take(count).collect();
    assert!(values.len() == count && values.iter().all(|&value| place_there(value) == (0, 0)));
    values
}

/// Both tables, each with its own keys staged.
fn staged(ours: &[Key], theirs: &[Key]) -> Both {
    let with = |keys: &[Key]| {
        let row = |key: &Key| Call::Insert(vec![key[0], key[1], 1, 1]);
        Both::opened(COLUMNS, KEYS as u32).staged(keys.iter().map(row))
    };
    Both {
        ours: with(ours).ours,
        theirs: with(theirs).theirs,
    }
}

fn measured(report: &mut Report, what: &str, ours: &[Key], theirs: &[Key]) {
    let before = staged(ours, theirs);
    let merging = format!("5,000 {what}: merge, each");
    before.once(report, &merging, KEYS as u32, &[Call::Merge]);
    let both = before.merged();
    let s = both.ours.stores();
    let row = |key: &Key| lent::get_row(&s.header, &s.rows, &s.keys, key).expect("a fit key");
    report.compare(
        &format!("5,000 {what}: row hit, each"),
        KEYS,
        || ours.iter().filter_map(row).fold(0, u32::wrapping_add),
        || {
            let cell = |key: &Key| both.theirs.cell(key, 2);
            theirs.iter().filter_map(cell).fold(0, u32::wrapping_add)
        },
    );
}

/// Keys with one hash beside ordinary ones, in a table of their own.
pub fn colliding(report: &mut Report) {
    let ordinary: Vec<Key> = (0..KEYS as u32).map(key).collect();
    measured(report, "ordinary keys", &ordinary, &ordinary);
    let theirs = keys_there();
    for (chosen, ours) in [
        ("keys of one hash", keys()),
        ("keys of one home slot", keys_of_one_slot()),
    ] {
        measured(report, chosen, &ours, &theirs);
        for what in ["merge", "row hit"] {
            report.factor(
                &format!("5,000 {chosen}: {what}, times ordinary keys"),
                &format!("5,000 {chosen}: {what}, each"),
                &format!("5,000 ordinary keys: {what}, each"),
            );
        }
    }
}
