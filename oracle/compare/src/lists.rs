//! Two subsets to intersect: all four shapes, lists of lengths about those where the Rust scans them in another way.

use calls::{Query, Subset};
use random::Rng;

const LENGTHS: [usize; 16] = [0, 1, 2, 3, 4, 5, 8, 15, 16, 17, 18, 31, 32, 33, 64, 65];

/// Two subsets to intersect; short lists only, unless `long`.
pub fn intersection(rng: &mut Rng, long: bool) -> Query {
    let first_length = length(rng, long);
    let first = list(rng, first_length);
    let second_length = match rng.below(3) {
        0 => length(rng, long),
        1 => first_length,
        _ if long => four_times(rng, first_length),
        _ => usize::min(20, four_times(rng, first_length)),
    };
    let second = list_like(rng, &first, second_length);
    let (first, second) = match rng.below(2) {
        0 => (first, second),
        _ => (second, first),
    };
    Query::Intersect {
        first: list_or_range(rng, first.clone(), &second),
        second: list_or_range(rng, second, &first),
        output: 0,
    }
}

/// The list, or a range about the other list.
fn list_or_range(rng: &mut Rng, ids: Vec<u32>, other: &[u32]) -> Subset {
    if rng.percent(35) {
        range(rng, other)
    } else {
        spoil(rng, ids)
    }
}

fn length(rng: &mut Rng, long: bool) -> usize {
    match rng.below(1000) {
        0 if long => rng.pick(&[65_536, 65_537]),
        1..=9 if long => rng.within(100, 3000) as usize,
        _ if long => rng.pick(&LENGTHS),
        _ => rng.pick(&LENGTHS[..11]),
    }
}

/// Four times as long, or sixteen, give or take one.
fn four_times(rng: &mut Rng, length: usize) -> usize {
    let times = rng.pick(&[4, 4, 4, 16]);
    (times * length + rng.place(3)).saturating_sub(1).min(4000)
}

/// A rising list with gaps of one kind.
fn list(rng: &mut Rng, length: usize) -> Vec<u32> {
    let gap = rng.pick(&[1, 1, 2, 4, 50]);
    let mut next = rng.pick(&[0, 0, 1, 7, 1000]);
    let mut ids = Vec::with_capacity(length);
    for _ in 0..length {
        next += rng.within(1, gap);
        ids.push(next - 1);
    }
    ids
}

/// A rising list that has some ids of the other.
fn list_like(rng: &mut Rng, other: &[u32], length: usize) -> Vec<u32> {
    let mut ids = list(rng, length);
    let share = rng.pick(&[0, 10, 50, 100]);
    ids.extend(other.iter().copied().filter(|_| rng.percent(share)));
    ids.sort_unstable();
    ids.dedup();
    let first = rng.place(ids.len() - length + 1);
    ids[first..first + length].to_vec()
}

/// Makes a list malformed, or has it end at the greatest id, now and then.
fn spoil(rng: &mut Rng, mut ids: Vec<u32>) -> Subset {
    match rng.below(40) {
        0 if !ids.is_empty() => ids.push(ids[0]),
        1 if ids.len() > 1 => ids.swap(0, 1),
        2 => ids.push(u32::MAX),
        3 => ids.push(u32::MAX - 1),
        _ => {}
    }
    Subset::List(ids)
}

/// A range whose ends are about those of the list, or anywhere.
fn range(rng: &mut Rng, ids: &[u32]) -> Subset {
    let end_of = |rng: &mut Rng| match rng.below(8) {
        0 => 0,
        1 => u32::MAX,
        2 => rng.below(100),
        _ if ids.is_empty() => rng.below(5),
        _ => {
            let id = ids[rng.place(ids.len())];
            id.saturating_add(rng.below(3)).saturating_sub(1)
        }
    };
    let (a, b) = (end_of(rng), end_of(rng));
    let is_malformed = rng.percent(4);
    if is_malformed {
        Subset::Range(a.max(b), a.min(b))
    } else {
        Subset::Range(a.min(b), a.max(b))
    }
}
