//! `intersect` in all four shapes: the Rust's answer where both subsets are well-formed, the reference model's refusal where
//! one is not or the output is short. Guard words behind the ids written must not change.

use calls::{Answer, Implementation, Lengths, Query, Subset};
use library_table::LibraryTable;
use random::Rng;
use reference::Reference;
use rust_table::RustTable;

/// No table is needed, so nothing is lent.
const NOTHING: Lengths = Lengths {
    rows: 0,
    keys: 0,
    sort_entries: 0,
    pending: 0,
    live_words: 0,
    base_words: 0,
    index: 0,
};

/// Lengths around each of the Rust's thresholds and the paper's limit.
const LENGTHS: [usize; 16] = [
    0, 1, 2, 3, 15, 16, 17, 63, 64, 65, 68, 257, 4_096, 16_384, 65_536, 65_537,
];

/// A rising list of this length, with gaps up to `gap`.
fn rising(rng: &mut Rng, length: usize, gap: u32) -> Vec<u32> {
    let mut next = rng.below(5);
    let mut ids = Vec::with_capacity(length);
    for _ in 0..length {
        ids.push(next);
        next += 1 + rng.below(gap);
    }
    ids
}

/// A list that is not strictly rising: two neighbours equal or exchanged.
fn spoiled(rng: &mut Rng, mut ids: Vec<u32>) -> Vec<u32> {
    if ids.len() >= 2 {
        let at = rng.place(ids.len() - 1);
        ids[at + 1] = ids[at] - rng.below(2).min(ids[at]);
    }
    ids
}

fn subset(rng: &mut Rng, length: usize) -> Subset {
    let gap = [1, 2, 7, 60][rng.below(4) as usize];
    let last = length as u32 * gap;
    match rng.below(10) {
        0..=3 => {
            let start = rng.below(last + 3);
            let end = start + rng.below(last + 3);
            Subset::Range(start, end)
        }
        4 if rng.below(3) == 0 => Subset::Range(rng.number(), rng.number()),
        5 if rng.below(3) == 0 => {
            let ids = rising(rng, length, gap);
            Subset::List(spoiled(rng, ids))
        }
        _ => Subset::List(rising(rng, length, gap)),
    }
}

/// A list may end in 4294967295; the Rust's `bounds` does not take that after a range.
fn with_greatest(mut subset: Subset) -> Subset {
    if let Subset::List(ids) = &mut subset
        && ids.last().is_some_and(|&last| last < u32::MAX)
        && ids.len() < 65_536
    {
        ids.push(u32::MAX);
    }
    subset
}

fn rust_defines(first: &Subset, second: &Subset) -> bool {
    !matches!((first, second), (Subset::Range(..), Subset::List(ids)) if ids.last() == Some(&u32::MAX))
}

/// Compares one pair with an output of this length. Returns whether it was refused.
fn check(first: &Subset, second: &Subset, length: usize, rust: &RustTable) -> Result<bool, String> {
    let query = Query::Intersect {
        first: first.clone(),
        second: second.clone(),
        output: length,
    };
    let got = LibraryTable::default().query(&NOTHING, &query);
    let expected = Reference::default().query(&NOTHING, &query);
    let refused = matches!(expected, Answer::Refused(_));
    let like_rust = refused || !rust_defines(first, second) || rust.query(&NOTHING, &query) == got;
    if got == expected && like_rust {
        return Ok(refused);
    }
    Err(format!(
        "intersect {first:?} with {second:?} into {length} words: {got:?}, not {expected:?}"
    ))
}

pub fn intersect() -> Result<String, String> {
    let mut rng = Rng::new(4);
    let rust = RustTable::default();
    let (mut compared, mut refusals) = (0u64, 0u64);
    for round in 0..12 {
        for &one in &LENGTHS {
            for &other in &LENGTHS {
                let mut first = subset(&mut rng, one);
                let mut second = subset(&mut rng, other);
                if round == 0 {
                    first = with_greatest(first);
                    second = with_greatest(second);
                }
                let needed = needs(&first, &second);
                for length in [needed, needed + 5, needed.saturating_sub(1)] {
                    refusals += u64::from(check(&first, &second, length, &rust)?);
                    compared += 1;
                }
            }
        }
    }
    Ok(format!(
        "intersect: {compared} pairs, {refusals} of them refused"
    ))
}

/// The length of the output that the paper requires.
fn needs(first: &Subset, second: &Subset) -> usize {
    match (first, second) {
        (Subset::List(ids), _) | (Subset::Range(..), Subset::List(ids)) => ids.len(),
        (Subset::Range(..), Subset::Range(..)) => 0,
    }
}
