//! `intersect`: like lengths, 1:100, 1:10,000, disjoint, a range with a list; ids at even steps, which branch prediction learns,
//! and random. Ours refuses a list that does not rise strictly, so each pair with a list is also measured beside the Rust with
//! that test before it ("with the check"). The Rust copies its first subset, since it works in place. Both answer how many ids
//! there are.

use crate::report::Report;
use calls::Subset;
use library_table::borrowed;
use mouldgrey::{Refusal, Written, lent};
use random::Rng;
use rust_table::RustSubset;

const SEED: u64 = 4;

fn every(step: u32, count: u32, from: u32) -> Subset {
    Subset::List((0..count).map(|i| from + i * step).collect())
}

/// So many random ids below a number.
fn some(count: u32, below: u32, rng: &mut Rng) -> Subset {
    let mut left = count;
    let chosen = |id: &u32| {
        let takes = rng.below(below - id) < left;
        left -= u32::from(takes);
        takes
    };
    Subset::List((0..below).filter(chosen).collect())
}

/// The ids that a list leaves out below a number.
fn others(list: &Subset, below: u32) -> Subset {
    let Subset::List(ids) = list else {
        return Subset::Range(0, 0);
    };
    Subset::List(
        (0..below)
            .filter(|id| ids.binary_search(id).is_err())
            .collect(),
    )
}

pub fn size(written: Result<Written, Refusal>) -> usize {
    match written {
        Ok(Written::Range(start, end)) => (end - start) as usize,
        Ok(Written::List(count)) => count,
        Err(refusal) => panic!("refused: {refusal}"),
    }
}

fn is_block_rising(ids: &[u32]) -> bool {
    let mut rises = true;
    for pair in ids.windows(2) {
        rises &= pair[0] < pair[1];
    }
    rises
}

/// The test that refusal 4 needs, in the form that rustc makes quickest: blocks without a branch in them.
fn is_rising(ids: &[u32]) -> bool {
    let mut at = 0;
    while 64 < ids.len() - at {
        if !is_block_rising(&ids[at..at + 65]) {
            return false;
        }
        at += 64;
    }
    is_block_rising(&ids[at..])
}

fn is_well_formed(subset: &Subset) -> bool {
    match subset {
        Subset::Range(start, end) => start <= end,
        Subset::List(ids) => is_rising(ids),
    }
}

fn pair(report: &mut Report, name: &str, first: &Subset, second: &Subset) {
    let mut output = vec![0; 65_536];
    let (one, other) = (RustSubset::new(first), RustSubset::new(second));
    let name = format!("intersect: {name}");
    let mut ours = || {
        size(lent::intersect(
            borrowed(first),
            borrowed(second),
            &mut output,
        ))
    };
    report.compare(&name, 1, &mut ours, || one.intersect(&other));
    if let (Subset::Range(..), Subset::Range(..)) = (first, second) {
        return;
    }
    report.compare(
        &format!("{name}, with the check"),
        1,
        &mut ours,
        || match is_well_formed(first) && is_well_formed(second) {
            true => one.intersect(&other),
            false => 0,
        },
    );
}

fn even(report: &mut Report) {
    let (long, few) = (every(2, 60_000, 0), every(20_000, 6, 0));
    let hundredth = every(200, 600, 0);
    let range = Subset::Range(40_000, 80_000);
    let mut row = |name: &str, first: &Subset, second: &Subset| pair(report, name, first, second);
    row("16 and 16", &every(3, 16, 0), &every(2, 16, 0));
    row("60,000 and 40,000", &long, &every(3, 40_000, 0));
    row("600 in 60,000", &hundredth, &long);
    row("60,000 with 600", &long, &hundredth);
    row("6 in 60,000", &few, &long);
    row("60,000 with 6", &long, &few);
    let (evens, odds) = (every(2, 30_000, 0), every(2, 30_000, 1));
    row("disjoint, 30,000 and 30,000", &evens, &odds);
    row("a range with 60,000", &range, &long);
    row("60,000 with a range", &long, &range);
}

fn by_chance(report: &mut Report) {
    let mut rng = Rng::new(SEED);
    let mut some = |count: u32, below: u32| some(count, below, &mut rng);
    let (long, few, hundredth) = (some(60_000, 120_000), some(6, 120_000), some(600, 120_000));
    let half = some(30_000, 60_000);
    let mut row = |name: &str, first: &Subset, second: &Subset| {
        pair(report, &format!("random ids, {name}"), first, second);
    };
    row("16 and 16", &some(16, 48), &some(16, 32));
    row("60,000 and 40,000", &long, &some(40_000, 120_000));
    row("600 in 60,000", &hundredth, &long);
    row("60,000 with 600", &long, &hundredth);
    row("6 in 60,000", &few, &long);
    row("60,000 with 6", &long, &few);
    row("disjoint, 30,000 and 30,000", &half, &others(&half, 60_000));
}

pub fn intersect(report: &mut Report) {
    pair(
        report,
        "two ranges",
        &Subset::Range(10, 5_000),
        &Subset::Range(300, 60_000),
    );
    even(report);
    by_chance(report);
}
