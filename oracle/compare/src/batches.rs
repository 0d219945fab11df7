//! Batches of inserts cut anywhere: from one table with nothing pending, a batch merged in two parts leaves the same live rows in
//! the same order as the batch merged as one, if no merge stops. Every place of the cut is tried, on the reference model, the proved
//! table and the Rust.

use crate::generate::EDGES;
use crate::history::needed;
use calls::{Answer, Call, Contents, DEAD, Implementation, Lengths, Opening};
use library_table::LibraryTable;
use random::Rng;
use reference::Reference;
use rust_table::RustTable;

/// What a run has seen.
#[derive(Default)]
pub struct Cuts {
    pub batches: u64,
    /// Cuts compared on the reference model and the proved table, and those of them compared on the Rust too.
    pub cuts: u64,
    pub by_rust: u64,
    /// Of the compared: nothing on one side; row numbers or generation differ; a stamp falls in the batch.
    pub empty_side: u64,
    pub moved: u64,
    pub falling: u64,
    /// Not compared, since one of the three merges stops.
    pub stopped: u64,
}

/// The calls that make a table, and a batch for it.
struct Case {
    opening: Opening,
    before: Vec<Call>,
    batch: Vec<Vec<u32>>,
}

/// So many random batches, each cut at every place.
pub fn run(count: u64, seed: u64) -> Result<Cuts, String> {
    let mut seen = Cuts::default();
    for number in 0..count {
        let own = seed.wrapping_add(number);
        cut_everywhere(&case(own), &mut seen)
            .map_err(|why| format!("batch of seed {own}: {why}"))?;
    }
    Ok(seen)
}

/// The gate's run. Every case must be seen.
pub fn gate(count: u64, seed: u64) -> Result<String, String> {
    let c = run(count, seed)?;
    let all = [
        c.cuts,
        c.by_rust,
        c.empty_side,
        c.moved,
        c.falling,
        c.stopped,
    ];
    if all.contains(&0) {
        return Err(format!("batches: a case was never reached: {all:?}"));
    }
    Ok(format!(
        "{} batches cut at {} places ({} compared on the Rust too): live rows in order are the same; {} of them with nothing on \
         one side, {} with other row numbers or another generation, {} with a falling stamp; {} more where a merge stops",
        c.batches, c.cuts, c.by_rust, c.empty_side, c.moved, c.falling, c.stopped
    ))
}

fn cut_everywhere(case: &Case, seen: &mut Cuts) -> Result<(), String> {
    let lent = needed(&case.opening, 1_024);
    let reference = made(Reference::new(), &lent, case);
    let library = made(LibraryTable::new(), &lent, case);
    // The Rust counts no generations that end.
    let by_rust = case.opening.generation < u32::MAX - 9;
    let rust = by_rust.then(|| made(RustTable::new(), &lent, case));
    seen.batches += 1;
    let Some(whole) = merged(&reference, &lent, &[&case.batch]) else {
        seen.stopped += case.batch.len() as u64 + 1;
        return Ok(());
    };
    let expected = cells(&whole);
    let agree = |name: &str, returned: Option<Contents>| match &returned {
        Some(table) if cells(table) == expected => Ok(()),
        _ => Err(format!("{name}: {returned:?} instead of {expected:?}")),
    };
    agree("the proved table", merged(&library, &lent, &[&case.batch]))?;
    if let Some(rust) = &rust {
        agree("the Rust", merged(rust, &lent, &[&case.batch]))?;
    }
    for place in 0..=case.batch.len() {
        let (first, second) = case.batch.split_at(place);
        let parts = [first, second];
        let Some(cut) = merged(&reference, &lent, &parts) else {
            seen.stopped += 1;
            continue;
        };
        seen.cuts += 1;
        seen.empty_side += u64::from(first.is_empty() || second.is_empty());
        seen.moved += u64::from((cut.generation, &cut.live) != (whole.generation, &whole.live));
        seen.falling += u64::from(falls(case));
        agree("the reference model, cut", Some(cut))?;
        agree("the proved table, cut", merged(&library, &lent, &parts))?;
        if let Some(rust) = &rust {
            seen.by_rust += 1;
            agree("the Rust, cut", merged(rust, &lent, &parts))?;
        }
    }
    Ok(())
}

/// The table that a case starts from.
fn made<T: Implementation>(mut table: T, lent: &Lengths, case: &Case) -> T {
    table.call(lent, &Call::Open(case.opening));
    for call in &case.before {
        table.call(lent, call);
    }
    table
}

/// The table after these batches, each merged; none if a call is refused or a merge stops.
fn merged<T: Implementation + Clone>(
    start: &T,
    lent: &Lengths,
    parts: &[&[Vec<u32>]],
) -> Option<Contents> {
    let mut table = start.clone();
    for part in parts {
        for row in *part {
            if table.call(lent, &Call::Insert(row.clone())) != Answer::Done {
                return None;
            }
        }
        let answer = table.call(lent, &Call::Merge);
        if !matches!(answer, Answer::Merged { status: 0, .. }) {
            return None;
        }
    }
    Some(table.contents())
}

/// The live rows' cells, in order.
fn cells(of: &Contents) -> Vec<&[u32]> {
    of.live.iter().map(|(_, cells)| cells.as_slice()).collect()
}

/// Whether a stamp of the batch is below an earlier one.
fn falls(case: &Case) -> bool {
    let stamps = case.batch.iter().map(|row| row[case.opening.sort as usize]);
    !stamps.is_sorted()
}

/// The most rows inserted before the batch, fewer than any capacity here, so that no merge stops there.
const BEFORE: u32 = 18;

struct Writer {
    rng: Rng,
    opening: Opening,
    keys: Vec<Vec<u32>>,
    values: u32,
    stamp: u32,
}

fn case(seed: u64) -> Case {
    let mut rng = Rng::new(seed);
    let columns = rng.within(1, 5);
    // Mostly one key and a later sort column: rows that change are dead rows, and so compactions.
    let usual = columns > 2 && rng.percent(80);
    let opening = Opening {
        columns,
        keys: if usual { 1 } else { rng.within(1, columns) },
        sort: if usual { 1 } else { rng.below(columns) },
        rule: rng.pick(&[0, 1, 1, 1, 2, 3]),
        capacity: rng.pick(&[20, 40, 64, 100, 128]),
        generation: rng.pick(&[0, 0, 0, 0, 7, u32::MAX - 1, u32::MAX]),
    };
    let count = rng.pick(&[1, 2, 3, 5, 12, 40]);
    let mut key = |_| (0..opening.keys).map(|_| rng.below(9)).collect();
    let keys = (0..count).map(&mut key).collect();
    let mut writer = Writer {
        values: rng.pick(&[1, 2, 3, 10, 1_000]),
        stamp: rng.pick(&[0, 5, u32::MAX - 20]),
        rng,
        opening,
        keys,
    };
    let before = writer.before();
    let falling = writer.rng.pick(&[0, 0, 0, 1, 5]);
    let rows = writer.rng.below(41);
    let batch = (0..rows).map(|_| writer.row(falling)).collect();
    Case {
        opening,
        before,
        batch,
    }
}

impl Writer {
    /// Rows merged, and then some of them removed.
    fn before(&mut self) -> Vec<Call> {
        let rows = self.rng.within(0, BEFORE);
        let mut calls: Vec<Call> = (0..rows).map(|_| Call::Insert(self.row(0))).collect();
        calls.push(Call::Merge);
        for key in &self.keys {
            if self.rng.percent(20) {
                calls.push(Call::RemoveKey(key.clone()));
            }
        }
        calls.push(Call::Merge);
        calls
    }

    /// A row whose stamp falls so many times in a hundred.
    fn row(&mut self, falling: u32) -> Vec<u32> {
        let mut row = self.keys[self.rng.place(self.keys.len())].clone();
        while row.len() < self.opening.columns as usize {
            let edge = self.rng.percent(5);
            row.push(match edge {
                true => self.rng.pick(&EDGES),
                false => self.rng.below(self.values),
            });
        }
        self.stamp = self.stamp.saturating_add(self.rng.pick(&[0, 0, 1, 3]));
        let fall = match self.rng.percent(falling) {
            true => self.rng.within(1, 4),
            false => 0,
        };
        row[self.opening.sort as usize] = self.stamp.saturating_sub(fall);
        if self.rng.percent(2) {
            row[0] = DEAD;
        }
        row
    }
}
