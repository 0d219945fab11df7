//! Runs over many histories, on as many threads as there are cores, two at most.

use crate::cases::Case;
use crate::compare::{Difference, Subject, compare};
use crate::counts::Counts;
use crate::full;
use crate::generate::{ANY, history};
use crate::history::Step;
use crate::known;
use crate::sequences;
use crate::short::{families, small_queries};
use crate::shrink::{lines, shrink};
use calls::Implementation;
use std::sync::atomic::{AtomicBool, Ordering};
use std::thread;

/// The gate's seed and numbers of random histories, against the Rust and against the proved table.
const GATE_SEED: u64 = 20_260_901;
const GATE_COUNT: u64 = 100_000;
const LIBRARY_COUNT: u64 = 40_000;

/// A history in which the tables differ, and where it came from.
struct Found {
    name: String,
    history: Vec<Step>,
}

/// A gate's run: all short histories, those of full size, and so many random ones. Every case must be reached.
fn histories<T: Implementation>(subject: &Subject<T>, count: u64) -> Result<Counts, String> {
    let mut counts = Counts::default();
    in_parts(subject, &mut counts, &short_part)?;
    in_parts(subject, &mut counts, &full_part)?;
    in_parts(subject, &mut counts, &|subject, part, counts, stop| {
        random_part(subject, (0, count, GATE_SEED), part, counts, stop)
    })?;
    match counts.missed_by_gate(subject.follows_paper).as_slice() {
        [] => Ok(counts),
        missing => {
            counts.print();
            Err(format!("never reached: {missing:?}"))
        }
    }
}

/// The gate's run against the Rust, with the known differences.
pub fn gate<T: Implementation>(rust: &Subject<T>) -> Result<(), String> {
    histories(rust, GATE_COUNT)?.print();
    for line in known::check(rust)? {
        println!("  {line}");
    }
    Ok(())
}

/// Histories against the proved table: every answer, refusals and stops too, and every cell of its stores.
pub fn gate_library<T: Implementation>(library: &Subject<T>) -> Result<Vec<String>, String> {
    let counts = histories(library, LIBRARY_COUNT)?;
    let unsound = [
        Case::UnsoundFilled,
        Case::UnsoundChanged,
        Case::UnsoundOtherTable,
    ];
    let unsound: u64 = unsound.map(|case| counts.times(case)).iter().sum();
    Ok(vec![
        format!(
            "tables: {} random histories, {} short ones, {} of full size, {} answers",
            counts.histories,
            counts.short_histories,
            counts.full_histories,
            counts.compared()
        ),
        format!(
            "refreshes: yes {}, no {}; {unsound} of them over unsound index stores, of which {} leave rows out",
            counts.times(Case::RefreshYes),
            counts.times(Case::RefreshNo),
            counts.times(Case::UnsoundRowsLeftOut),
        ),
    ])
}

/// Every short history of document 02, under all four rules. None of them compacts, and none fills its table.
pub fn every_sequence<T: Implementation>(subject: &Subject<T>) -> Result<Counts, String> {
    let mut counts = Counts::default();
    in_parts(subject, &mut counts, &sequence_part)?;
    let wrong = [Case::MergeCompacts, Case::MergeStop8];
    match wrong.into_iter().find(|&case| counts.times(case) > 0) {
        None => Ok(counts),
        Some(case) => Err(format!("a short history that should not: {}", case.name())),
    }
}

/// The histories of full size alone.
pub fn full<T: Implementation>(subject: &Subject<T>) -> Result<(), String> {
    let mut counts = Counts::default();
    in_parts(subject, &mut counts, &full_part)?;
    counts.print();
    Ok(())
}

/// Any number of random histories from a seed.
pub fn run<T: Implementation>(subject: &Subject<T>, count: u64, seed: u64) -> Result<(), String> {
    const CHUNK: u64 = 10_000;
    let mut counts = Counts::default();
    for first in (0..count).step_by(CHUNK as usize) {
        let last = count.min(first + CHUNK);
        in_parts(subject, &mut counts, &|subject, part, counts, stop| {
            random_part(subject, (first, last, seed), part, counts, stop)
        })?;
        println!("{last} of {count}");
    }
    counts.print();
    Ok(())
}

/// One of several equal parts of the work: its number and how many there are.
type Part = (u64, u64);

/// Does the parts of some work side by side. A difference stops them all; it is reduced and reported.
fn in_parts<T: Implementation>(
    subject: &Subject<T>,
    counts: &mut Counts,
    work: &(impl Fn(&Subject<T>, Part, &mut Counts, &AtomicBool) -> Option<Found> + Sync),
) -> Result<(), String> {
    let parts = thread::available_parallelism().map_or(1, |cores| cores.get().min(2)) as u64;
    let stop = &AtomicBool::new(false);
    let results: Vec<(Counts, Option<Found>)> = thread::scope(|scope| {
        let start = |part: u64| {
            scope.spawn(move || {
                let mut counts = Counts::default();
                let found = work(subject, (part, parts), &mut counts, stop);
                (counts, found)
            })
        };
        let threads: Vec<_> = (0..parts).map(start).collect();
        let join = |it: thread::ScopedJoinHandle<_>| it.join().expect("a part of the work");
        threads.into_iter().map(join).collect()
    });
    for (seen, found) in results {
        counts.add(&seen);
        if let Some(found) = found {
            return Err(report(subject, &found));
        }
    }
    Ok(())
}

/// Compares one history; a difference stops all parts.
fn visit<T: Implementation>(
    subject: &Subject<T>,
    steps: Vec<Step>,
    counts: &mut Counts,
    stop: &AtomicBool,
    name: impl Fn() -> String,
) -> Option<Found> {
    let difference = compare(subject, &steps, counts)?;
    stop.store(true, Ordering::Relaxed);
    let history = steps[..=difference.step].to_vec();
    Some(Found {
        name: name(),
        history,
    })
}

fn random_part<T: Implementation>(
    subject: &Subject<T>,
    (first, last, seed): (u64, u64, u64),
    (part, parts): Part,
    counts: &mut Counts,
    stop: &AtomicBool,
) -> Option<Found> {
    for number in (first..last).filter(|number| number % parts == part) {
        let own = seed.wrapping_add(number);
        counts.histories += 1;
        let found = visit(subject, history(own, ANY), counts, stop, || {
            format!("history of seed {own}")
        });
        if found.is_some() || stop.load(Ordering::Relaxed) {
            return found;
        }
    }
    None
}

fn short_part<T: Implementation>(
    subject: &Subject<T>,
    part: Part,
    counts: &mut Counts,
    stop: &AtomicBool,
) -> Option<Found> {
    let families = families();
    let sequences = families
        .iter()
        .flat_map(|family| (0..family.count()).map(|index| family.history(index)));
    shared_out(
        subject,
        sequences.chain(small_queries()),
        part,
        counts,
        stop,
    )
}

fn sequence_part<T: Implementation>(
    subject: &Subject<T>,
    part: Part,
    counts: &mut Counts,
    stop: &AtomicBool,
) -> Option<Found> {
    shared_out(subject, sequences::histories(), part, counts, stop)
}

/// Compares a part's share of some short histories.
fn shared_out<T: Implementation>(
    subject: &Subject<T>,
    histories: impl Iterator<Item = Vec<Step>>,
    (part, parts): Part,
    counts: &mut Counts,
    stop: &AtomicBool,
) -> Option<Found> {
    for (number, steps) in histories.enumerate() {
        if number as u64 % parts != part {
            continue;
        }
        counts.short_histories += 1;
        let found = visit(subject, steps, counts, stop, || {
            format!("short history {number}")
        });
        if found.is_some() || stop.load(Ordering::Relaxed) {
            return found;
        }
    }
    None
}

fn full_part<T: Implementation>(
    subject: &Subject<T>,
    (part, parts): Part,
    counts: &mut Counts,
    stop: &AtomicBool,
) -> Option<Found> {
    for number in (0..full::COUNT).filter(|number| number % parts == part) {
        counts.full_histories += 1;
        let found = visit(subject, full::history(number), counts, stop, || {
            format!("history {number} of full size")
        });
        if found.is_some() || stop.load(Ordering::Relaxed) {
            return found;
        }
    }
    None
}

/// A history with more steps than these is too long to be made smaller.
const LONG: usize = 10_000;

/// Where a long history differs.
fn report_long<T: Implementation>(subject: &Subject<T>, found: &Found) -> String {
    let Some(Difference {
        step,
        reference,
        other,
    }) = compare(subject, &found.history, &mut Counts::default())
    else {
        return format!("{}: a difference that comes and goes", found.name);
    };
    let cut = |text: &str| text.chars().take(400).collect::<String>();
    let line = lines(&found.history[step..=step]).concat();
    format!(
        "the tables differ ({}, step {step})\n  {}\n  reference: {}\n  other: {}",
        found.name,
        cut(&line),
        cut(&reference),
        cut(&other)
    )
}

/// The smallest history found, and what each implementation returns at its end.
fn report<T: Implementation>(subject: &Subject<T>, found: &Found) -> String {
    if found.history.len() > LONG {
        return report_long(subject, found);
    }
    let differs = |steps: &[Step]| compare(subject, steps, &mut Counts::default());
    let small = shrink(&found.history, |steps| differs(steps).is_some());
    let Some(Difference {
        step,
        reference,
        other,
    }) = differs(&small)
    else {
        return format!("{}: a difference that comes and goes", found.name);
    };
    let mut text = format!("the tables differ ({})\n", found.name);
    for line in lines(&small[..=step]) {
        text.push_str(&format!("  {line}\n"));
    }
    text.push_str(&format!("  reference: {reference}\n  other: {other}"));
    text
}
