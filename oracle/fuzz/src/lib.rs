//! Fuzzing of the C functions: arbitrary headers, rows, keys, sort entries, pending records, subsets and conditions, and sound
//! tables with single words changed. Every lent store is between two guard pages, which may not be touched.

mod acts;
mod answers;
mod columns;
mod expected;
mod giant;
mod image_words;
mod images;
mod invoke;
mod listings;
mod lists;
mod memory;
mod parts;
mod refreshes;
mod report;
mod sequences;
mod session;
mod stores;
#[cfg(test)]
mod tests;
mod trial;
mod watch;

use random::Rng;
use session::Session;

/// The fewest single words of sound tables that the gate must change.
const LEAST_WORDS: u64 = 100_000;

/// Trials from this seed on are about images, those before it about everything else.
const IMAGE_SEEDS: u64 = 1 << 63;

/// Makes at least `calls` calls, in trials that each have a seed of their own. Returns lines with what was reached, or the first call
/// that did what it may not.
pub fn run(calls: u64, seed: u64) -> Result<Vec<String>, String> {
    let mut session = Session::new()?;
    trials(&mut session, calls, seed)?;
    Ok(session.report.lines())
}

/// The same, and then at least so many calls about images; fails unless every function, every refusal and every kind of change was
/// reached.
pub fn gate(calls: u64, image_calls: u64, seed: u64) -> Result<Vec<String>, String> {
    let mut session = Session::new()?;
    trials(&mut session, calls, seed)?;
    let all = session.report.calls + image_calls;
    trials(&mut session, all, IMAGE_SEEDS + seed)?;
    let report = session.report;
    let mut lines = report.lines();
    lines.push(giant::pending()?);
    if report.words_changed() < LEAST_WORDS {
        return Err(format!(
            "only {} words were changed",
            report.words_changed()
        ));
    }
    match report.missing().as_slice() {
        [] => Ok(lines),
        missing => Err(format!("{}\nnever reached: {missing:?}", lines.join("\n"))),
    }
}

/// Trials from this seed on, until so many calls were made.
fn trials(session: &mut Session, calls: u64, seed: u64) -> Result<(), String> {
    watch::begin();
    let mut own = seed;
    let mut done = Ok(());
    while done.is_ok() && session.report.calls < calls {
        watch::trial(own);
        done = match own < IMAGE_SEEDS {
            true => trial::trial(session, own),
            false => images::calls(session, &mut Rng::new(own)),
        };
        own = own.wrapping_add(1);
    }
    watch::end();
    done
}
