//! Every short history on any numbers, sequences and outputs.

use crate::session::{Session, Slot};
use crate::stores::fuzz_number;
use crate::watch;
use mouldgrey::raw;
use random::Rng;
use std::sync::LazyLock;

/// The reference model's list.
static SEQUENCES: LazyLock<Vec<Vec<u32>>> = LazyLock::new(reference::sequences);

/// A step: mostly one that there is.
fn step(rng: &mut Rng) -> u32 {
    match rng.percent(95) {
        true => rng.below(7),
        false => fuzz_number(rng, &[]),
    }
}

/// A sequence: mostly not too long, sometimes the last.
fn sequence(rng: &mut Rng) -> Vec<u32> {
    let length = match rng.below(20) {
        0 => return vec![6; 6],
        1 => rng.below(40),
        _ => rng.below(7),
    };
    (0..length).map(|_| step(rng)).collect()
}

/// What a call must answer: its words, and what it writes to the output.
type Answer = (Vec<u32>, Vec<u32>);

fn step_words(step: u32) -> Result<Answer, u32> {
    let words = match reference::steps().get(step as usize) {
        Some(calls::Call::Insert(cells)) => [&[0], cells.as_slice()].concat(),
        Some(calls::Call::RemoveKey(key)) => vec![1, key[0], 0, 0],
        Some(_) => vec![2, 0, 0, 0],
        None => return Err(15),
    };
    Ok((words, Vec::new()))
}

/// The place of a known sequence in the reference model's list.
fn place(sequence: &[u32]) -> usize {
    let order = |it: &Vec<u32>| (it.len(), it.as_slice()).cmp(&(sequence.len(), sequence));
    SEQUENCES.binary_search_by(order).expect("a known sequence")
}

fn position_words(sequence: &[u32]) -> Result<Answer, u32> {
    reference::test_sequence(sequence)?;
    Ok((vec![place(sequence) as u32], Vec::new()))
}

/// The answer about a sequence that is found, or not.
fn found(sequence: Option<&Vec<u32>>, output: usize) -> Result<Answer, u32> {
    let Some(sequence) = sequence else {
        return Ok((vec![0, 0], Vec::new()));
    };
    reference::test_output(sequence, output)?;
    Ok((vec![1, sequence.len() as u32], sequence.clone()))
}

fn sequence_words(position: u32, output: usize) -> Result<Answer, u32> {
    reference::test_position(&SEQUENCES, position)?;
    found(SEQUENCES.get(position as usize), output)
}

fn next_words(sequence: &[u32], output: usize) -> Result<Answer, u32> {
    reference::test_sequence(sequence)?;
    found(SEQUENCES.get(place(sequence) + 1), output)
}

/// The four functions, and how many words each answers.
const FUNCTIONS: [(&str, usize); 4] = [
    ("mouldgrey_step_at", 4),
    ("mouldgrey_position_of", 1),
    ("mouldgrey_sequence_at", 2),
    ("mouldgrey_next_sequence", 2),
];

pub fn calls(session: &mut Session, rng: &mut Rng) -> Result<(), String> {
    for _ in 0..rng.within(8, 40) {
        let located = |why: String| format!("{why}\n  at {}", watch::place());
        single(session, rng).map_err(located)?;
    }
    Ok(())
}

fn single(session: &mut Session, rng: &mut Rng) -> Result<(), String> {
    let function = rng.place(FUNCTIONS.len());
    let (name, count) = FUNCTIONS[function];
    let words = vec![rng.number(); count];
    let output = vec![rng.number(); rng.place(9)];
    let sequence = sequence(rng);
    let number = match rng.percent(50) {
        true => rng.below(137_260),
        false => fuzz_number(rng, &[]),
    };
    let step = step(rng);
    let must = match function {
        0 => step_words(step),
        1 => position_words(&sequence),
        2 => sequence_words(number, output.len()),
        _ => next_words(&sequence, output.len()),
    };
    let (w, _) = session.write(rng, Slot::Words, &words);
    let (o, o_len) = session.write(rng, Slot::Output, &output);
    let (s, s_len) = session.read(rng, Slot::Cells, &sequence);
    watch::call(name);
    // SAFETY: each pointer goes with the length of what was lent, in an area of its own.
    let given = unsafe {
        match function {
            0 => raw::mouldgrey_step_at(step, w.cast()),
            1 => raw::mouldgrey_position_of(s, s_len, w),
            2 => raw::mouldgrey_sequence_at(number, o, o_len, w.cast()),
            _ => raw::mouldgrey_next_sequence(s, s_len, o, o_len, w.cast()),
        }
    };
    let expected = must.clone().err().unwrap_or(0);
    let (encoded, written) = must.unwrap_or((words, Vec::new()));
    let mut left = output;
    left[..written.len()].copy_from_slice(&written);
    let is_encoded = session.left(Slot::Words) == Some(&encoded);
    if given != expected || !is_encoded || session.left(Slot::Output) != Some(&left) {
        return Err(format!(
            "{name} of {step}, {number}, {sequence:?}: {given}, not {expected}, or other words"
        ));
    }
    session.close(name, given)
}
