//! Every short history (document 02, change 10), as lists; words in quotes are the document's.

use calls::{Call, Opening};

/// "Three columns, one key, sort column 1, capacity 6."
pub fn short_opening(rule: u32) -> Opening {
    Opening {
        columns: 3,
        keys: 1,
        sort: 1,
        rule,
        capacity: 6,
        generation: 0,
    }
}

/// "There are seven steps, numbered from 0 in this order: four inserts (key, then stamp rising), two removals by key (key
/// rising), merge", "the third cell being the stamp for key 0 and 1 minus the stamp for key 1".
pub fn steps() -> Vec<Call> {
    let mut steps = Vec::new();
    for key in 0..2 {
        for stamp in 0..2 {
            let third = if key == 0 { stamp } else { 1 - stamp };
            steps.push(Call::Insert(vec![key, stamp, third]));
        }
    }
    steps.extend((0..2).map(|key| Call::RemoveKey(vec![key])));
    steps.push(Call::Merge);
    steps
}

/// "Every sequence of 0 to 6 steps, shorter before longer, equal lengths in the order of their first differing step": each
/// length from the one before, by one step more at the end.
pub fn sequences() -> Vec<Vec<u32>> {
    let mut all = vec![Vec::new()];
    let mut longest = all.clone();
    for _ in 0..6 {
        let more = |sequence: &Vec<u32>| {
            let sequence = sequence.clone();
            (0..7).map(move |step| [sequence.as_slice(), &[step]].concat())
        };
        longest = longest.iter().flat_map(more).collect();
        all.extend_from_slice(&longest);
    }
    all
}

/// "First comes 15, a length above 6 or an unknown step."
pub fn test_sequence(sequence: &[u32]) -> Result<(), u32> {
    match sequence.len() > 6 || sequence.iter().any(|&step| step > 6) {
        true => Err(15),
        false => Ok(()),
    }
}

/// "Then 16, a position past the last."
pub fn test_position(sequences: &[Vec<u32>], position: u32) -> Result<(), u32> {
    match position as usize >= sequences.len() {
        true => Err(16),
        false => Ok(()),
    }
}

/// Then 2, an output shorter than what is to be written.
pub fn test_output(written: &[u32], output: usize) -> Result<(), u32> {
    match output < written.len() {
        true => Err(2),
        false => Ok(()),
    }
}
