//! Every short history beside the reference model, written from document 02: the generator from the empty sequence to its end, each
//! sequence's position and the way back, the steps; sequences too long and with unknown steps, positions past the last, and outputs
//! too short, long enough and longer. Words of an output past what is written must not change.

use calls::Call;
use mouldgrey::{LONGEST, Refusal, Step, lent};
use random::Rng;
use std::fmt::Debug;

/// Each refusal comes at least so often.
const LEAST: u64 = 1_000;

/// Tries for each kind of refusal that no sequence of the list gives.
const TRIES: u64 = 2_000;

#[derive(Default)]
struct Counts {
    calls: u64,
    /// With 15, 16 and 2.
    refused: [u64; 3],
}

impl Counts {
    /// The library's answer is this one.
    fn agree<T: PartialEq + Debug>(
        &mut self,
        name: impl Fn() -> String,
        ours: Result<T, Refusal>,
        must: Result<T, u32>,
    ) -> Result<(), String> {
        self.calls += 1;
        let ours = ours.map_err(Refusal::number);
        if ours != must {
            return Err(format!("{}: {ours:?}, not {must:?}", name()));
        }
        if let Err(number) = must {
            let place = [15, 16, 2].iter().position(|&it| it == number);
            self.refused[place.expect("a number of the checks")] += 1;
        }
        Ok(())
    }
}

/// The reference model's list, and the calls made so far.
struct Comparison {
    sequences: Vec<Vec<u32>>,
    rng: Rng,
    counts: Counts,
}

impl Comparison {
    /// The position of a sequence, which the reference model has at this place or not at all.
    fn position(&mut self, sequence: &[u32], place: u32) -> Result<(), String> {
        let must = reference::test_sequence(sequence).map(|()| place);
        let name = || format!("position_of {sequence:?}");
        self.counts.agree(name, lent::position_of(sequence), must)
    }

    /// An output of this length, and what must be there after an accepted call.
    fn output(&mut self, length: usize, written: &[u32]) -> (Vec<u32>, Vec<u32>) {
        let before: Vec<u32> = (0..length).map(|_| self.rng.next_u64() as u32).collect();
        let mut after = before.clone();
        if let Some(front) = after.get_mut(..written.len()) {
            front.copy_from_slice(written);
        }
        (before, after)
    }

    /// The sequence at a position, into an output of this length.
    fn sequence(&mut self, position: u32, length: usize) -> Result<(), String> {
        let must = reference::test_position(&self.sequences, position).and_then(|()| {
            let found = &self.sequences[position as usize];
            reference::test_output(found, length).map(|()| found.clone())
        });
        let (mut output, expected) = self.output(length, must.as_deref().unwrap_or_default());
        let ours = lent::sequence_at(position, &mut output);
        let name = || format!("sequence_at {position} into {length} words");
        self.counts.agree(name, ours, must.map(|it| it.len()))?;
        same(&name(), &output, &expected)
    }

    /// The sequence after one that the reference model has at this place or not at all, into an output of this length.
    fn next(&mut self, sequence: &[u32], place: usize, length: usize) -> Result<(), String> {
        let next = self.sequences.get(place + 1).cloned();
        let must = reference::test_sequence(sequence).and_then(|()| {
            let written = next.as_deref().unwrap_or_default();
            reference::test_output(written, length).map(|()| next.clone())
        });
        let written = must.clone().ok().flatten().unwrap_or_default();
        let (mut output, expected) = self.output(length, &written);
        let ours = lent::next_sequence(sequence, &mut output);
        let name = || format!("next_sequence after {sequence:?} into {length} words");
        let must = must.map(|it| it.map(|it| it.len()));
        self.counts.agree(name, ours, must)?;
        same(&name(), &output, &expected)
    }

    /// All that the list has, with outputs of every kind.
    fn listed(&mut self) -> Result<(), String> {
        for place in 0..self.sequences.len() {
            let sequence = self.sequences[place].clone();
            self.position(&sequence, place as u32)?;
            let lengths = [sequence.len(), LONGEST + self.rng.place(3)];
            for length in lengths.into_iter().chain(sequence.len().checked_sub(1)) {
                self.sequence(place as u32, length)?;
            }
            let length = self.sequences.get(place + 1).map_or(0, Vec::len);
            for output in [length, LONGEST].into_iter().chain(length.checked_sub(1)) {
                self.next(&sequence, place, output)?;
            }
        }
        Ok(())
    }

    /// Sequences with an unknown step or too many steps, and positions past the last.
    fn unlisted(&mut self) -> Result<(), String> {
        for number in 0..TRIES {
            let length = self.rng.place(12);
            let mut sequence: Vec<u32> = (0..length).map(|_| self.rng.below(7)).collect();
            if length <= LONGEST {
                let place = self.rng.place(length + 1);
                let unknown = self.rng.pick(&[7, 8, u32::MAX, u32::MAX - 6]);
                sequence.insert(place, unknown);
            }
            let output = self.rng.place(LONGEST + 2);
            self.position(&sequence, 0)?;
            self.next(&sequence, 0, output)?;
            let past = self.sequences.len() as u32 + number as u32;
            for position in [past, u32::MAX - number as u32, self.rng.next_u64() as u32] {
                self.sequence(position, output)?;
            }
        }
        Ok(())
    }

    /// Every step, and numbers that are none.
    fn steps(&mut self) -> Result<(), String> {
        let steps = reference::steps();
        let known = 0..steps.len() as u32;
        let unknown = (7..7 + TRIES as u32).chain(u32::MAX - 9..=u32::MAX);
        for number in known.chain(unknown) {
            let ours = lent::step_at(number).map(call);
            let must = steps.get(number as usize).cloned().ok_or(15);
            let name = || format!("step_at {number}");
            self.counts.agree(name, ours, must)?;
        }
        Ok(())
    }
}

/// A step as a call on a table.
fn call(step: Step) -> Call {
    match step {
        Step::Insert(cells) => Call::Insert(cells.to_vec()),
        Step::Remove(key) => Call::RemoveKey(key.to_vec()),
        Step::Merge => Call::Merge,
    }
}

fn same(name: &str, output: &[u32], expected: &[u32]) -> Result<(), String> {
    match output == expected {
        true => Ok(()),
        false => Err(format!("{name}: {output:?}, not {expected:?}")),
    }
}

pub fn compare() -> Result<String, String> {
    let mut comparison = Comparison {
        sequences: reference::sequences(),
        rng: Rng::new(10),
        counts: Counts::default(),
    };
    comparison.listed()?;
    comparison.unlisted()?;
    comparison.steps()?;
    let Counts { calls, refused } = comparison.counts;
    let [unknown, past, short] = refused;
    if refused.iter().any(|&count| count < LEAST) {
        return Err(format!(
            "short histories: too few refusals: 15: {unknown}, 16: {past}, 2: {short}"
        ));
    }
    Ok(format!(
        "short histories: {} sequences in order, each to its position and back, {calls} calls; refused by 15: {unknown}, 16: \
         {past}, 2: {short}",
        comparison.sequences.len()
    ))
}
