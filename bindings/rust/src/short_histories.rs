//! Every sequence of at most six steps, over outputs that are long enough.

use crate::{Refusal, lent};

/// The longest sequence has so many steps.
pub const LONGEST: usize = 6;

/// What a step does, on a table of three columns, one key and sort column 1.
#[derive(Clone, Copy, Debug, PartialEq, Eq, Hash)]
pub enum Step {
    /// Stages an insert of a row: key, stamp, third cell.
    Insert([u32; 3]),
    /// Stages a removal by key.
    Remove([u32; 1]),
    /// Applies what is staged.
    Merge,
}

impl Step {
    /// The step of a number from 0 to 6. Refused by 15.
    pub fn numbered(number: u32) -> Result<Step, Refusal> {
        lent::step_at(number)
    }
}

/// The position of a sequence, from 0. Refused by 15.
///
/// ```
/// use mouldgrey::{position_of, sequence_at};
///
/// assert_eq!(position_of(&[0, 6]), Ok(14));
/// assert_eq!(sequence_at(14), Ok(vec![0, 6]));
/// ```
pub fn position_of(sequence: &[u32]) -> Result<u32, Refusal> {
    lent::position_of(sequence)
}

/// The sequence at a position. Refused by 16.
pub fn sequence_at(position: u32) -> Result<Vec<u32>, Refusal> {
    let mut output = [0; LONGEST];
    let steps = lent::sequence_at(position, &mut output)?;
    Ok(output[..steps].to_vec())
}

/// Every sequence, shorter before longer, equal lengths in the order of their first differing step.
#[derive(Clone, Debug, Default)]
pub struct ShortHistories {
    /// The last one given; none before the first.
    last: Option<Vec<u32>>,
}

impl ShortHistories {
    /// From the empty sequence on.
    ///
    /// ```
    /// assert_eq!(mouldgrey::ShortHistories::new().count(), 137_257);
    /// ```
    pub fn new() -> ShortHistories {
        ShortHistories::default()
    }
}

impl Iterator for ShortHistories {
    type Item = Vec<u32>;

    fn next(&mut self) -> Option<Vec<u32>> {
        let next = match &self.last {
            None => Vec::new(),
            Some(last) => {
                let mut output = [0; LONGEST];
                let steps = lent::next_sequence(last, &mut output);
                let steps = steps.expect("a sequence that was given, and room")?;
                output[..steps].to_vec()
            }
        };
        self.last = Some(next.clone());
        Some(next)
    }
}
