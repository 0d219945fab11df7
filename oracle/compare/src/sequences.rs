//! Every short history of document 02 (change 10): the sequences that the proved generator gives, under all four rules.

use crate::history::{Act, Step, needed};
use calls::Call;
use mouldgrey::ShortHistories;

/// Space for six inserts of three cells.
const PENDING: usize = 6 * 5;

/// All sequences of the proved generator under each rule, as histories.
pub fn histories() -> impl Iterator<Item = Vec<Step>> {
    (0..4).flat_map(|rule| ShortHistories::new().map(move |sequence| history(rule, &sequence)))
}

/// The table opened, and the steps of a sequence.
fn history(rule: u32, sequence: &[u32]) -> Vec<Step> {
    let opening = reference::short_opening(rule);
    let lent = needed(&opening, PENDING);
    let act = |call| Step {
        lent,
        act: Act::Call(call),
    };
    let mut history = vec![act(Call::Open(opening))];
    history.extend(sequence.iter().map(|&step| act(call(step))));
    history
}

/// What a step is, by the proved library.
fn call(step: u32) -> Call {
    match mouldgrey::Step::numbered(step).expect("a step of the generator") {
        mouldgrey::Step::Insert(cells) => Call::Insert(cells.to_vec()),
        mouldgrey::Step::Remove(key) => Call::RemoveKey(key.to_vec()),
        mouldgrey::Step::Merge => Call::Merge,
    }
}
