//! Testing a laboratory's answers (document 02, change 13), by sets; words in quotes are the document's.

use crate::listings::{Form, Listing, read};
use crate::queries::meets_all;
use crate::refusals::test_conditions;
use calls::Condition;
use std::collections::BTreeSet;

/// The verdict on the numbers given.
#[derive(Clone, Copy, Debug, PartialEq)]
pub enum Verdict {
    Right,
    /// At this place.
    Misplaced(usize),
    /// This row number is wrongly present or absent.
    Wrong(u32),
}

/// The numbers of "the rows of the listing that meet every condition"; their tests have been made. No row of a listing is dead.
pub fn right_numbers(listing: &Listing, conditions: &[Condition]) -> BTreeSet<u32> {
    let is_right = |row: &&Vec<u32>| meets_all(&row[1..], conditions);
    let right = listing.rows.iter().filter(is_right);
    right.map(|row| row[0]).collect()
}

/// "The place, from 0, of the first number not above the one before."
fn misplaced(given: &[u32]) -> Option<usize> {
    (1..given.len()).find(|&place| given[place] <= given[place - 1])
}

/// "It says yes exactly if those numbers are, rising and each once, the rows of the listing that meet every condition. Otherwise it
/// answers the lowest row number wrongly present or absent, or, if the list is not strictly rising, the place." "A number without a
/// row in the listing counts as wrongly present": no row that is right has it. "After 11 comes 6, as for any condition."
pub fn check_answers(text: &[u8], conditions: &[Condition], given: &[u32]) -> Result<Verdict, u32> {
    let listing = read(Form::New, text)?;
    test_conditions(listing.head[0], conditions)?;
    let right = right_numbers(&listing, conditions);
    let present: BTreeSet<u32> = given.iter().copied().collect();
    let wrong = present.symmetric_difference(&right).min();
    Ok(match (misplaced(given), wrong) {
        (Some(place), _) => Verdict::Misplaced(place),
        (None, Some(&number)) => Verdict::Wrong(number),
        (None, None) => Verdict::Right,
    })
}
