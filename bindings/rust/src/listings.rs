//! Listings as text, over outputs that are long enough, and checks of row numbers in them.

use crate::{Condition, Refusal, lent};

/// The numbers of a listing's head line, but for the row count of the new form.
#[derive(Clone, Copy, Debug, PartialEq, Eq, Hash)]
pub struct ListingHead {
    /// The number of columns.
    pub columns: u32,
    /// How many of the first columns are the key.
    pub keys: u32,
    /// The sort column.
    pub sort: u32,
    /// The number of the merge rule.
    pub rule: u32,
    /// The generation.
    pub generation: u32,
}

/// A listing in the new form.
#[derive(Clone, Debug, PartialEq, Eq, Hash)]
pub struct Listing {
    /// The numbers of the head line.
    pub head: ListingHead,
    /// Every row number is below it.
    pub count: u32,
    /// Numbers and cells, rising by number.
    pub rows: Vec<(u32, Vec<u32>)>,
}

/// The result of a check of row numbers from another program.
#[derive(Clone, Copy, Debug, PartialEq, Eq, Hash)]
pub enum Verdict {
    /// They are, rising and each once, those of the rows that meet every condition.
    Right,
    /// They do not rise strictly: the number at this place, from 0, is the first that is not above the one before.
    Misplaced(usize),
    /// They rise, and this is the lowest row number wrongly present or absent. One without a row counts as wrongly present.
    Wrong(u32),
}

/// Every number has a comma before it, so that there are at most half as many as bytes.
fn room(text: &[u8]) -> Vec<u32> {
    vec![0; text.len() / 2]
}

/// The head's numbers and the rows' cells of a listing in the old form. Refused by 11.
///
/// ```
/// let (head, rows) = mouldgrey::read_listing(b"T,2,1,1,0,0\nD,7,1\n").unwrap();
/// assert_eq!((head.columns, rows), (2, vec![vec![7, 1]]));
/// ```
pub fn read_listing(text: &[u8]) -> Result<(ListingHead, Vec<Vec<u32>>), Refusal> {
    let mut output = room(text);
    let (head, rows) = lent::read_listing(text, &mut output)?;
    let cells = output.chunks(head.columns as usize).take(rows);
    Ok((head, cells.map(<[u32]>::to_vec).collect()))
}

/// A listing in the new form. Refused by 11.
///
/// ```
/// let listing = mouldgrey::read_numbered(b"U,2,1,1,0,0,5\nD,3,7,1\n").unwrap();
/// assert_eq!((listing.count, listing.rows), (5, vec![(3, vec![7, 1])]));
/// ```
pub fn read_numbered(text: &[u8]) -> Result<Listing, Refusal> {
    let mut output = room(text);
    let (head, count, rows) = lent::read_numbered(text, &mut output)?;
    let lines = output.chunks(head.columns as usize + 1).take(rows);
    Ok(Listing {
        head,
        count,
        rows: lines.map(|line| (line[0], line[1..].to_vec())).collect(),
    })
}

/// A listing in the old form as text in the new one: rows are numbered from 0. Refused by 11.
///
/// ```
/// let text = mouldgrey::to_numbered(b"T,2,1,1,0,0\nD,7,1\n").unwrap();
/// assert_eq!(text, b"U,2,1,1,0,0,1\nD,0,7,1\n");
/// assert_eq!(mouldgrey::from_numbered(&text).unwrap(), b"T,2,1,1,0,0\nD,7,1\n");
/// ```
pub fn to_numbered(text: &[u8]) -> Result<Vec<u8>, Refusal> {
    // Each line gets one number more, which takes at most six bytes with its comma, and has at least four.
    let mut output = vec![0; 3 * text.len()];
    let bytes = lent::to_numbered(text, &mut output)?;
    output.truncate(bytes);
    Ok(output)
}

/// A listing in the new form as text in the old one. Refused by 11 and 17.
pub fn from_numbered(text: &[u8]) -> Result<Vec<u8>, Refusal> {
    let mut output = vec![0; text.len()];
    let bytes = lent::from_numbered(text, &mut output)?;
    output.truncate(bytes);
    Ok(output)
}

/// Checks the row numbers that another program has found for the rows of a listing in the new form that meet every condition; no condition
/// is met by every row. Refused by 11 and 6.
///
/// ```
/// use mouldgrey::{Condition, Verdict, check_answers};
///
/// let text = b"U,2,1,1,0,0,5\nD,0,7,1\nD,3,8,1\n";
/// assert_eq!(check_answers(text, &[Condition::eq(1, 1)], &[0, 3]), Ok(Verdict::Right));
/// assert_eq!(check_answers(text, &[Condition::eq(1, 1)], &[0]), Ok(Verdict::Wrong(3)));
/// ```
pub fn check_answers(
    text: &[u8],
    conditions: &[Condition],
    given: &[u32],
) -> Result<Verdict, Refusal> {
    lent::check_answers(text, Condition::as_constraints(conditions), given)
}
