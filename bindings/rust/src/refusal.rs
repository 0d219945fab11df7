//! The numbers by which the library refuses a call or stops a merge, and the errors made of them.

use std::fmt;

/// Why a call was refused. The numbers are the paper's; a refusal has changed nothing that was lent.
#[non_exhaustive]
#[derive(Clone, Copy, Debug, PartialEq, Eq, Hash)]
pub enum Refusal {
    /// A header's number or a width is outside its bounds, or more pending words are in use than the pending store has.
    OutOfBounds = 1,
    /// A lent store, or an output, is shorter than needed.
    TooShort = 2,
    /// Not as many cells as the table has columns, or key columns.
    WrongWidth = 3,
    /// A range that starts above its end, or a list that does not rise strictly or has more than 65,536 ids.
    MalformedSubset = 4,
    /// A row number, a subset's end or a start place past what there is.
    PastTheRows = 5,
    /// A column that does not exist, or is not a key column where one is asked for, or a condition of an unknown kind.
    NoSuchColumn = 6,
    /// The pending store has no room for the record, or for all records of a refresh.
    PendingFull = 7,
    /// The stamp of a refresh is below the largest sort value appended.
    OldSortValue = 9,
    /// The generation is 4294967295 and cannot rise.
    LastGeneration = 10,
    /// A text that is no listing of the form named.
    NoListing = 11,
    /// More than eight columns are named.
    TooManyColumns = 12,
    /// A number of cells that is not a multiple of the width.
    BrokenRow = 13,
    /// A number of pairs outside 1 to 16.
    PairCount = 14,
    /// A sequence of more than six steps, or a step that does not exist.
    UnknownSequence = 15,
    /// A position past that of the last sequence.
    PastTheLast = 16,
    /// A listing in which a number below the count has no row.
    MissingRow = 17,
    /// A noted version of another generation, or of more rows than there are.
    OldNote = 18,
    /// Words, or bytes, that are no image.
    NoImage = 19,
    /// An image of a table that is not sound.
    UnsoundImage = 20,
    /// A text of more than 4,096 bytes.
    TextTooLong = 21,
}

/// Why a merge stopped.
#[derive(Clone, Copy, Debug, PartialEq, Eq, Hash)]
pub enum StopReason {
    /// The row must be appended, and the table has as many rows as its capacity.
    TableFull = 8,
    /// The row must be appended, and its sort value is below the largest one appended.
    OldSortValue = 9,
}

/// Where and why a merge stopped. Work done before the stop remains; this insert and all later ones are dropped.
#[derive(Clone, Copy, Debug, PartialEq, Eq, Hash)]
pub struct Stop {
    /// Why it stopped.
    pub reason: StopReason,
    /// Which of all staged inserts it stopped at, counted from 0.
    pub place: u32,
}

/// A call was refused, or a merge stopped.
///
/// ```
/// use mouldgrey::{Error, Refusal};
///
/// let error = Error::from(Refusal::WrongWidth);
/// assert_eq!(error.to_string(), "refused 3: wrong number of cells");
/// ```
#[derive(Clone, Copy, Debug, PartialEq, Eq, Hash)]
pub enum Error {
    /// The call was refused and has changed nothing.
    Refused(Refusal),
    /// The merge stopped: part of the batch was applied, the rest is dropped.
    Stopped(Stop),
}

impl Refusal {
    /// All refusals, by number.
    pub const ALL: [Refusal; 20] = [
        Refusal::OutOfBounds,
        Refusal::TooShort,
        Refusal::WrongWidth,
        Refusal::MalformedSubset,
        Refusal::PastTheRows,
        Refusal::NoSuchColumn,
        Refusal::PendingFull,
        Refusal::OldSortValue,
        Refusal::LastGeneration,
        Refusal::NoListing,
        Refusal::TooManyColumns,
        Refusal::BrokenRow,
        Refusal::PairCount,
        Refusal::UnknownSequence,
        Refusal::PastTheLast,
        Refusal::MissingRow,
        Refusal::OldNote,
        Refusal::NoImage,
        Refusal::UnsoundImage,
        Refusal::TextTooLong,
    ];

    /// The paper's number.
    pub fn number(self) -> u32 {
        self as u32
    }

    /// The refusal with this number.
    pub fn from_number(number: u32) -> Option<Refusal> {
        Refusal::ALL.into_iter().find(|it| it.number() == number)
    }
}

impl StopReason {
    /// All reasons, by number.
    pub const ALL: [StopReason; 2] = [StopReason::TableFull, StopReason::OldSortValue];

    /// The paper's number.
    pub fn number(self) -> u32 {
        self as u32
    }

    /// The reason with this number.
    pub fn from_number(number: u32) -> Option<StopReason> {
        StopReason::ALL.into_iter().find(|it| it.number() == number)
    }
}

impl From<Refusal> for Error {
    fn from(refusal: Refusal) -> Error {
        Error::Refused(refusal)
    }
}

impl From<Stop> for Error {
    fn from(stop: Stop) -> Error {
        Error::Stopped(stop)
    }
}

impl fmt::Display for Refusal {
    fn fmt(&self, f: &mut fmt::Formatter<'_>) -> fmt::Result {
        let number = self.number();
        write!(f, "refused {number}: {}", crate::refusal_text(number))
    }
}

impl std::error::Error for Refusal {}

impl fmt::Display for Stop {
    fn fmt(&self, f: &mut fmt::Formatter<'_>) -> fmt::Result {
        let (number, place) = (self.reason.number(), self.place);
        let why = crate::refusal_text(number);
        write!(f, "stopped {number} at insert {place}: {why}")
    }
}

impl std::error::Error for Stop {}

impl fmt::Display for Error {
    fn fmt(&self, f: &mut fmt::Formatter<'_>) -> fmt::Result {
        match self {
            Error::Refused(refusal) => refusal.fmt(f),
            Error::Stopped(stop) => stop.fmt(f),
        }
    }
}

impl std::error::Error for Error {}
