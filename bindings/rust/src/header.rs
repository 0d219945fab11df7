//! A table's numbers.

use crate::{Stop, raw};

/// The first cell of a dead row. In any other column it is an ordinary value.
pub const DEAD: u32 = u32::MAX;

/// What becomes of a known key's row when a new row with that key is inserted. Key cells are equal; the sort cell of a row that
/// is made is the new row's. If no cell outside keys and sort column changes, the old row stays as it is.
///
/// ```
/// use mouldgrey::Rule;
///
/// assert_eq!(Rule::TakeNew.number(), 1);
/// assert_eq!(Rule::from_number(3), Some(Rule::TakeLarger));
/// ```
#[derive(Clone, Copy, Debug, PartialEq, Eq, Hash)]
#[repr(u32)]
pub enum Rule {
    /// The old row stays.
    KeepOld = 0,
    /// Cells outside keys and sort column are the new row's.
    TakeNew = 1,
    /// The smaller of each such cell, read as an `i32`: 4294967295 is minus one.
    TakeSmaller = 2,
    /// The larger of each such cell, read as an `i32`.
    TakeLarger = 3,
}

impl Rule {
    /// All rules, by number.
    pub const ALL: [Rule; 4] = [
        Rule::KeepOld,
        Rule::TakeNew,
        Rule::TakeSmaller,
        Rule::TakeLarger,
    ];

    /// The rule's number.
    pub fn number(self) -> u32 {
        self as u32
    }

    /// The rule with this number.
    pub fn from_number(number: u32) -> Option<Rule> {
        Rule::ALL.get(number as usize).copied()
    }
}

/// What a table is opened with.
///
/// ```
/// use mouldgrey::{Opening, Rule};
///
/// let opening = Opening { columns: 4, keys: 2, sort: 3, rule: Rule::TakeNew, capacity: 100, generation: 0 };
/// assert_eq!(opening.lengths().rows, 400);
/// ```
#[derive(Clone, Copy, Debug, PartialEq, Eq, Hash)]
pub struct Opening {
    /// The number of columns: 1 to 8.
    pub columns: u32,
    /// The first 1 to `columns` columns are the key.
    pub keys: u32,
    /// The column by whose values rows are recorded in order. It may be a key column.
    pub sort: u32,
    /// What becomes of a known key's row.
    pub rule: Rule,
    /// The most rows, dead ones included: 1 to 65,536.
    pub capacity: u32,
    /// The first generation.
    pub generation: u32,
}

impl Opening {
    /// How long the stores of such a table must be.
    pub fn lengths(&self) -> Lengths {
        Lengths::needed(self.columns, self.capacity)
    }
}

impl From<&Opening> for raw::Opening {
    fn from(opening: &Opening) -> raw::Opening {
        raw::Opening {
            columns: opening.columns,
            keys: opening.keys,
            sort: opening.sort,
            rule: opening.rule.number(),
            capacity: opening.capacity,
            generation: opening.generation,
        }
    }
}

/// A header: twelve words, in this order, as the C functions read and write them.
#[repr(C)]
#[derive(Clone, Copy, Debug, Default, PartialEq, Eq)]
pub struct Header {
    /// The number of columns.
    pub columns: u32,
    /// How many of the first columns are the key.
    pub keys: u32,
    /// The sort column.
    pub sort: u32,
    /// The number of the merge rule.
    pub rule: u32,
    /// The most rows, dead ones included.
    pub capacity: u32,
    /// Rows in the row store, dead ones included.
    pub rows: u32,
    /// Dead rows among them.
    pub dead: u32,
    /// Pairs in the sort-entry store.
    pub entries: u32,
    /// Words in use in the pending store.
    pub pending: u32,
    /// Rises with each compaction, and with a clear that drops rows.
    pub generation: u32,
    /// 1 if there is a largest sort value, else 0: [`largest`](Header::largest) has both words in one.
    pub has_largest: u32,
    /// The value; 0 and not looked at if there is none.
    pub largest_value: u32,
}

/// How many words a header has.
pub const HEADER_WORDS: usize = 12;

impl Header {
    /// The twelve words.
    pub fn words(&self) -> [u32; HEADER_WORDS] {
        [
            self.columns,
            self.keys,
            self.sort,
            self.rule,
            self.capacity,
            self.rows,
            self.dead,
            self.entries,
            self.pending,
            self.generation,
            self.has_largest,
            self.largest_value,
        ]
    }

    /// The header with these words.
    pub fn from_words(words: [u32; HEADER_WORDS]) -> Header {
        let [
            columns,
            keys,
            sort,
            rule,
            capacity,
            rows,
            dead,
            entries,
            pending,
            generation,
            has_largest,
            largest_value,
        ] = words;
        Header {
            columns,
            keys,
            sort,
            rule,
            capacity,
            rows,
            dead,
            entries,
            pending,
            generation,
            has_largest,
            largest_value,
        }
    }

    /// The largest sort value appended since opening or the last clear that dropped rows: no row with a smaller one is
    /// appended.
    pub fn largest(&self) -> Option<u32> {
        (self.has_largest == 1).then_some(self.largest_value)
    }

    /// How long the stores of a table with these numbers must be.
    pub fn lengths(&self) -> Lengths {
        Lengths::needed(self.columns, self.capacity)
    }
}

/// The lengths of a table's stores, in words of their kind. The pending store may have any length and is not among them.
#[derive(Clone, Copy, Debug, PartialEq, Eq)]
pub struct Lengths {
    /// Words of the row store.
    pub rows: usize,
    /// Words of the key store.
    pub keys: usize,
    /// Words of the sort-entry store.
    pub sorts: usize,
    /// Compaction words of 64 bits.
    pub live: usize,
    /// Compaction words of 32 bits.
    pub base: usize,
}

impl Lengths {
    /// What a table of this many columns and this capacity needs.
    pub fn needed(columns: u32, capacity: u32) -> Lengths {
        let capacity = capacity as usize;
        Lengths {
            rows: capacity * columns as usize,
            keys: 2 * capacity,
            sorts: 2 * capacity,
            live: capacity.div_ceil(64),
            base: capacity.div_ceil(64),
        }
    }
}

/// What a merge over borrowed stores returns. A stop is in it: see [`accepted`](Merge::accepted).
#[must_use = "a merge may have stopped, and then dropped staged rows"]
#[derive(Clone, Copy, Debug, PartialEq, Eq)]
pub struct Merge {
    /// Why and where it stopped. Work done before the stop remains; the other staged inserts are dropped.
    pub stop: Option<Stop>,
    /// What it did.
    pub merged: Merged,
}

/// What a merge did.
#[derive(Clone, Copy, Debug, PartialEq, Eq)]
pub struct Merged {
    /// A row was appended.
    pub added: bool,
    /// How many rows its own compaction kept, 0 if there was none.
    pub kept: u32,
    /// How many rows its own compaction dropped: above 16, or 0 if there was none.
    pub dropped: u32,
}

impl Merge {
    /// What the merge did, or its stop as an error.
    ///
    /// ```
    /// use mouldgrey::{Merge, Merged, Stop, StopReason};
    ///
    /// let stop = Stop { reason: StopReason::TableFull, place: 3 };
    /// let merge = Merge { stop: Some(stop), merged: Merged { added: true, kept: 0, dropped: 0 } };
    /// assert_eq!(merge.accepted(), Err(stop));
    /// ```
    pub fn accepted(self) -> Result<Merged, Stop> {
        match self.stop {
            None => Ok(self.merged),
            Some(stop) => Err(stop),
        }
    }
}

/// A table's version: its generation and row count.
#[repr(C)]
#[derive(Clone, Copy, Debug, PartialEq, Eq, Hash)]
pub struct Version {
    /// The generation.
    pub generation: u32,
    /// The row count, dead rows included.
    pub rows: u32,
}
