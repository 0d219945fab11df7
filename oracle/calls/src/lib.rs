//! Calls, queries and answers: the types that the implementations of the table and the generator share. Nothing here decides anything.

/// The dead mark: a row whose first cell is this is dead.
pub const DEAD: u32 = u32::MAX;

/// The numbers of an opening.
#[derive(Clone, Copy, Debug, PartialEq, Eq)]
pub struct Opening {
    pub columns: u32,
    pub keys: u32,
    pub sort: u32,
    pub rule: u32,
    pub capacity: u32,
    pub generation: u32,
}

/// A header's numbers, in the paper's order, and the largest sort value appended since opening or the last clear that emptied
/// rows, if there is one.
#[derive(Clone, Copy, Debug, Default, PartialEq, Eq)]
pub struct Header {
    pub columns: u32,
    pub keys: u32,
    pub sort: u32,
    pub rule: u32,
    pub capacity: u32,
    pub rows: u32,
    pub dead: u32,
    pub entries: u32,
    pub pending: u32,
    pub generation: u32,
    pub largest: Option<u32>,
}

/// How many words a header has.
pub const HEADER_WORDS: usize = 12;

impl Header {
    pub fn words(&self) -> [u32; HEADER_WORDS] {
        [
            self.columns,
            self.keys,
            self.sort,
            self.rule,
            self.capacity,
            self.rows,
            self.dead,
            self.entries,
            self.pending,
            self.generation,
            u32::from(self.largest.is_some()),
            self.largest.unwrap_or(0),
        ]
    }

    /// A word for whether there is a largest value that is neither 0 nor 1 fails test 1: here it is read as no columns.
    pub fn from_words(words: &[u32; HEADER_WORDS]) -> Header {
        let [columns, keys, sort, rule, capacity, ..] = *words;
        let [.., rows, dead, entries, pending, generation, flag, largest] = *words;
        Header {
            columns: if flag <= 1 { columns } else { 0 },
            keys,
            sort,
            rule,
            capacity,
            rows,
            dead,
            entries,
            pending,
            generation,
            largest: (flag == 1).then_some(largest),
        }
    }

    /// The numbers that its opening was given. The first generation is not among them; the present one takes its place.
    pub fn opening(&self) -> Opening {
        Opening {
            columns: self.columns,
            keys: self.keys,
            sort: self.sort,
            rule: self.rule,
            capacity: self.capacity,
            generation: self.generation,
        }
    }
}

/// The lengths of the stores that a call is lent, in words.
#[derive(Clone, Copy, Debug, PartialEq, Eq)]
pub struct Lengths {
    pub rows: usize,
    pub keys: usize,
    pub sort_entries: usize,
    pub pending: usize,
    /// Compaction words: the u64 that mark live rows, and the u32 beside them.
    pub live_words: usize,
    pub base_words: usize,
    /// The index store, which a refresh alone is lent.
    pub index: usize,
}

/// A header and stores, sound or not.
#[derive(Clone, Copy, Debug)]
pub struct Held<'a> {
    pub header: Header,
    pub rows: &'a [u32],
    pub keys: &'a [u32],
    pub sorts: &'a [u32],
    pub pending: &'a [u32],
}

/// What a header and stores must hold after a call: of each store the cells from its start on, as far as one was ever written.
/// Past them all cells are as they came. The key store is not here: its cells are the program's choice.
#[derive(Clone, Copy, Debug)]
pub struct Expected<'a> {
    pub header: Header,
    pub rows: &'a [u32],
    pub sorts: &'a [u32],
    pub pending: &'a [u32],
}

/// A call that may change the table.
#[derive(Clone, Debug, PartialEq, Eq)]
pub enum Call {
    Open(Opening),
    Insert(Vec<u32>),
    RemoveKey(Vec<u32>),
    RemoveRow(u32, Vec<u32>),
    Merge,
    Compact,
    Clear,
    Refresh(Refresh),
}

/// A refresh of the rows that mention a value.
#[derive(Clone, Debug, PartialEq, Eq)]
pub struct Refresh {
    pub index: Index,
    /// The named columns and the changed values.
    pub columns: Vec<u32>,
    pub values: Vec<u32>,
    pub stamp: u32,
}

/// The index store that a refresh is lent: which of `INDEX_STORES`, and what another does to it just before.
#[derive(Clone, Copy, Debug, PartialEq, Eq)]
pub struct Index {
    pub store: usize,
    pub before: Before,
}

/// How many index stores there are. They outlive an opening, and are new until a refresh has written them.
pub const INDEX_STORES: usize = 4;

/// What another does to an index store.
#[derive(Clone, Copy, Debug, PartialEq, Eq)]
pub enum Before {
    Nothing,
    /// Makes it new: its first word is 0, the others are of no meaning.
    Renew,
    /// Makes it a copy of that store as it is now.
    Copy(usize),
    /// Fills it with random words, of this seed. The first is not 0.
    Fill(u32),
    /// Changes the word at this place to that one.
    Change(u32, u32),
}

/// A row that a refresh has staged: its number and key, to be removed, and its cells with the stamp, to be inserted.
#[derive(Clone, Debug, PartialEq, Eq)]
pub struct Restamped {
    pub row: u32,
    pub key: Vec<u32>,
    pub cells: Vec<u32>,
}

/// A subset: a dense range, end not included, or a list of ids.
#[derive(Clone, Debug, PartialEq, Eq)]
pub enum Subset {
    Range(u32, u32),
    List(Vec<u32>),
}

/// A condition: kind 0 to 5, a column, and a column or a value.
#[derive(Clone, Copy, Debug, PartialEq, Eq)]
pub struct Condition {
    pub kind: u32,
    pub a: u32,
    pub b: u32,
}

/// A call that changes nothing but its output. `output` is the length of the lent output.
#[derive(Clone, Debug, PartialEq, Eq)]
pub enum Query {
    Lookup(Vec<u32>),
    Cell(Vec<u32>, u32),
    FastRange(Condition),
    Version,
    RowsSince(u32),
    /// The rows since a noted version: generation and row count.
    RowsSinceNote(u32, u32),
    /// Whether what comes before is on file: a key column and pairs of values, two words each.
    Precedence {
        column: u32,
        pairs: Vec<u32>,
    },
    RefineOne {
        subset: Subset,
        condition: Condition,
        output: usize,
    },
    RefineList {
        subset: Subset,
        conditions: Vec<Condition>,
        output: usize,
    },
    AnyMatch {
        subset: Subset,
        conditions: Vec<Condition>,
    },
    Page {
        subset: Subset,
        start: u32,
        n: u64,
        conditions: Vec<Condition>,
        output: usize,
    },
    Intersect {
        first: Subset,
        second: Subset,
        output: usize,
    },
}

/// The answer of a call or a query.
#[derive(Clone, Debug, PartialEq, Eq)]
pub enum Answer {
    /// Refused by this number; nothing changed.
    Refused(u32),
    /// Accepted, without a value: opening, staging, compact, clear.
    Done,
    /// A merge: the stop's number and place (both 0 if it did not stop), whether a row was appended, and how many rows its own
    /// compaction kept and dropped (both 0 if there was none).
    Merged {
        status: u32,
        place: u32,
        added: bool,
        kept: u32,
        dropped: u32,
    },
    /// A refresh: whether it returned that a row was staged, and the rows that it staged, in staging order.
    Refreshed(bool, Vec<Restamped>),
    /// A lookup that found no live row, a fast range that is none, or pairs that every row meets.
    None,
    /// The live row of a key: its number and cells.
    Row(u32, Vec<u32>),
    Cell(u32),
    Subset(Subset),
    Version {
        generation: u32,
        rows: u32,
    },
    Match(bool),
    /// The lowest row that fails a pair, and the place of the first pair that it fails.
    Fails(u32, u32),
    /// The ids written, how many of those visited have a dead row, and the next place, if any.
    Page {
        ids: Vec<u32>,
        dead: u32,
        next: Option<u32>,
    },
}

/// What can be seen of a whole table, for comparison after each call.
#[derive(Clone, Debug, PartialEq, Eq)]
pub struct Contents {
    pub generation: u32,
    pub rows: u32,
    pub dead: u32,
    /// Live rows, rising: number and cells.
    pub live: Vec<(u32, Vec<u32>)>,
    /// Pairs of value and first row.
    pub sort_entries: Vec<(u32, u32)>,
}

/// An implementation of the table.
pub trait Implementation {
    fn call(&mut self, lent: &Lengths, call: &Call) -> Answer;
    fn query(&self, lent: &Lengths, query: &Query) -> Answer;
    fn contents(&self) -> Contents;

    /// Saves the table as an image, reads it into other stores of the lengths lent, with this capacity, or with 0 its own, and goes on
    /// there. An implementation without stores has nothing to do.
    fn reload(&mut self, _lent: &Lengths, _capacity: u32) -> Answer {
        Answer::Done
    }

    /// The first difference of its header and stores, if it has any, from those expected. `whole`: all of them are compared, else only
    /// what a staging may change.
    fn unlike(&self, _expected: &Expected, _whole: bool) -> Option<String> {
        None
    }
}
