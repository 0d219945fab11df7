//! The reference model: the paper's plain table and its operations, written from the paper alone, with the stores that the paper
//! gives every cell of. It is simple on purpose, so that it can be read beside the paper; words in quotes are the paper's.

pub mod answers;
mod columns;
pub mod images;
mod layout;
pub mod listings;
mod queries;
mod refresh;
mod refusals;
mod rules;
mod sequences;
mod sound;
mod stores;
mod subsets;
mod table;
#[cfg(test)]
mod tests;

use calls::{Answer, Call, Contents, Expected, Header, Implementation, Lengths, Opening, Query};
pub use columns::{from_columns, test_columns, to_columns};
pub use layout::{key_hash, record, slots_in_use};
pub use refresh::test_unsound;
pub use refusals::{
    index_words, test_call, test_listing, test_query, test_records, test_soundness,
};
pub use sequences::{sequences, short_opening, steps, test_output, test_position, test_sequence};
pub use sound::is_sound;
use std::collections::BTreeMap;
use stores::Stores;

/// "State: an opening's numbers, a generation, rows live or dead, numbered from 0, staged records in order."
#[derive(Clone, Debug)]
pub struct Reference {
    /// All zeros until an opening is accepted, which is a header that test 1 refuses.
    opening: Opening,
    generation: u32,
    rows: Vec<Row>,
    staged: Vec<Staged>,
    /// "The largest sort value appended since opening or the last clear that emptied rows, and whether there is one."
    largest: Option<u32>,
    /// Sort entries, "pairs of value and first row".
    entries: Vec<(u32, u32)>,
    /// What could be counted each time: dead rows, the words of staged records, the live row of each key.
    dead: u32,
    pending_words: usize,
    index: BTreeMap<Vec<u32>, u32>,
    stores: Stores,
}

/// "Dead rows keep their cells until compaction drops them."
#[derive(Clone, Debug)]
struct Row {
    cells: Vec<u32>,
    dead: bool,
}

/// A staged record.
#[derive(Clone, Debug)]
pub enum Staged {
    Insert(Vec<u32>),
    RemoveKey(Vec<u32>),
    RemoveRow(u32, Vec<u32>),
}

impl Reference {
    pub fn new() -> Reference {
        let opening = Opening {
            columns: 0,
            keys: 0,
            sort: 0,
            rule: 0,
            capacity: 0,
            generation: 0,
        };
        Reference {
            opening,
            generation: 0,
            rows: Vec::new(),
            staged: Vec::new(),
            largest: None,
            entries: Vec::new(),
            dead: 0,
            pending_words: 0,
            index: BTreeMap::new(),
            stores: Stores::default(),
        }
    }

    /// The header of a table that shows this one.
    pub fn header(&self) -> Header {
        Header {
            columns: self.opening.columns,
            keys: self.opening.keys,
            sort: self.opening.sort,
            rule: self.opening.rule,
            capacity: self.opening.capacity,
            rows: self.row_count(),
            dead: self.dead,
            entries: self.entries.len() as u32,
            pending: self.pending_words as u32,
            generation: self.generation,
            largest: self.largest,
        }
    }

    /// What such a table's header and stores must hold.
    pub fn expected(&self) -> Expected<'_> {
        Expected {
            header: self.header(),
            rows: &self.stores.rows,
            sorts: &self.stores.sorts,
            pending: &self.stores.pending,
        }
    }

    fn row_count(&self) -> u32 {
        self.rows.len() as u32
    }

    fn is_live(&self, id: u32) -> bool {
        id < self.row_count() && !self.rows[id as usize].dead
    }

    fn cells(&self, id: u32) -> &[u32] {
        &self.rows[id as usize].cells
    }

    /// A key is "the first 1 to n columns".
    fn key(&self, id: u32) -> &[u32] {
        &self.cells(id)[..self.opening.keys as usize]
    }

    /// "Leads from a key to its one live row."
    fn find(&self, key: &[u32]) -> Option<u32> {
        self.index.get(key).copied()
    }
}

impl Default for Reference {
    fn default() -> Reference {
        Reference::new()
    }
}

impl Implementation for Reference {
    fn call(&mut self, lent: &Lengths, call: &Call) -> Answer {
        if let Err(number) = test_call(&self.header(), lent, call) {
            return Answer::Refused(number);
        }
        match call {
            Call::Open(opening) => self.open(opening),
            Call::Insert(cells) => self.stage(Staged::Insert(cells.clone())),
            Call::RemoveKey(key) => self.stage(Staged::RemoveKey(key.clone())),
            Call::RemoveRow(row, key) => self.stage(Staged::RemoveRow(*row, key.clone())),
            Call::Merge => self.merge(),
            Call::Compact => self.compact(),
            Call::Clear => self.clear(),
            Call::Refresh(refresh) => self.refresh(lent, refresh),
        }
    }

    fn reload(&mut self, lent: &Lengths, capacity: u32) -> Answer {
        match self.go_on_elsewhere(lent, capacity) {
            Ok(()) => Answer::Done,
            Err(number) => Answer::Refused(number),
        }
    }

    fn query(&self, lent: &Lengths, query: &Query) -> Answer {
        if let Err(number) = test_query(&self.header(), lent, query) {
            return Answer::Refused(number);
        }
        match query {
            Query::Lookup(key) => self.lookup(key),
            Query::Cell(key, column) => self.one_cell(key, *column),
            Query::FastRange(condition) => self.fast_range(condition),
            Query::Version => self.version(),
            Query::RowsSince(row) => self.rows_since(*row),
            Query::RowsSinceNote(_, count) => self.rows_since(*count),
            Query::Precedence { column, pairs } => self.precedence(*column as usize, pairs),
            Query::RefineOne {
                subset, condition, ..
            } => self.refine_one(subset, condition),
            Query::RefineList {
                subset, conditions, ..
            } => self.refine_list(subset, conditions),
            Query::AnyMatch { subset, conditions } => self.any_match(subset, conditions),
            Query::Page {
                subset,
                start,
                n,
                conditions,
                ..
            } => self.page(subset, (*start, *n), conditions),
            Query::Intersect { first, second, .. } => subsets::intersect(first, second),
        }
    }

    fn contents(&self) -> Contents {
        let live = (0..self.row_count()).filter(|&id| self.is_live(id));
        Contents {
            generation: self.generation,
            rows: self.row_count(),
            dead: self.dead,
            live: live.map(|id| (id, self.cells(id).to_vec())).collect(),
            sort_entries: self.entries.clone(),
        }
    }
}
