//! The row, sort-entry and pending stores, cell by cell, as the paper defines them after each call: "No step writes row or
//! sort cells past the counts that it leaves. A compaction leaves past its new counts what stood there just before it, its
//! merge's earlier writes included." A row that dies gets the dead mark and keeps its other cells.

use calls::{DEAD, Held};

/// Of each store the cells from its start on, as far as one was ever written. They outlive an opening, which writes none.
#[derive(Clone, Debug, Default)]
pub struct Stores {
    pub rows: Vec<u32>,
    pub sorts: Vec<u32>,
    pub pending: Vec<u32>,
}

/// Writes words into a store at a place that is not past what was written.
fn put(store: &mut Vec<u32>, at: usize, words: &[u32]) {
    let end = at + words.len();
    if store.len() < end {
        store.resize(end, 0);
    }
    store[at..end].copy_from_slice(words);
}

impl Stores {
    /// Stores as they are.
    pub fn of(held: &Held) -> Stores {
        Stores {
            rows: held.rows.to_vec(),
            sorts: held.sorts.to_vec(),
            pending: held.pending.to_vec(),
        }
    }

    /// Row `id` has these cells, as many as there are columns.
    pub fn put_row(&mut self, id: u32, cells: &[u32]) {
        put(&mut self.rows, id as usize * cells.len(), cells);
    }

    /// Row `id` of so many columns dies.
    pub fn kill_row(&mut self, id: u32, columns: u32) {
        self.rows[id as usize * columns as usize] = DEAD;
    }

    /// A pair of value and first row.
    pub fn put_entry(&mut self, place: usize, (value, row): (u32, u32)) {
        put(&mut self.sorts, 2 * place, &[value, row]);
    }

    /// A record's words behind those that are in use.
    pub fn put_record(&mut self, used: usize, words: &[u32]) {
        put(&mut self.pending, used, words);
    }
}
