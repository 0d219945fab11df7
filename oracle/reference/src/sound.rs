//! The reference model's own soundness check, from the paper's paragraph "A table is *sound* if", and the plain table that sound
//! stores show. The key store's and the pending store's layout is in `layout`.

use crate::layout::{home, records, row_of, slot_word, slots_in_use};
use crate::refusals::test_soundness;
use crate::stores::Stores;
use crate::{Reference, Row};
use calls::{DEAD, Header, Held, Lengths};
use std::collections::BTreeMap;

/// Whether header and stores are sound; refused by 1 and 2.
pub fn is_sound(held: &Held) -> Result<bool, u32> {
    test_soundness(&held.header, &lengths(held))?;
    let h = &held.header;
    let slots = &held.keys[..slots_in_use(h.capacity, h.rows)];
    Ok(is_contents_sound(held) && Rows::of(held).keys_lead_to_live_rows(slots))
}

/// What soundness requires of everything but the key store, of stores that hold the words in use.
pub(crate) fn is_contents_sound(held: &Held) -> bool {
    let held = &Rows::of(held);
    held.counts_the_dead()
        && held.keys_differ()
        && held.entries_rise()
        && held.sort_cells_are_recorded()
        && held.no_entry_exceeds_the_largest()
        && held.records_are_whole()
}

fn lengths(held: &Held) -> Lengths {
    Lengths {
        rows: held.rows.len(),
        keys: held.keys.len(),
        sort_entries: held.sorts.len(),
        pending: held.pending.len(),
        live_words: 0,
        base_words: 0,
        index: 0,
    }
}

/// The parts of header and stores that count.
struct Rows<'a> {
    header: Header,
    rows: Vec<&'a [u32]>,
    /// Value and first row.
    entries: Vec<(u32, u32)>,
    pending: &'a [u32],
}

impl<'a> Rows<'a> {
    /// Of a header that passed test 1, and stores that hold the words in use.
    fn of(held: &Held<'a>) -> Rows<'a> {
        let h = held.header;
        let rows = held.rows.chunks(h.columns as usize);
        let entries = held.sorts.chunks(2).map(|pair| (pair[0], pair[1]));
        Rows {
            header: h,
            rows: rows.take(h.rows as usize).collect(),
            entries: entries.take(h.entries as usize).collect(),
            pending: &held.pending[..h.pending as usize],
        }
    }

    fn is_live(&self, row: u32) -> bool {
        let cells = self.rows.get(row as usize);
        cells.is_some_and(|cells| cells[0] != DEAD)
    }

    fn live(&self) -> impl Iterator<Item = u32> + '_ {
        (0..self.header.rows).filter(|&row| self.is_live(row))
    }

    fn key(&self, row: u32) -> &'a [u32] {
        &self.rows[row as usize][..self.header.keys as usize]
    }

    /// "Its dead count is the number of dead rows."
    fn counts_the_dead(&self) -> bool {
        let dead = self.header.rows as usize - self.live().count();
        self.header.dead as usize == dead
    }

    /// "Live keys differ."
    fn keys_differ(&self) -> bool {
        let mut keys: Vec<&[u32]> = self.live().map(|row| self.key(row)).collect();
        keys.sort_unstable();
        keys.windows(2).all(|pair| pair[0] != pair[1])
    }

    /// "Sort entries rise strictly, lie below the row count and begin at row 0 where there is a row."
    fn entries_rise(&self) -> bool {
        let rows = self.header.rows;
        let mut pairs = self.entries.windows(2);
        pairs.all(|pair| pair[0].0 < pair[1].0 && pair[0].1 < pair[1].1)
            && self.entries.iter().all(|entry| entry.1 < rows)
            && (rows == 0 || self.entries.first().is_some_and(|entry| entry.1 == 0))
    }

    /// "The value of the last entry at or below its row." Entries rise.
    fn recorded(&self, row: u32) -> Option<u32> {
        let at_or_below = self.entries.partition_point(|entry| entry.1 <= row);
        Some(self.entries[at_or_below.checked_sub(1)?].0)
    }

    /// "Each live sort cell is the value of the last entry at or below its row."
    fn sort_cells_are_recorded(&self) -> bool {
        let sort = self.header.sort as usize;
        let cell = |row: u32| self.rows[row as usize][sort];
        self.live().all(|row| Some(cell(row)) == self.recorded(row))
    }

    /// "No sort entry exceeds it, and .. there is one wherever there are sort entries."
    fn no_entry_exceeds_the_largest(&self) -> bool {
        let largest = self.header.largest;
        let mut entries = self.entries.iter();
        entries.all(|entry| largest.is_some_and(|largest| entry.0 <= largest))
    }

    /// "The key store leads to exactly the live rows": each slot that is not free holds a live row, of its own, and each live
    /// row is in some slot from its key's home on, going round, with no free slot on the way.
    fn keys_lead_to_live_rows(&self, slots: &[u32]) -> bool {
        let mut slot_of = BTreeMap::new();
        for (slot, &word) in slots.iter().enumerate() {
            if word == 0 {
                continue;
            }
            let Some(row) = row_of(word) else {
                return false;
            };
            let is_its_own = self.is_live(row) && word == slot_word(self.key(row), row);
            if !is_its_own || slot_of.insert(row, slot).is_some() {
                return false;
            }
        }
        self.live().all(|row| match slot_of.get(&row) {
            Some(&slot) => is_way_taken(slots, home(self.key(row), slots.len()), slot),
            None => false,
        })
    }

    /// "Pending records are whole."
    fn records_are_whole(&self) -> bool {
        records(&self.header, self.pending).is_some()
    }
}

/// Whether no slot from a key's home up to this one is free.
fn is_way_taken(slots: &[u32], home: usize, slot: usize) -> bool {
    let count = slots.len();
    let way = (slot + count - home) % count;
    (0..way).all(|step| slots[(home + step) % count] != 0)
}

impl Reference {
    /// The plain table that sound stores show. A dead row has the stored cells, except the sort cell: it is the
    /// value of the entries.
    pub fn shown(held: &Held) -> Option<Reference> {
        if is_sound(held) != Ok(true) {
            return None;
        }
        let rows = Rows::of(held);
        let h = held.header;
        let row = |id: u32| {
            let mut cells = rows.rows[id as usize].to_vec();
            cells[h.sort as usize] = rows.recorded(id).unwrap_or(0);
            let dead = !rows.is_live(id);
            Row { cells, dead }
        };
        let index = rows.live().map(|id| (rows.key(id).to_vec(), id));
        Some(Reference {
            opening: h.opening(),
            generation: h.generation,
            rows: (0..h.rows).map(row).collect(),
            dead: h.dead,
            index: index.collect(),
            largest: h.largest,
            entries: rows.entries.clone(),
            staged: records(&h, rows.pending)?,
            pending_words: h.pending as usize,
            stores: Stores::of(held),
        })
    }

    /// The rows of a header and a row store that pass tests 1 and 2, sound or not: enough for queries about rows alone.
    pub fn with_rows_of(held: &Held) -> Reference {
        let h = held.header;
        let rows = held.rows.chunks(h.columns as usize).take(h.rows as usize);
        let row = |cells: &[u32]| Row {
            cells: cells.to_vec(),
            dead: cells[0] == DEAD,
        };
        Reference {
            opening: h.opening(),
            generation: h.generation,
            rows: rows.map(row).collect(),
            ..Reference::new()
        }
    }
}
