//! The calls that change the table: opening, staging, merge, compaction, clear. Their tests have been made.

use crate::layout::record;
use crate::refusals::{LAST_GENERATION, refuse};
use crate::rules::make_row;
use crate::{Reference, Row, Staged};
use calls::{Answer, DEAD, Opening};

impl Reference {
    /// *Open*: "Empties the table." The cells of its stores stay as they are.
    pub(crate) fn open(&mut self, opening: &Opening) -> Answer {
        *self = Reference {
            opening: *opening,
            generation: opening.generation,
            stores: std::mem::take(&mut self.stores),
            ..Reference::new()
        };
        Answer::Done
    }

    /// "A staging adds its record."
    pub(crate) fn stage(&mut self, staged: Staged) -> Answer {
        let words = record(self.opening.keys, &staged);
        self.stores.put_record(self.pending_words, &words);
        self.pending_words += words.len();
        self.staged.push(staged);
        Answer::Done
    }

    /// *Merge*: "Takes removals by key, then removals by row, then inserts, each in staging order."
    pub(crate) fn merge(&mut self) -> Answer {
        // Stopped or not, "pending is emptied".
        let staged = self.take_staged();
        self.take_removals_by_key(&staged);
        self.take_removals_by_row(&staged);
        let mut answer = self.take_inserts(&staged);
        // After a stop "no compaction follows". "Each merge answers how many rows its own compaction kept, 0 if there was none,
        // and how many it dropped."
        if let Answer::Merged {
            status: 0,
            kept,
            dropped,
            ..
        } = &mut answer
            && self.compacts_by_itself()
        {
            *kept = self.row_count() - self.dead;
            *dropped = self.dead;
            self.drop_dead_rows();
        }
        answer
    }

    fn take_staged(&mut self) -> Vec<Staged> {
        self.pending_words = 0;
        std::mem::take(&mut self.staged)
    }

    fn take_removals_by_key(&mut self, staged: &[Staged]) {
        for record in staged {
            if let Staged::RemoveKey(key) = record
                && let Some(id) = self.find(key)
            {
                self.kill(id);
            }
        }
    }

    /// "A removal by row works if that row still exists, is live and has that key."
    fn take_removals_by_row(&mut self, staged: &[Staged]) {
        for record in staged {
            if let Staged::RemoveRow(row, key) = record
                && self.is_live(*row)
                && self.key(*row) == key
            {
                self.kill(*row);
            }
        }
    }

    /// "Stops at the first insert that must be appended and cannot be." Its place is "among all staged inserts from 0".
    fn take_inserts(&mut self, staged: &[Staged]) -> Answer {
        let mut added = false;
        let mut place = 0;
        for record in staged {
            let Staged::Insert(cells) = record else {
                continue;
            };
            match self.insert(cells) {
                Ok(appended) => added = added || appended,
                Err(status) => {
                    return Answer::Merged {
                        status,
                        place,
                        added,
                        kept: 0,
                        dropped: 0,
                    };
                }
            }
            place += 1;
        }
        Answer::Merged {
            status: 0,
            place: 0,
            added,
            kept: 0,
            dropped: 0,
        }
    }

    /// Whether a row was appended, or the number of the stop.
    fn insert(&mut self, new: &[u32]) -> Result<bool, u32> {
        // "An insert with a dead first cell is skipped."
        if new[0] == DEAD {
            return Ok(false);
        }
        let Some(old) = self.find(&new[..self.opening.keys as usize]) else {
            // "A new key is appended."
            self.append(new.to_vec())?;
            return Ok(true);
        };
        // "A known key goes through the rule; a row so made is appended and the old row dies."
        let Some(made) = make_row(&self.opening, self.cells(old), new) else {
            return Ok(false);
        };
        self.append(made)?;
        self.mark_dead(old);
        Ok(true)
    }

    /// "8, row count equals capacity, tested before 9", which "is now given for a sort value below that kept value".
    fn append(&mut self, cells: Vec<u32>) -> Result<(), u32> {
        let value = cells[self.opening.sort as usize];
        refuse(8, self.row_count() == self.opening.capacity)?;
        refuse(9, self.largest.is_some_and(|largest| value < largest))?;
        self.largest = Some(value);
        let id = self.row_count();
        self.record_value(value, id);
        self.stores.put_row(id, &cells);
        let key = cells[..self.opening.keys as usize].to_vec();
        self.index.insert(key, id);
        self.rows.push(Row { cells, dead: false });
        Ok(())
    }

    /// A live row dies, and its key leads nowhere.
    fn kill(&mut self, id: u32) {
        let key = self.key(id).to_vec();
        self.index.remove(&key);
        self.mark_dead(id);
    }

    fn mark_dead(&mut self, id: u32) {
        self.rows[id as usize].dead = true;
        self.dead += 1;
        self.stores.kill_row(id, self.opening.columns);
    }

    /// Sort entries are "pairs of value and first row, both strictly rising".
    fn record_value(&mut self, value: u32, row: u32) {
        if self.entries.last().is_none_or(|last| last.0 < value) {
            self.stores.put_entry(self.entries.len(), (value, row));
            self.entries.push((value, row));
        }
    }

    /// "If dead rows outnumber the larger of 16 and half the row count (rounded down), the table compacts"; "a merge at
    /// that generation does not compact".
    fn compacts_by_itself(&self) -> bool {
        let many = self.dead > u32::max(16, self.row_count() / 2);
        many && self.generation != LAST_GENERATION
    }

    /// *Compact*: "Compacts, with dead rows or without, and the generation rises by one."
    pub(crate) fn compact(&mut self) -> Answer {
        self.drop_dead_rows();
        Answer::Done
    }

    /// "Compaction drops them and the others close up in order"; "sort entries are rebuilt from live rows".
    fn drop_dead_rows(&mut self) {
        self.rows.retain(|row| !row.dead);
        self.dead = 0;
        self.entries.clear();
        self.index.clear();
        for id in 0..self.row_count() {
            let cells = self.cells(id).to_vec();
            self.stores.put_row(id, &cells);
            self.record_value(cells[self.opening.sort as usize], id);
            self.index.insert(self.key(id).to_vec(), id);
        }
        self.generation += 1;
    }

    /// *Clear*: "Unless refused, empties pending; with rows, the rest too, and the generation rises by one."
    pub(crate) fn clear(&mut self) -> Answer {
        self.take_staged();
        if self.row_count() > 0 {
            self.rows.clear();
            self.dead = 0;
            self.index.clear();
            self.entries.clear();
            self.largest = None;
            self.generation += 1;
        }
        Answer::Done
    }
}
