//! The proved library as an implementation of the table, over stores of its own, lent at the lengths that a call has.

mod images;
mod indexes;
mod stores;
#[cfg(test)]
mod tests;

use calls::{
    Answer, Call, Condition, Contents, DEAD, Expected, Implementation, Lengths, Query, Refresh,
    Restamped, Subset,
};
use indexes::Indexes;
pub use indexes::fill_index;
use mouldgrey::raw::{Constraint, Opening};
use mouldgrey::{Header, Merge, PageWritten, Refusal, SubsetRef, Version, Written, lent};
use stores::Stores;

/// The word behind a lent store, and in one that was never written.
const UNWRITTEN: u32 = 0x5bad_cafe;

/// A table's header and stores. A store is made longer where a call is lent a longer one.
#[derive(Clone, Default)]
pub struct LibraryTable {
    now: Stores,
    /// The same as the last call left them, to see what a call has written.
    then: Stores,
    indexes: Indexes,
    stagings: u32,
}

/// How often large stores are looked at as a whole while records are staged.
const STAGINGS: u32 = 4_096;

impl LibraryTable {
    pub fn new() -> LibraryTable {
        LibraryTable::default()
    }

    /// Makes the stores long enough for these lengths.
    pub fn lend(&mut self, lent: &Lengths) {
        self.now.lend(lent);
        self.then.lend(lent);
    }

    /// A call on stores that are long enough for what is lent.
    pub fn play(&mut self, lent: &Lengths, call: &Call) -> Answer {
        let s = &mut self.now;
        let done = match call {
            Call::Open(o) => lent::open_table(
                opening(o),
                &mut s.header,
                &s.rows[..lent.rows],
                &mut s.keys[..lent.keys],
                &s.sorts[..lent.sort_entries],
                &s.pending[..lent.pending],
            ),
            Call::Insert(cells) => {
                lent::stage_insert(&mut s.header, &mut s.pending[..lent.pending], cells)
            }
            Call::RemoveKey(key) => {
                lent::stage_remove(&mut s.header, &mut s.pending[..lent.pending], key)
            }
            Call::RemoveRow(row, key) => {
                lent::stage_remove_row(&mut s.header, &mut s.pending[..lent.pending], *row, key)
            }
            Call::Merge => {
                let merged = lent::merge(
                    &mut s.header,
                    &mut s.rows[..lent.rows],
                    &mut s.keys[..lent.keys],
                    &mut s.sorts[..lent.sort_entries],
                    &s.pending[..lent.pending],
                    &mut s.live[..lent.live_words],
                    &mut s.base[..lent.base_words],
                );
                return answer(merged, merge_answer);
            }
            Call::Compact => lent::compact(
                &mut s.header,
                &mut s.rows[..lent.rows],
                &mut s.keys[..lent.keys],
                &mut s.sorts[..lent.sort_entries],
                &mut s.live[..lent.live_words],
                &mut s.base[..lent.base_words],
            ),
            Call::Clear => lent::clear(&mut s.header, &mut s.keys[..lent.keys]),
            Call::Refresh(refresh) => return self.refresh(lent, refresh),
        };
        answer(done, |()| Answer::Done)
    }

    /// A refresh, with its index store between others' words.
    fn refresh(&mut self, lent: &Lengths, refresh: &Refresh) -> Answer {
        let s = &mut self.now;
        self.indexes.prepare(lent.index, refresh, &s.header);
        let before = self.indexes.store(refresh).to_vec();
        let used = s.header.pending as usize;
        let returned = lent::refresh_rows_for_values(
            &mut s.header,
            &s.rows[..lent.rows],
            &mut s.pending[..lent.pending],
            &mut self.indexes.store_mut(refresh)[..lent.index],
            &refresh.columns,
            &refresh.values,
            refresh.stamp,
        );
        let after = self.indexes.store(refresh);
        let (capacity, refused) = (s.header.capacity, returned.is_err());
        if let Some(why) = indexes::wrongly_left(&before, after, refresh, capacity, refused) {
            panic!("{why}");
        }
        answer(returned, |yes| {
            Answer::Refreshed(yes, self.staged_from(used))
        })
    }

    /// The rows that the pending words from here on stage again: pairs of a removal by row and an insert. What else is in a
    /// record, the comparison of the pending store sees to.
    fn staged_from(&self, from: usize) -> Vec<Restamped> {
        let h = &self.now.header;
        let (keys, columns) = (h.keys as usize, h.columns as usize);
        let pairs = self.now.pending[from..h.pending as usize].chunks_exact(keys + columns + 5);
        assert!(pairs.remainder().is_empty(), "a record that is not whole");
        let restamped = |words: &[u32]| Restamped {
            row: words[2],
            key: words[3..3 + keys].to_vec(),
            cells: words[keys + 5..].to_vec(),
        };
        pairs.map(restamped).collect()
    }

    /// Whether the stores are sound, all lent in full.
    pub fn is_sound(&self) -> Result<bool, Refusal> {
        let s = &self.now;
        lent::is_sound(&s.header, &s.rows, &s.keys, &s.sorts, &s.pending)
    }

    /// Whether this is the time to look at all of the stores.
    fn is_time_to_look(&mut self, call: &Call) -> bool {
        if !is_staging(call) {
            self.stagings = 0;
            return true;
        }
        self.stagings += 1;
        self.now.are_small() || self.stagings.is_multiple_of(STAGINGS)
    }

    /// The cells of a row.
    fn cells(&self, row: u32) -> &[u32] {
        let width = self.now.header.columns as usize;
        let from = row as usize * width;
        &self.now.rows[from..from + width]
    }

    /// A query to stores that are long enough for what is lent.
    pub fn query_lent(&self, lent: &Lengths, query: &Query) -> Answer {
        let s = &self.now;
        let h = &s.header;
        match query {
            Query::Lookup(key) => answer(
                lent::get_row(h, &s.rows[..lent.rows], &s.keys[..lent.keys], key),
                |row| found(row, |row| Answer::Row(row, self.cells(row).to_vec())),
            ),
            Query::Cell(key, column) => answer(
                lent::get_row_column(h, &s.rows[..lent.rows], &s.keys[..lent.keys], key, *column),
                |cell| found(cell, Answer::Cell),
            ),
            Query::FastRange(condition) => answer(
                lent::fast_subset(h, &s.sorts[..lent.sort_entries], constraint(condition)),
                |range| found(range, range_answer),
            ),
            Query::Version => answer(lent::version(h), |version| Answer::Version {
                generation: version.generation,
                rows: version.rows,
            }),
            Query::RowsSince(row) => answer(lent::updates_since(h, *row), range_answer),
            Query::RowsSinceNote(generation, rows) => {
                let noted = Version {
                    generation: *generation,
                    rows: *rows,
                };
                answer(lent::rows_since_version(h, noted), range_answer)
            }
            Query::Precedence { column, pairs } => answer(
                lent::check_precedence(
                    h,
                    &s.rows[..lent.rows],
                    &s.keys[..lent.keys],
                    *column,
                    pairs,
                ),
                |failing| found(failing, |(row, place)| Answer::Fails(row, place)),
            ),
            Query::RefineOne {
                subset,
                condition,
                output,
            } => over_output(*output, |output| {
                lent::refine_one(
                    h,
                    &s.rows[..lent.rows],
                    borrowed(subset),
                    constraint(condition),
                    output,
                )
            }),
            Query::Intersect {
                first,
                second,
                output,
            } => over_output(*output, |output| {
                lent::intersect(borrowed(first), borrowed(second), output)
            }),
            Query::RefineList {
                subset,
                conditions,
                output,
            } => over_output(*output, |output| {
                lent::refine_ref(
                    h,
                    &s.rows[..lent.rows],
                    borrowed(subset),
                    &constraints(conditions),
                    output,
                )
            }),
            Query::AnyMatch { subset, conditions } => answer(
                lent::contains_match(
                    h,
                    &s.rows[..lent.rows],
                    borrowed(subset),
                    &constraints(conditions),
                ),
                Answer::Match,
            ),
            Query::Page {
                subset,
                start,
                n,
                conditions,
                output,
            } => page_over_output(*output, |output| {
                lent::read_page(
                    h,
                    &s.rows[..lent.rows],
                    borrowed(subset),
                    *start,
                    *n as usize,
                    &constraints(conditions),
                    output,
                )
            }),
        }
    }
}

impl Implementation for LibraryTable {
    /// Beside the answer: nothing is written where it may not be, and an opened table's stores stay sound.
    fn call(&mut self, lent: &Lengths, call: &Call) -> Answer {
        self.lend(lent);
        let answer = self.play(lent, call);
        let look = self.is_time_to_look(call);
        let refused = matches!(answer, Answer::Refused(_));
        if let Some(why) = self.now.wrongly_written(&self.then, call, refused, look) {
            panic!("{why}");
        }
        self.then.follow(&self.now, call, look);
        if self.now.header.columns != 0 && look {
            assert_eq!(self.is_sound(), Ok(true), "unsound");
        }
        answer
    }

    fn reload(&mut self, lent: &Lengths, capacity: u32) -> Answer {
        let read = images::reloaded(&self.now, lent, capacity);
        answer(read, |stores| {
            self.then = stores.clone();
            self.now = stores;
            assert_eq!(self.is_sound(), Ok(true), "unsound");
            Answer::Done
        })
    }

    /// Stores shorter than what is lent are lent longer ones of no meaning, which a refusal does not look at and an answer
    /// cannot need.
    fn query(&self, lent: &Lengths, query: &Query) -> Answer {
        if self.now.is_long_enough(lent) {
            return self.query_lent(lent, query);
        }
        let mut own = self.clone();
        own.lend(lent);
        own.query_lent(lent, query)
    }

    fn contents(&self) -> Contents {
        let h = &self.now.header;
        Contents {
            generation: h.generation,
            rows: h.rows,
            dead: h.dead,
            live: (0..h.rows)
                .map(|row| (row, self.cells(row).to_vec()))
                .filter(|(_, cells)| cells[0] != DEAD)
                .collect(),
            sort_entries: self.now.sorts[..2 * h.entries as usize]
                .chunks(2)
                .map(|pair| (pair[0], pair[1]))
                .collect(),
        }
    }

    fn unlike(&self, expected: &Expected, whole: bool) -> Option<String> {
        self.now.unlike(expected, whole || self.now.are_small())
    }
}

/// A call that only adds a record.
fn is_staging(call: &Call) -> bool {
    matches!(
        call,
        Call::Insert(_) | Call::RemoveKey(_) | Call::RemoveRow(..)
    )
}

fn opening(o: &calls::Opening) -> Opening {
    Opening {
        columns: o.columns,
        keys: o.keys,
        sort: o.sort,
        rule: o.rule,
        capacity: o.capacity,
        generation: o.generation,
    }
}

pub fn constraint(condition: &Condition) -> Constraint {
    Constraint {
        kind: condition.kind,
        column: condition.a,
        value: condition.b,
    }
}

fn constraints(conditions: &[Condition]) -> Vec<Constraint> {
    conditions.iter().map(constraint).collect()
}

pub fn borrowed(subset: &Subset) -> SubsetRef<'_> {
    match subset {
        Subset::Range(start, end) => SubsetRef::Range(*start, *end),
        Subset::List(ids) => SubsetRef::List(ids),
    }
}

/// What an accepted call answers, or its refusal's number.
fn answer<T>(returned: Result<T, Refusal>, accepted: impl FnOnce(T) -> Answer) -> Answer {
    match returned {
        Ok(value) => accepted(value),
        Err(refusal) => Answer::Refused(refusal.number()),
    }
}

fn merge_answer(merge: Merge) -> Answer {
    let (status, place) = match merge.stop {
        None => (0, 0),
        Some(stop) => (stop.reason.number(), stop.place),
    };
    let merged = merge.merged;
    Answer::Merged {
        status,
        place,
        added: merged.added,
        kept: merged.kept,
        dropped: merged.dropped,
    }
}

/// The answer to a query that may have none.
fn found<T>(value: Option<T>, some: impl FnOnce(T) -> Answer) -> Answer {
    value.map_or(Answer::None, some)
}

fn range_answer((start, end): (u32, u32)) -> Answer {
    Answer::Subset(Subset::Range(start, end))
}

/// Runs a query with an output of this length; returns its answer and the ids at the output's start, as many as `written` returns. A
/// subset that is not refused has at most 65,536 ids, so that a longer output makes no difference. Nothing but the ids may be
/// written.
fn returned_over_output<T>(
    length: usize,
    run: impl FnOnce(&mut [u32]) -> Result<T, Refusal>,
    written: impl FnOnce(&T) -> usize,
) -> (Result<T, Refusal>, Vec<u32>) {
    let length = length.min(70_000);
    let mut output = vec![UNWRITTEN; length + 1];
    let returned = run(&mut output[..length]);
    let written = returned.as_ref().map_or(0, written);
    assert!(
        output[written..].iter().all(|&word| word == UNWRITTEN),
        "written past the ids"
    );
    output.truncate(written);
    (returned, output)
}

/// A query that answers a subset.
fn over_output(length: usize, run: impl FnOnce(&mut [u32]) -> Result<Written, Refusal>) -> Answer {
    let (returned, ids) = returned_over_output(length, run, |written| match written {
        Written::List(count) => *count,
        Written::Range(..) => 0,
    });
    answer(returned, |returned| match returned {
        Written::Range(start, end) => Answer::Subset(Subset::Range(start, end)),
        Written::List(_) => Answer::Subset(Subset::List(ids)),
    })
}

fn page_over_output(
    length: usize,
    run: impl FnOnce(&mut [u32]) -> Result<PageWritten, Refusal>,
) -> Answer {
    let (returned, ids) = returned_over_output(length, run, |page| page.written);
    answer(returned, |page| Answer::Page {
        ids,
        dead: page.dead as u32,
        next: page.next,
    })
}
