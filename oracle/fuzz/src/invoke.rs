//! The C functions of the library, each called with every slice and every struct between guard pages.

use crate::acts::Act;
use crate::session::{Session, Shared, Slot};
use crate::stores::Stores;
use calls::{Call, Condition, Opening, Query, Refresh, Subset};
use mouldgrey::raw::{self, Constraint, Header};
use random::Rng;

/// A subset as it is passed: its struct, and its ids.
type Passed = (*const raw::Subset, Shared);

/// Conditions as they are passed: a pointer and their number.
type Constraints = (*const Constraint, usize);

/// A call's number, and the output as it was lent.
type Ran = (u32, Vec<u32>);

/// The header of a query.
type Head = *const Header;

// SAFETY, of every call here: each pointer goes with the length of what was lent, in an area of its own.
impl Session {
    /// Lends what the function takes, and these words for its answer, and calls it.
    pub fn run(&mut self, rng: &mut Rng, stores: &Stores, act: &Act, words: &[u32]) -> Ran {
        let number = match act {
            Act::Call(call) => self.run_call(rng, stores, call, words),
            Act::IsSound => self.is_sound(rng, stores, words),
            Act::Query(query) => return self.run_query(rng, stores, query, words),
            Act::IntersectRanges(ranges) => self.intersect_ranges(rng, *ranges, words),
        };
        (number, Vec::new())
    }

    /// Lends a struct to be read.
    pub fn given<T>(&mut self, rng: &mut Rng, slot: Slot, words: &[u32]) -> *const T {
        assert_eq!(size_of_val(words), size_of::<T>());
        self.read(rng, slot, words).0.cast()
    }

    /// Lends a struct to be written.
    pub fn answer<T>(&mut self, rng: &mut Rng, slot: Slot, words: &[u32]) -> *mut T {
        assert_eq!(size_of_val(words), size_of::<T>());
        self.write(rng, slot, words).0.cast()
    }

    /// Lends the numbers of an opening.
    pub fn opening(&mut self, rng: &mut Rng, o: &Opening) -> *const raw::Opening {
        let words = [o.columns, o.keys, o.sort, o.rule, o.capacity, o.generation];
        self.given(rng, Slot::Opening, &words)
    }

    fn run_call(&mut self, rng: &mut Rng, stores: &Stores, call: &Call, words: &[u32]) -> u32 {
        let header = self.answer(rng, Slot::Header, &stores.header);
        match call {
            Call::Open(opening) => self.open(rng, stores, header, opening),
            Call::Insert(cells) | Call::RemoveKey(cells) | Call::RemoveRow(_, cells) => {
                self.stage(rng, stores, header, call, cells)
            }
            Call::Merge => self.merge(rng, stores, header, words),
            Call::Compact => self.compact(rng, stores, header),
            Call::Clear => {
                let keys = self.write(rng, Slot::Keys, &stores.keys);
                unsafe { raw::mouldgrey_clear(header, keys.0, keys.1) }
            }
            Call::Refresh(refresh) => self.refresh(rng, stores, header, refresh, words),
        }
    }

    fn refresh(
        &mut self,
        rng: &mut Rng,
        stores: &Stores,
        header: *mut Header,
        refresh: &Refresh,
        words: &[u32],
    ) -> u32 {
        let rows = self.read(rng, Slot::Rows, &stores.rows);
        let pending = self.write(rng, Slot::Pending, &stores.pending);
        let index = self.write(rng, Slot::Index, &stores.index);
        let columns = self.read(rng, Slot::Cells, &refresh.columns);
        let values = self.read(rng, Slot::Ids, &refresh.values);
        let staged = self.answer(rng, Slot::Words, words);
        unsafe {
            raw::mouldgrey_refresh_rows_for_values(
                header,
                rows.0,
                rows.1,
                pending.0,
                pending.1,
                index.0,
                index.1,
                columns.0,
                columns.1,
                values.0,
                values.1,
                refresh.stamp,
                staged,
            )
        }
    }

    fn open(&mut self, rng: &mut Rng, stores: &Stores, header: *mut Header, o: &Opening) -> u32 {
        let opening = self.opening(rng, o);
        let rows = self.read(rng, Slot::Rows, &stores.rows);
        let keys = self.write(rng, Slot::Keys, &stores.keys);
        let sorts = self.read(rng, Slot::Sorts, &stores.sorts);
        let pending = self.read(rng, Slot::Pending, &stores.pending);
        unsafe {
            raw::mouldgrey_open_table(
                opening, header, rows.0, rows.1, keys.0, keys.1, sorts.0, sorts.1, pending.0,
                pending.1,
            )
        }
    }

    fn stage(
        &mut self,
        rng: &mut Rng,
        stores: &Stores,
        h: *mut Header,
        call: &Call,
        cells: &[u32],
    ) -> u32 {
        let (p, p_len) = self.write(rng, Slot::Pending, &stores.pending);
        let (c, c_len) = self.read(rng, Slot::Cells, cells);
        unsafe {
            match call {
                Call::Insert(_) => raw::mouldgrey_stage_insert(h, p, p_len, c, c_len),
                Call::RemoveRow(row, _) => {
                    raw::mouldgrey_stage_remove_row(h, p, p_len, *row, c, c_len)
                }
                _ => raw::mouldgrey_stage_remove(h, p, p_len, c, c_len),
            }
        }
    }

    fn merge(&mut self, rng: &mut Rng, stores: &Stores, header: *mut Header, words: &[u32]) -> u32 {
        let rows = self.write(rng, Slot::Rows, &stores.rows);
        let keys = self.write(rng, Slot::Keys, &stores.keys);
        let sorts = self.write(rng, Slot::Sorts, &stores.sorts);
        let pending = self.read(rng, Slot::Pending, &stores.pending);
        let live = self.write(rng, Slot::Live, &stores.live);
        let base = self.write(rng, Slot::Base, &stores.base);
        let merged = self.answer(rng, Slot::Words, words);
        unsafe {
            raw::mouldgrey_merge(
                header,
                rows.0,
                rows.1,
                keys.0,
                keys.1,
                sorts.0,
                sorts.1,
                pending.0,
                pending.1,
                live.0.cast(),
                live.1 / 2,
                base.0,
                base.1,
                merged,
            )
        }
    }

    fn compact(&mut self, rng: &mut Rng, stores: &Stores, header: *mut Header) -> u32 {
        let rows = self.write(rng, Slot::Rows, &stores.rows);
        let keys = self.write(rng, Slot::Keys, &stores.keys);
        let sorts = self.write(rng, Slot::Sorts, &stores.sorts);
        let live = self.write(rng, Slot::Live, &stores.live);
        let base = self.write(rng, Slot::Base, &stores.base);
        unsafe {
            raw::mouldgrey_compact(
                header,
                rows.0,
                rows.1,
                keys.0,
                keys.1,
                sorts.0,
                sorts.1,
                live.0.cast(),
                live.1 / 2,
                base.0,
                base.1,
            )
        }
    }

    fn is_sound(&mut self, rng: &mut Rng, stores: &Stores, words: &[u32]) -> u32 {
        let header = self.given(rng, Slot::Header, &stores.header);
        let rows = self.read(rng, Slot::Rows, &stores.rows);
        let keys = self.read(rng, Slot::Keys, &stores.keys);
        let sorts = self.read(rng, Slot::Sorts, &stores.sorts);
        let pending = self.read(rng, Slot::Pending, &stores.pending);
        let sound = self.answer(rng, Slot::Words, words);
        unsafe {
            raw::mouldgrey_is_sound(
                header, rows.0, rows.1, keys.0, keys.1, sorts.0, sorts.1, pending.0, pending.1,
                sound,
            )
        }
    }

    fn run_query(&mut self, rng: &mut Rng, stores: &Stores, query: &Query, words: &[u32]) -> Ran {
        if let Query::Intersect {
            first,
            second,
            output,
        } = query
        {
            return self.intersect(rng, first, second, *output, words);
        }
        let h: Head = self.given(rng, Slot::Header, &stores.header);
        let number = match query {
            Query::Lookup(key) => self.lookup(rng, stores, h, key, words),
            Query::Cell(key, column) => self.lookup_cell(rng, stores, h, (key, *column), words),
            Query::FastRange(c) => {
                let (s, s_len) = self.read(rng, Slot::Sorts, &stores.sorts);
                let c = self.condition(rng, c);
                let range = self.answer(rng, Slot::Words, words);
                unsafe { raw::mouldgrey_fast_subset(h, s, s_len, c, range) }
            }
            Query::Version => {
                let version = self.answer(rng, Slot::Words, words);
                unsafe { raw::mouldgrey_table_version(h, version) }
            }
            Query::RowsSince(row) => {
                let range = self.answer(rng, Slot::Words, words);
                unsafe { raw::mouldgrey_updates_since(h, *row, range) }
            }
            Query::RowsSinceNote(generation, rows) => {
                let noted = self.given(rng, Slot::Noted, &[*generation, *rows]);
                let range = self.answer(rng, Slot::Words, words);
                unsafe { raw::mouldgrey_rows_since_version(h, noted, range) }
            }
            Query::Precedence { column, pairs } => {
                let rows = self.read(rng, Slot::Rows, &stores.rows);
                let keys = self.read(rng, Slot::Keys, &stores.keys);
                let (p, p_len) = self.read(rng, Slot::Cells, pairs);
                let failure = self.answer(rng, Slot::Words, words);
                unsafe {
                    raw::mouldgrey_check_precedence(
                        h, rows.0, rows.1, keys.0, keys.1, *column, p, p_len, failure,
                    )
                }
            }
            Query::RefineOne {
                subset,
                condition,
                output,
            } => {
                return self.refine(rng, stores, h, (subset, condition, *output), words);
            }
            Query::RefineList {
                subset,
                conditions,
                output,
            } => {
                let by = (subset, conditions.as_slice(), *output);
                return self.refine_by_list(rng, stores, h, by, words);
            }
            Query::AnyMatch { subset, conditions } => {
                self.any_match(rng, stores, h, (subset, conditions), words)
            }
            Query::Page { .. } => return self.page(rng, stores, h, query, words),
            Query::Intersect { .. } => panic!("called above, without a header"),
        };
        (number, Vec::new())
    }

    fn lookup(
        &mut self,
        rng: &mut Rng,
        stores: &Stores,
        h: Head,
        key: &[u32],
        words: &[u32],
    ) -> u32 {
        let rows = self.read(rng, Slot::Rows, &stores.rows);
        let keys = self.read(rng, Slot::Keys, &stores.keys);
        let key = self.read(rng, Slot::Cells, key);
        let row = self.answer(rng, Slot::Words, words);
        unsafe { raw::mouldgrey_get_row(h, rows.0, rows.1, keys.0, keys.1, key.0, key.1, row) }
    }

    fn lookup_cell(
        &mut self,
        rng: &mut Rng,
        stores: &Stores,
        h: Head,
        (key, column): (&[u32], u32),
        words: &[u32],
    ) -> u32 {
        let rows = self.read(rng, Slot::Rows, &stores.rows);
        let keys = self.read(rng, Slot::Keys, &stores.keys);
        let key = self.read(rng, Slot::Cells, key);
        let cell = self.answer(rng, Slot::Words, words);
        unsafe {
            raw::mouldgrey_get_row_column(
                h, rows.0, rows.1, keys.0, keys.1, key.0, key.1, column, cell,
            )
        }
    }

    /// A subset as it is passed; the parts that are ignored are random.
    pub fn pass(&mut self, rng: &mut Rng, slots: (Slot, Slot), subset: &Subset) -> Passed {
        let (words, ids) = match subset {
            Subset::Range(start, end) => {
                let noise: Vec<u32> = (0..rng.below(4)).map(|_| rng.number()).collect();
                ([rng.number().max(1), *start, *end], noise)
            }
            Subset::List(ids) => ([0, rng.number(), rng.number()], ids.clone()),
        };
        let subset = self.given(rng, slots.0, &words);
        (subset, self.read(rng, slots.1, &ids))
    }

    /// A condition as it is passed.
    fn condition(&mut self, rng: &mut Rng, c: &Condition) -> *const Constraint {
        self.given(rng, Slot::Conditions, &[c.kind, c.a, c.b])
    }

    fn refine(
        &mut self,
        rng: &mut Rng,
        stores: &Stores,
        h: Head,
        (subset, c, length): (&Subset, &Condition, usize),
        words: &[u32],
    ) -> Ran {
        let rows = self.read(rng, Slot::Rows, &stores.rows);
        let (subset, ids) = self.pass(rng, (Slot::Subset, Slot::Ids), subset);
        let c = self.condition(rng, c);
        let before = vec![rng.number(); length];
        let output = self.write(rng, Slot::Output, &before);
        let answer = self.answer(rng, Slot::Words, words);
        let number = unsafe {
            raw::mouldgrey_refine_one(
                h, rows.0, rows.1, subset, ids.0, ids.1, c, output.0, output.1, answer,
            )
        };
        (number, before)
    }

    /// Conditions as they are passed, three words each, between guard pages.
    pub fn conditions(&mut self, rng: &mut Rng, conditions: &[Condition]) -> Constraints {
        let words: Vec<u32> = conditions.iter().flat_map(|c| [c.kind, c.a, c.b]).collect();
        let (at, _) = self.read(rng, Slot::Conditions, &words);
        (at.cast(), conditions.len())
    }

    fn refine_by_list(
        &mut self,
        rng: &mut Rng,
        stores: &Stores,
        h: Head,
        (subset, conditions, length): (&Subset, &[Condition], usize),
        words: &[u32],
    ) -> Ran {
        let rows = self.read(rng, Slot::Rows, &stores.rows);
        let (subset, ids) = self.pass(rng, (Slot::Subset, Slot::Ids), subset);
        let c = self.conditions(rng, conditions);
        let before = vec![rng.number(); length];
        let output = self.write(rng, Slot::Output, &before);
        let answer = self.answer(rng, Slot::Words, words);
        let number = unsafe {
            raw::mouldgrey_refine_ref(
                h, rows.0, rows.1, subset, ids.0, ids.1, c.0, c.1, output.0, output.1, answer,
            )
        };
        (number, before)
    }

    fn any_match(
        &mut self,
        rng: &mut Rng,
        stores: &Stores,
        h: Head,
        (subset, conditions): (&Subset, &[Condition]),
        words: &[u32],
    ) -> u32 {
        let rows = self.read(rng, Slot::Rows, &stores.rows);
        let (subset, ids) = self.pass(rng, (Slot::Subset, Slot::Ids), subset);
        let c = self.conditions(rng, conditions);
        let matched = self.answer(rng, Slot::Words, words);
        unsafe {
            raw::mouldgrey_contains_match(
                h, rows.0, rows.1, subset, ids.0, ids.1, c.0, c.1, matched,
            )
        }
    }

    fn page(
        &mut self,
        rng: &mut Rng,
        stores: &Stores,
        h: Head,
        query: &Query,
        words: &[u32],
    ) -> Ran {
        let Query::Page {
            subset,
            start: place,
            n,
            conditions,
            output: length,
        } = query
        else {
            panic!("not a page: {query:?}");
        };
        let rows = self.read(rng, Slot::Rows, &stores.rows);
        let (subset, ids) = self.pass(rng, (Slot::Subset, Slot::Ids), subset);
        let c = self.conditions(rng, conditions);
        let before = vec![rng.number(); *length];
        let output = self.write(rng, Slot::Output, &before);
        let page = self.answer(rng, Slot::Words, words);
        let number = unsafe {
            raw::mouldgrey_read_page(
                h,
                rows.0,
                rows.1,
                subset,
                ids.0,
                ids.1,
                *place,
                *n as usize,
                c.0,
                c.1,
                output.0,
                output.1,
                page,
            )
        };
        (number, before)
    }

    fn intersect(
        &mut self,
        rng: &mut Rng,
        first: &Subset,
        second: &Subset,
        length: usize,
        words: &[u32],
    ) -> Ran {
        let (first, ids) = self.pass(rng, (Slot::Subset, Slot::Ids), first);
        let (second, others) = self.pass(rng, (Slot::OtherSubset, Slot::OtherIds), second);
        let before = vec![rng.number(); length];
        let output = self.write(rng, Slot::Output, &before);
        let answer = self.answer(rng, Slot::Words, words);
        let number = unsafe {
            raw::mouldgrey_intersect(
                first, ids.0, ids.1, second, others.0, others.1, output.0, output.1, answer,
            )
        };
        (number, before)
    }

    fn intersect_ranges(
        &mut self,
        rng: &mut Rng,
        [first, second]: [(u32, u32); 2],
        words: &[u32],
    ) -> u32 {
        let answer = self.answer(rng, Slot::Words, words);
        unsafe { raw::mouldgrey_intersect_ranges(first.0, first.1, second.0, second.1, answer) }
    }
}
