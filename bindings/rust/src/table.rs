//! A table that keeps its stores.

use crate::{
    Call, Condition, DEAD, Error, Header, Lengths, Merge, Merged, Opening, Page, Query, Refusal,
    Subset, SubsetRef, ValueIndex, Version, Written, encode_calls, encode_queries, lent,
};
use std::fmt;
use std::slice::ChunksExact;

/// A header and the four stores that go with it, as an archive keeps them. docs/FORMAT.md describes every word.
#[derive(Clone, Debug, Default, PartialEq, Eq)]
pub struct Stores {
    /// The table's numbers.
    pub header: Header,
    /// The rows, one after another.
    pub rows: Vec<u32>,
    /// The key index.
    pub keys: Vec<u32>,
    /// The sort entries.
    pub sorts: Vec<u32>,
    /// The staged records.
    pub pending: Vec<u32>,
}

/// Why stores are no table.
#[derive(Clone, Copy, Debug, PartialEq, Eq)]
pub enum NoTable {
    /// The header's numbers are out of bounds, or a store is too short.
    Refused(Refusal),
    /// The soundness check rejects the stores.
    Unsound,
}

impl fmt::Display for NoTable {
    fn fmt(&self, f: &mut fmt::Formatter<'_>) -> fmt::Result {
        match self {
            NoTable::Refused(refusal) => refusal.fmt(f),
            NoTable::Unsound => f.write_str("the stores are not sound"),
        }
    }
}

impl std::error::Error for NoTable {}

/// A live row: its number and its cells.
#[derive(Clone, Copy, Debug, PartialEq, Eq)]
pub struct Row<'a> {
    /// The row number.
    pub id: u32,
    /// One cell for each column.
    pub cells: &'a [u32],
}

/// What a list of queries left.
#[derive(Clone, Debug, PartialEq, Eq)]
pub struct Queried {
    /// The ids left.
    pub ids: Subset,
    /// Some accepted query refines: then the ids left are exactly the live rows of the starting subset that lie in every accepted
    /// subset and meet every accepted condition.
    pub refined: bool,
    /// How many queries were taken from the list, refused ones too.
    pub taken: u32,
}

/// A table that keeps its stores. Rows are staged for insertion and removal, and applied by [`merge`](Table::merge). Row numbers
/// stay until a compaction, which the [`Version`] shows.
///
/// ```
/// use mouldgrey::{Condition, Opening, Refusal, Rule, Subset, Table};
///
/// # fn main() -> Result<(), mouldgrey::Error> {
/// // Columns: modem, side, level, stamp. The first two are the key, rows are recorded in the order of their stamps, and a row
/// // with a known key replaces the old one.
/// let opening = Opening { columns: 4, keys: 2, sort: 3, rule: Rule::TakeNew, capacity: 100, generation: 0 };
/// let mut table = Table::new(&opening, 1_000)?;
/// table.stage_insert(&[7, 1, 160, 10])?;
/// table.stage_insert(&[7, 2, 148, 10])?;
/// assert!(table.merge()?.added);
///
/// table.stage_insert(&[7, 1, 163, 12])?;
/// table.stage_remove(&[7, 2])?;
/// assert!(table.merge()?.added);
///
/// assert_eq!(table.get_row_column(&[7, 1], 2)?, Some(163));
/// assert_eq!(table.get_row(&[7, 2])?, None);
/// assert_eq!(table.fast_subset(Condition::eq(3, 10))?, Some(Subset::Range(0, 2)));
/// assert_eq!(table.refine_one(&table.all(), Condition::ge(2, 150))?, Subset::Range(2, 3));
/// for row in &table {
///     println!("{}: {:?}", row.id, row.cells);
/// }
///
/// // A stamp below the largest one appended stops a merge, which is an error. Earlier inserts of the batch would stay.
/// table.stage_insert(&[8, 1, 150, 11])?;
/// assert_eq!(table.merge().unwrap_err().to_string(), "stopped 9 at insert 0: a sort value below the largest one appended");
///
/// // A refused call changes nothing.
/// assert_eq!(table.stage_insert(&[7, 1]), Err(Refusal::WrongWidth));
/// # Ok(())
/// # }
/// ```
#[derive(Clone, Debug)]
pub struct Table {
    stores: Stores,
    /// Compaction words: nothing is kept in them between two calls.
    live: Vec<u64>,
    base: Vec<u32>,
}

impl Table {
    /// An empty table with a pending store of this many words. An insert takes columns plus 2 words, a removal by key keys plus
    /// 2, a removal by row keys plus 3. Refused by 1.
    ///
    /// ```
    /// # use mouldgrey::{Opening, Refusal, Rule, Table};
    /// let opening = Opening { columns: 9, keys: 1, sort: 0, rule: Rule::KeepOld, capacity: 10, generation: 0 };
    /// assert_eq!(Table::new(&opening, 100).unwrap_err(), Refusal::OutOfBounds);
    /// ```
    pub fn new(opening: &Opening, pending_words: usize) -> Result<Table, Refusal> {
        let mut table = Table::without_stores();
        table.reserve_pending(pending_words);
        table.open(opening)?;
        Ok(table)
    }

    pub(crate) fn without_stores() -> Table {
        Table {
            stores: Stores::default(),
            live: Vec::new(),
            base: Vec::new(),
        }
    }

    /// Opens a table and makes the calls of a list on it in one call of the library, also after one that is refused or stops. The
    /// index is that of all refreshes of the list. Refused by 1.
    ///
    /// ```
    /// # use mouldgrey::{Call, Opening, Rule, Table, ValueIndex};
    /// # fn main() -> Result<(), mouldgrey::Error> {
    /// let opening = Opening { columns: 2, keys: 1, sort: 1, rule: Rule::TakeNew, capacity: 10, generation: 0 };
    /// let calls = [Call::Insert(&[7, 1]), Call::Insert(&[8, 1]), Call::Merge, Call::Remove(&[7]), Call::Merge];
    /// let table = Table::replay(&opening, 100, &mut ValueIndex::new(), &calls)?;
    /// assert_eq!(table.rows().map(|row| row.cells[0]).collect::<Vec<_>>(), [8]);
    /// # Ok(())
    /// # }
    /// ```
    pub fn replay(
        opening: &Opening,
        pending_words: usize,
        index: &mut ValueIndex,
        calls: &[Call<'_>],
    ) -> Result<Table, Refusal> {
        let mut table = Table::without_stores();
        table.reserve_pending(pending_words);
        table.check_opening(opening)?;
        table.make_room(&opening.lengths());
        let columns = calls.iter().map(Call::named_columns).max().unwrap_or(0);
        let needed = match columns {
            0 => 0,
            _ => ValueIndex::words_needed(opening.capacity, columns.min(8)),
        };
        let s = &mut table.stores;
        lent::replay(
            opening,
            &mut s.header,
            &encode_calls(calls),
            &mut s.rows,
            &mut s.keys,
            &mut s.sorts,
            &mut s.pending,
            &mut table.live,
            &mut table.base,
            index.lend(needed),
        )?;
        Ok(table)
    }

    /// Whether an opening's numbers are within their bounds. On stores of no length, 2 is the refusal after that one.
    fn check_opening(&self, opening: &Opening) -> Result<(), Refusal> {
        let mut header = Header::default();
        match lent::open_table(opening, &mut header, &[], &mut [], &[], &[]) {
            Ok(()) | Err(Refusal::TooShort) => Ok(()),
            Err(refusal) => Err(refusal),
        }
    }

    /// Empties the table and gives it these numbers. What is staged is dropped. Refused by 1; the table stays as it was then.
    ///
    /// ```
    /// # use mouldgrey::{Opening, Rule, Table};
    /// # fn main() -> Result<(), mouldgrey::Error> {
    /// # let opening = Opening { columns: 2, keys: 1, sort: 1, rule: Rule::KeepOld, capacity: 10, generation: 0 };
    /// # let mut table = Table::new(&opening, 100)?;
    /// table.open(&Opening { capacity: 20, ..opening })?;
    /// assert_eq!(table.header().capacity, 20);
    /// # Ok(())
    /// # }
    /// ```
    pub fn open(&mut self, opening: &Opening) -> Result<(), Refusal> {
        self.check_opening(opening)?;
        self.make_room(&opening.lengths());
        let s = &mut self.stores;
        lent::open_table(
            opening,
            &mut s.header,
            &s.rows,
            &mut s.keys,
            &s.sorts,
            &s.pending,
        )
    }

    /// A table of stores that an archive has kept, if they are sound.
    ///
    /// ```
    /// # use mouldgrey::{NoTable, Opening, Rule, Table};
    /// # fn main() -> Result<(), Box<dyn std::error::Error>> {
    /// # let opening = Opening { columns: 2, keys: 1, sort: 1, rule: Rule::KeepOld, capacity: 10, generation: 0 };
    /// # let mut table = Table::new(&opening, 100)?;
    /// # table.stage_insert(&[7, 1])?;
    /// # table.merge()?;
    /// let mut stores = table.into_stores();
    /// let table = Table::from_stores(stores.clone())?;
    /// stores.rows[0] = 8;
    /// assert_eq!(Table::from_stores(stores).unwrap_err(), NoTable::Unsound);
    /// # Ok(())
    /// # }
    /// ```
    pub fn from_stores(stores: Stores) -> Result<Table, NoTable> {
        let s = &stores;
        match lent::is_sound(&s.header, &s.rows, &s.keys, &s.sorts, &s.pending) {
            Ok(true) => {}
            Ok(false) => return Err(NoTable::Unsound),
            Err(refusal) => return Err(NoTable::Refused(refusal)),
        }
        let lengths = stores.header.lengths();
        Ok(Table {
            stores,
            live: vec![0; lengths.live],
            base: vec![0; lengths.base],
        })
    }

    /// Reads an image into the stores, which get as long as this header needs. Its capacity is the table's.
    pub(crate) fn read_image(&mut self, image: &[u32], header: &Header) -> Result<(), Refusal> {
        self.make_room(&header.lengths());
        let s = &mut self.stores;
        lent::read_image(
            image,
            header.capacity,
            &mut s.header,
            &mut s.rows,
            &mut s.keys,
            &mut s.sorts,
            &mut s.pending,
        )
    }

    /// The header and stores, to be kept.
    ///
    /// ```
    /// # use mouldgrey::{Condition, Opening, Rule, Subset, Table};
    /// # fn main() -> Result<(), mouldgrey::Error> {
    /// # let opening = Opening { columns: 2, keys: 1, sort: 1, rule: Rule::KeepOld, capacity: 10, generation: 0 };
    /// # let mut table = Table::new(&opening, 100)?;
    /// # for key in 0..5 {
    /// #     table.stage_insert(&[key, key])?;
    /// # }
    /// # table.merge()?;
    /// assert_eq!(table.stores().header.rows, 5);
    /// # Ok(())
    /// # }
    /// ```
    pub fn stores(&self) -> &Stores {
        &self.stores
    }

    /// The header and stores themselves.
    ///
    /// ```
    /// # use mouldgrey::{Condition, Opening, Rule, Subset, Table};
    /// # fn main() -> Result<(), mouldgrey::Error> {
    /// # let opening = Opening { columns: 2, keys: 1, sort: 1, rule: Rule::KeepOld, capacity: 10, generation: 0 };
    /// # let mut table = Table::new(&opening, 100)?;
    /// # for key in 0..5 {
    /// #     table.stage_insert(&[key, key])?;
    /// # }
    /// # table.merge()?;
    /// assert_eq!(table.into_stores().rows[..4], [0, 0, 1, 1]);
    /// # Ok(())
    /// # }
    /// ```
    pub fn into_stores(self) -> Stores {
        self.stores
    }

    /// The table's numbers.
    ///
    /// ```
    /// # use mouldgrey::{Condition, Opening, Rule, Subset, Table};
    /// # fn main() -> Result<(), mouldgrey::Error> {
    /// # let opening = Opening { columns: 2, keys: 1, sort: 1, rule: Rule::KeepOld, capacity: 10, generation: 0 };
    /// # let mut table = Table::new(&opening, 100)?;
    /// # for key in 0..5 {
    /// #     table.stage_insert(&[key, key])?;
    /// # }
    /// # table.merge()?;
    /// assert_eq!(table.header().largest(), Some(4));
    /// # Ok(())
    /// # }
    /// ```
    pub fn header(&self) -> &Header {
        &self.stores.header
    }

    /// Makes each store as long as needed, where it is shorter.
    fn make_room(&mut self, needed: &Lengths) {
        fn grow<T: Copy + Default>(store: &mut Vec<T>, length: usize) {
            if store.len() < length {
                store.resize(length, T::default());
            }
        }
        grow(&mut self.stores.rows, needed.rows);
        grow(&mut self.stores.keys, needed.keys);
        grow(&mut self.stores.sorts, needed.sorts);
        grow(&mut self.live, needed.live);
        grow(&mut self.base, needed.base);
    }

    /// Makes the pending store at least this many words long.
    ///
    /// ```
    /// # use mouldgrey::{Opening, Refusal, Rule, Table};
    /// # fn main() -> Result<(), mouldgrey::Error> {
    /// # let opening = Opening { columns: 2, keys: 1, sort: 1, rule: Rule::KeepOld, capacity: 10, generation: 0 };
    /// let mut table = Table::new(&opening, 0)?;
    /// assert_eq!(table.stage_insert(&[7, 1]), Err(Refusal::PendingFull));
    /// table.reserve_pending(4);
    /// table.stage_insert(&[7, 1])?;
    /// # Ok(())
    /// # }
    /// ```
    pub fn reserve_pending(&mut self, words: usize) {
        if self.stores.pending.len() < words {
            self.stores.pending.resize(words, 0);
        }
    }

    /// Stages a row for insertion at the next merge. Refused by 3, and by 7 if the pending store has no room.
    ///
    /// ```
    /// # use mouldgrey::{Condition, Opening, Rule, Subset, Table};
    /// # fn main() -> Result<(), mouldgrey::Error> {
    /// # let opening = Opening { columns: 2, keys: 1, sort: 1, rule: Rule::KeepOld, capacity: 10, generation: 0 };
    /// # let mut table = Table::new(&opening, 100)?;
    /// # for key in 0..5 {
    /// #     table.stage_insert(&[key, key])?;
    /// # }
    /// # table.merge()?;
    /// table.stage_insert(&[7, 9])?;
    /// table.merge()?;
    /// assert_eq!(table.get_row_column(&[7], 1)?, Some(9));
    /// # Ok(())
    /// # }
    /// ```
    #[inline]
    pub fn stage_insert(&mut self, cells: &[u32]) -> Result<(), Refusal> {
        lent::stage_insert(&mut self.stores.header, &mut self.stores.pending, cells)
    }

    /// Stages the removal of the live row with this key; no effect if there is none at merge time. Refused by 3 and 7.
    ///
    /// ```
    /// # use mouldgrey::{Condition, Opening, Rule, Subset, Table};
    /// # fn main() -> Result<(), mouldgrey::Error> {
    /// # let opening = Opening { columns: 2, keys: 1, sort: 1, rule: Rule::KeepOld, capacity: 10, generation: 0 };
    /// # let mut table = Table::new(&opening, 100)?;
    /// # for key in 0..5 {
    /// #     table.stage_insert(&[key, key])?;
    /// # }
    /// # table.merge()?;
    /// table.stage_remove(&[2])?;
    /// table.merge()?;
    /// assert_eq!(table.get_row(&[2])?, None);
    /// # Ok(())
    /// # }
    /// ```
    #[inline]
    pub fn stage_remove(&mut self, key: &[u32]) -> Result<(), Refusal> {
        lent::stage_remove(&mut self.stores.header, &mut self.stores.pending, key)
    }

    /// Stages the removal of a row by its number; no effect unless, at merge time, that row exists, is live and has this key.
    /// Refused by 3, 5 and 7.
    ///
    /// ```
    /// # use mouldgrey::{Opening, Rule, Table};
    /// # fn main() -> Result<(), mouldgrey::Error> {
    /// # let opening = Opening { columns: 2, keys: 1, sort: 1, rule: Rule::KeepOld, capacity: 10, generation: 0 };
    /// # let mut table = Table::new(&opening, 100)?;
    /// # table.stage_insert(&[7, 1])?;
    /// # table.merge()?;
    /// table.stage_remove_row(0, &[7])?;
    /// table.merge()?;
    /// assert_eq!(table.rows().count(), 0);
    /// # Ok(())
    /// # }
    /// ```
    #[inline]
    pub fn stage_remove_row(&mut self, row: u32, key: &[u32]) -> Result<(), Refusal> {
        lent::stage_remove_row(&mut self.stores.header, &mut self.stores.pending, row, key)
    }

    /// Applies what is staged: removals by key, removals by row, inserts, each in staging order. If the dead rows then outnumber the
    /// larger of 16 and half of all rows, the table compacts.
    ///
    /// # Errors
    ///
    /// [`Error::Stopped`] if an insert must be appended and cannot be: the table is full, or its sort value is below the largest
    /// one appended. Work done before the stop remains, this insert and all later ones are dropped. A table's merge is never
    /// refused.
    ///
    /// ```
    /// # use mouldgrey::{Error, Opening, Rule, Stop, StopReason, Table};
    /// # fn main() -> Result<(), Error> {
    /// # let opening = Opening { columns: 2, keys: 1, sort: 1, rule: Rule::KeepOld, capacity: 1, generation: 0 };
    /// # let mut table = Table::new(&opening, 100)?;
    /// table.stage_insert(&[7, 1])?;
    /// table.stage_insert(&[8, 1])?;
    /// let stop = Stop { reason: StopReason::TableFull, place: 1 };
    /// assert_eq!(table.merge(), Err(Error::Stopped(stop)));
    /// assert_eq!(table.rows().count(), 1);
    /// # Ok(())
    /// # }
    /// ```
    pub fn merge(&mut self) -> Result<Merged, Error> {
        Ok(self.merge_or_stop()?.accepted()?)
    }

    /// As [`merge`](Table::merge), with a stop as part of the answer and not as an error: what the merge did before the stop is in
    /// it too. A table's merge is never refused.
    ///
    /// ```
    /// # use mouldgrey::{Opening, Rule, Table};
    /// # fn main() -> Result<(), mouldgrey::Error> {
    /// # let opening = Opening { columns: 2, keys: 1, sort: 1, rule: Rule::KeepOld, capacity: 1, generation: 0 };
    /// # let mut table = Table::new(&opening, 100)?;
    /// table.stage_insert(&[7, 1])?;
    /// table.stage_insert(&[8, 1])?;
    /// let merge = table.merge_or_stop()?;
    /// assert!(merge.stop.is_some_and(|stop| stop.place == 1));
    /// assert!(merge.merged.added);
    /// # Ok(())
    /// # }
    /// ```
    pub fn merge_or_stop(&mut self) -> Result<Merge, Refusal> {
        let s = &mut self.stores;
        lent::merge(
            &mut s.header,
            &mut s.rows,
            &mut s.keys,
            &mut s.sorts,
            &s.pending,
            &mut self.live,
            &mut self.base,
        )
    }

    /// Drops the dead rows. Live rows move down and are renumbered in order; the generation rises by one. Refused by 10.
    ///
    /// ```
    /// # use mouldgrey::{Opening, Rule, Table};
    /// # fn main() -> Result<(), mouldgrey::Error> {
    /// # let opening = Opening { columns: 2, keys: 1, sort: 1, rule: Rule::KeepOld, capacity: 10, generation: 0 };
    /// # let mut table = Table::new(&opening, 100)?;
    /// table.compact()?;
    /// assert_eq!(table.version().generation, 1);
    /// # Ok(())
    /// # }
    /// ```
    pub fn compact(&mut self) -> Result<(), Refusal> {
        let s = &mut self.stores;
        lent::compact(
            &mut s.header,
            &mut s.rows,
            &mut s.keys,
            &mut s.sorts,
            &mut self.live,
            &mut self.base,
        )
    }

    /// Drops what is staged. If there are rows, live or dead, drops them all, forgets the largest sort value, and raises the generation
    /// by one. Without rows the generation and the largest sort value stay. Refused by 10, if there are rows.
    ///
    /// ```
    /// # use mouldgrey::{Opening, Rule, Table};
    /// # fn main() -> Result<(), mouldgrey::Error> {
    /// # let opening = Opening { columns: 2, keys: 1, sort: 1, rule: Rule::KeepOld, capacity: 10, generation: 0 };
    /// # let mut table = Table::new(&opening, 100)?;
    /// # table.stage_insert(&[7, 1])?;
    /// # table.merge()?;
    /// table.clear()?;
    /// assert_eq!(table.rows().count(), 0);
    /// # Ok(())
    /// # }
    /// ```
    pub fn clear(&mut self) -> Result<(), Refusal> {
        lent::clear(&mut self.stores.header, &mut self.stores.keys)
    }

    /// Stages each live row that holds one of these values in one of these columns, rising: for removal by row, then for insertion
    /// with the stamp as its sort cell. Returns whether there was one. The index goes on from the version that it has last seen, or
    /// starts afresh where generation or columns differ; it grows where it is too short. Refused by 12, more than eight columns, 6,
    /// 9, a stamp below the largest sort value appended, and 7; then nothing is staged and the index is as it was.
    ///
    /// The merge that follows can still lose rows, since removals take effect and an insert may not: in a full table, or behind an
    /// insert staged earlier with a larger stamp (both are a [`Stop`](crate::Stop)); with stamp 4294967295 in sort column 0 (the
    /// insert is skipped); and where the sort column is a key column two rows may become one.
    ///
    /// ```
    /// # use mouldgrey::{Opening, Rule, Table, ValueIndex};
    /// # fn main() -> Result<(), mouldgrey::Error> {
    /// // Columns: modem, diplexer type, stamp.
    /// let opening = Opening { columns: 3, keys: 1, sort: 2, rule: Rule::TakeNew, capacity: 100, generation: 0 };
    /// let mut table = Table::new(&opening, 1_000)?;
    /// for cells in [[7, 40, 10], [8, 41, 10], [9, 40, 11]] {
    ///     table.stage_insert(&cells)?;
    /// }
    /// table.merge()?;
    /// // Type 40 is renumbered.
    /// let mut index = ValueIndex::new();
    /// assert!(table.refresh_rows_for_values(&mut index, &[1], &[40], 12)?);
    /// table.merge()?;
    /// let stamps: Vec<u32> = table.rows().map(|row| row.cells[2]).collect();
    /// assert_eq!(stamps, [10, 12, 12]);
    /// # Ok(())
    /// # }
    /// ```
    pub fn refresh_rows_for_values(
        &mut self,
        index: &mut ValueIndex,
        columns: &[u32],
        values: &[u32],
        stamp: u32,
    ) -> Result<bool, Refusal> {
        let s = &mut self.stores;
        // More than eight columns are refused before the index is looked at.
        let needed = ValueIndex::words_needed(s.header.capacity, columns.len().min(8));
        let before = index.words().len();
        lent::refresh_rows_for_values(
            &mut s.header,
            &s.rows,
            &mut s.pending,
            index.lend(needed),
            columns,
            values,
            stamp,
        )
        .inspect_err(|_| index.shorten(before))
    }

    /// The live row with a key. Refused by 3.
    ///
    /// ```
    /// # use mouldgrey::{Condition, Opening, Rule, Subset, Table};
    /// # fn main() -> Result<(), mouldgrey::Error> {
    /// # let opening = Opening { columns: 2, keys: 1, sort: 1, rule: Rule::KeepOld, capacity: 10, generation: 0 };
    /// # let mut table = Table::new(&opening, 100)?;
    /// # for key in 0..5 {
    /// #     table.stage_insert(&[key, key])?;
    /// # }
    /// # table.merge()?;
    /// let row = table.get_row(&[3])?.expect("a live row");
    /// assert_eq!((row.id, row.cells), (3, &[3, 3][..]));
    /// # Ok(())
    /// # }
    /// ```
    #[inline]
    pub fn get_row(&self, key: &[u32]) -> Result<Option<Row<'_>>, Refusal> {
        let s = &self.stores;
        let id = lent::get_row(&s.header, &s.rows, &s.keys, key)?;
        Ok(id.map(|id| self.row_at(id)))
    }

    /// One cell of the live row with a key. Refused by 3 and 6.
    ///
    /// ```
    /// # use mouldgrey::{Condition, Opening, Rule, Subset, Table};
    /// # fn main() -> Result<(), mouldgrey::Error> {
    /// # let opening = Opening { columns: 2, keys: 1, sort: 1, rule: Rule::KeepOld, capacity: 10, generation: 0 };
    /// # let mut table = Table::new(&opening, 100)?;
    /// # for key in 0..5 {
    /// #     table.stage_insert(&[key, key])?;
    /// # }
    /// # table.merge()?;
    /// assert_eq!(table.get_row_column(&[3], 1)?, Some(3));
    /// assert_eq!(table.get_row_column(&[9], 1)?, None);
    /// # Ok(())
    /// # }
    /// ```
    #[inline]
    pub fn get_row_column(&self, key: &[u32], column: u32) -> Result<Option<u32>, Refusal> {
        let s = &self.stores;
        lent::get_row_column(&s.header, &s.rows, &s.keys, key, column)
    }

    /// The range of all rows that meet a condition on the sort column, found without a scan; none for two columns compared and for
    /// any other column. Dead rows may lie in it; [`refine_one`](Table::refine_one) leaves them out. Refused by 6.
    ///
    /// ```
    /// # use mouldgrey::{Condition, Opening, Rule, Subset, Table};
    /// # fn main() -> Result<(), mouldgrey::Error> {
    /// # let opening = Opening { columns: 2, keys: 1, sort: 1, rule: Rule::KeepOld, capacity: 10, generation: 0 };
    /// # let mut table = Table::new(&opening, 100)?;
    /// # for key in 0..5 {
    /// #     table.stage_insert(&[key, key])?;
    /// # }
    /// # table.merge()?;
    /// assert_eq!(table.fast_subset(Condition::lt(1, 2))?, Some(Subset::Range(0, 2)));
    /// assert_eq!(table.fast_subset(Condition::lt(0, 2))?, None);
    /// # Ok(())
    /// # }
    /// ```
    #[inline]
    pub fn fast_subset(&self, condition: Condition) -> Result<Option<Subset>, Refusal> {
        let range = lent::fast_subset(&self.stores.header, &self.stores.sorts, condition)?;
        Ok(range.map(|(start, end)| Subset::Range(start, end)))
    }

    /// Generation and row count. While the generation stays, a row below a former row count has the cells it had or is dead.
    ///
    /// ```
    /// # use mouldgrey::{Condition, Opening, Rule, Subset, Table};
    /// # fn main() -> Result<(), mouldgrey::Error> {
    /// # let opening = Opening { columns: 2, keys: 1, sort: 1, rule: Rule::KeepOld, capacity: 10, generation: 0 };
    /// # let mut table = Table::new(&opening, 100)?;
    /// # for key in 0..5 {
    /// #     table.stage_insert(&[key, key])?;
    /// # }
    /// # table.merge()?;
    /// assert_eq!(table.version().rows, 5);
    /// # Ok(())
    /// # }
    /// ```
    #[inline]
    pub fn version(&self) -> Version {
        lent::version(&self.stores.header)
            .expect("an opened table's numbers are within their bounds")
    }

    /// The rows from this number on. Refused by 5.
    ///
    /// ```
    /// # use mouldgrey::{Condition, Opening, Rule, Subset, Table};
    /// # fn main() -> Result<(), mouldgrey::Error> {
    /// # let opening = Opening { columns: 2, keys: 1, sort: 1, rule: Rule::KeepOld, capacity: 10, generation: 0 };
    /// # let mut table = Table::new(&opening, 100)?;
    /// # for key in 0..5 {
    /// #     table.stage_insert(&[key, key])?;
    /// # }
    /// # table.merge()?;
    /// assert_eq!(table.updates_since(3)?, Subset::Range(3, 5));
    /// # Ok(())
    /// # }
    /// ```
    #[inline]
    pub fn updates_since(&self, row: u32) -> Result<Subset, Refusal> {
        let (start, end) = lent::updates_since(&self.stores.header, row)?;
        Ok(Subset::Range(start, end))
    }

    /// The rows since a version that this table had. Refused by 18, another generation or more rows than there are. If accepted,
    /// each row below the noted row count has the cells it had or is dead, and the live rows are those noted and still live
    /// together with the live rows of the answer. A version that another table had, or this one before it was opened anew or loaded
    /// from an older image, may be accepted and means nothing.
    ///
    /// ```
    /// # use mouldgrey::{Opening, Refusal, Rule, Subset, Table};
    /// # fn main() -> Result<(), mouldgrey::Error> {
    /// # let opening = Opening { columns: 2, keys: 1, sort: 1, rule: Rule::KeepOld, capacity: 10, generation: 0 };
    /// # let mut table = Table::new(&opening, 100)?;
    /// let noted = table.version();
    /// table.stage_insert(&[7, 1])?;
    /// table.merge()?;
    /// assert_eq!(table.rows_since_version(noted)?, Subset::Range(0, 1));
    /// table.compact()?;
    /// assert_eq!(table.rows_since_version(noted), Err(Refusal::OldNote));
    /// # Ok(())
    /// # }
    /// ```
    #[inline]
    pub fn rows_since_version(&self, noted: Version) -> Result<Subset, Refusal> {
        let (start, end) = lent::rows_since_version(&self.stores.header, noted)?;
        Ok(Subset::Range(start, end))
    }

    /// Checks that each row of one kind has an earlier row of another kind: a live row with a pair's first value in this key column needs a live row with the
    /// second value there, the same other key cells and a sort cell no larger. Returns the lowest row that fails and the place of
    /// the first pair that it fails; none if every row meets its pairs. Refused by 6, a column that is no key column, and 14, a
    /// number of pairs outside 1 to 16. Only live rows count: a row that is corrected under a later stamp makes rows fail that met
    /// their pair before.
    ///
    /// ```
    /// # use mouldgrey::{Opening, Rule, Table};
    /// # fn main() -> Result<(), mouldgrey::Error> {
    /// # let opening = Opening { columns: 3, keys: 2, sort: 2, rule: Rule::KeepOld, capacity: 10, generation: 0 };
    /// # let mut table = Table::new(&opening, 100)?;
    /// // Side 2 of modem 7 is on file without side 1.
    /// table.stage_insert(&[7, 2, 10])?;
    /// table.merge()?;
    /// assert_eq!(table.check_precedence(1, &[[2, 1]])?, Some((0, 0)));
    /// # Ok(())
    /// # }
    /// ```
    pub fn check_precedence(
        &self,
        column: u32,
        pairs: &[[u32; 2]],
    ) -> Result<Option<(u32, u32)>, Refusal> {
        let s = &self.stores;
        lent::check_precedence(&s.header, &s.rows, &s.keys, column, pairs.as_flattened())
    }

    /// All row numbers, dead rows among them.
    ///
    /// ```
    /// # use mouldgrey::{Condition, Opening, Rule, Subset, Table};
    /// # fn main() -> Result<(), mouldgrey::Error> {
    /// # let opening = Opening { columns: 2, keys: 1, sort: 1, rule: Rule::KeepOld, capacity: 10, generation: 0 };
    /// # let mut table = Table::new(&opening, 100)?;
    /// # for key in 0..5 {
    /// #     table.stage_insert(&[key, key])?;
    /// # }
    /// # table.merge()?;
    /// assert_eq!(table.all(), Subset::Range(0, 5));
    /// # Ok(())
    /// # }
    /// ```
    pub fn all(&self) -> Subset {
        Subset::Range(0, self.stores.header.rows)
    }

    /// The live rows of a subset that meet a condition. Refused by 4, 5 and 6.
    ///
    /// ```
    /// # use mouldgrey::{Condition, Opening, Rule, Subset, Table};
    /// # fn main() -> Result<(), mouldgrey::Error> {
    /// # let opening = Opening { columns: 2, keys: 1, sort: 1, rule: Rule::KeepOld, capacity: 10, generation: 0 };
    /// # let mut table = Table::new(&opening, 100)?;
    /// # for key in 0..5 {
    /// #     table.stage_insert(&[key, key])?;
    /// # }
    /// # table.merge()?;
    /// assert_eq!(table.refine_one(&table.all(), Condition::ge(0, 3))?, Subset::Range(3, 5));
    /// # Ok(())
    /// # }
    /// ```
    pub fn refine_one<'a>(
        &self,
        subset: impl Into<SubsetRef<'a>>,
        condition: Condition,
    ) -> Result<Subset, Refusal> {
        let s = &self.stores;
        let subset = subset.into();
        with_output(self.room(subset), |output| {
            lent::refine_one(&s.header, &s.rows, subset, condition, output)
        })
    }

    /// The live rows of a subset that meet all conditions: the range if all of it is kept, else a list. Refused by 4, 5 and 6.
    ///
    /// ```
    /// # use mouldgrey::{Condition, Opening, Rule, Subset, Table};
    /// # fn main() -> Result<(), mouldgrey::Error> {
    /// # let opening = Opening { columns: 2, keys: 1, sort: 1, rule: Rule::KeepOld, capacity: 10, generation: 0 };
    /// # let mut table = Table::new(&opening, 100)?;
    /// # for key in 0..5 {
    /// #     table.stage_insert(&[key, key])?;
    /// # }
    /// # table.merge()?;
    /// let conditions = [Condition::ge(0, 1), Condition::lt(1, 3)];
    /// assert_eq!(table.refine_ref(&table.all(), &conditions)?, Subset::List(vec![1, 2]));
    /// assert!(table.contains_match(&table.all(), &conditions)?);
    /// # Ok(())
    /// # }
    /// ```
    pub fn refine_ref<'a>(
        &self,
        subset: impl Into<SubsetRef<'a>>,
        conditions: &[Condition],
    ) -> Result<Subset, Refusal> {
        let s = &self.stores;
        let subset = subset.into();
        let conditions = Condition::as_constraints(conditions);
        with_output(self.room(subset), |output| {
            lent::refine_ref(&s.header, &s.rows, subset, conditions, output)
        })
    }

    /// Whether some live row of a subset meets all conditions. Refused by 4, 5 and 6.
    ///
    /// ```
    /// # use mouldgrey::{Condition, Opening, Rule, Subset, Table};
    /// # fn main() -> Result<(), mouldgrey::Error> {
    /// # let opening = Opening { columns: 2, keys: 1, sort: 1, rule: Rule::KeepOld, capacity: 10, generation: 0 };
    /// # let mut table = Table::new(&opening, 100)?;
    /// # for key in 0..5 {
    /// #     table.stage_insert(&[key, key])?;
    /// # }
    /// # table.merge()?;
    /// assert!(!table.contains_match(&table.all(), &[Condition::gt(0, 4)])?);
    /// # Ok(())
    /// # }
    /// ```
    pub fn contains_match<'a>(
        &self,
        subset: impl Into<SubsetRef<'a>>,
        conditions: &[Condition],
    ) -> Result<bool, Refusal> {
        let s = &self.stores;
        let conditions = Condition::as_constraints(conditions);
        lent::contains_match(&s.header, &s.rows, subset.into(), conditions)
    }

    /// Reads a page: visits n ids of a subset from a place on, counted from 0, and returns those of the live rows that meet all
    /// conditions, how many of the visited rows are dead, and the next place, if ids remain. Refused by 4, 5 (also if the place is
    /// above the subset's size) and 6.
    ///
    /// ```
    /// # use mouldgrey::{Condition, Opening, Rule, Table};
    /// # fn main() -> Result<(), mouldgrey::Error> {
    /// # let opening = Opening { columns: 2, keys: 1, sort: 1, rule: Rule::KeepOld, capacity: 10, generation: 0 };
    /// # let mut table = Table::new(&opening, 100)?;
    /// # for key in 0..5 {
    /// #     table.stage_insert(&[key, key])?;
    /// # }
    /// # table.merge()?;
    /// let mut place = Some(0);
    /// while let Some(from) = place {
    ///     let page = table.read_page(&table.all(), from, 2, &[Condition::gt(0, 1)])?;
    ///     println!("{:?}, {} dead", page.ids, page.dead);
    ///     place = page.next;
    /// }
    /// # Ok(())
    /// # }
    /// ```
    pub fn read_page<'a>(
        &self,
        subset: impl Into<SubsetRef<'a>>,
        place: u32,
        n: usize,
        conditions: &[Condition],
    ) -> Result<Page, Refusal> {
        let s = &self.stores;
        let subset = subset.into();
        let conditions = Condition::as_constraints(conditions);
        let mut ids = vec![0; n.min(self.room(subset))];
        let page = lent::read_page(&s.header, &s.rows, subset, place, n, conditions, &mut ids)?;
        ids.truncate(page.written);
        Ok(Page {
            ids,
            dead: page.dead,
            next: page.next,
        })
    }

    /// Makes the queries of a list on a subset in one call of the library, in order, each on the ids that the last accepted one
    /// left; a query that is refused changes nothing.
    ///
    /// ```
    /// # use mouldgrey::{Condition, Opening, Query, Rule, Subset, Table};
    /// # fn main() -> Result<(), mouldgrey::Error> {
    /// # let opening = Opening { columns: 2, keys: 1, sort: 1, rule: Rule::KeepOld, capacity: 10, generation: 0 };
    /// # let mut table = Table::new(&opening, 100)?;
    /// # for key in 0..5 {
    /// #     table.stage_insert(&[key, key])?;
    /// # }
    /// # table.merge()?;
    /// let list = Subset::List(vec![0, 1, 3]);
    /// let queries = [Query::RefineOne(Condition::ge(0, 1)), Query::Intersect(list.as_ref())];
    /// let left = table.run_queries(&table.all(), &queries);
    /// assert_eq!(left.ids.ids().collect::<Vec<_>>(), [1, 3]);
    /// # Ok(())
    /// # }
    /// ```
    pub fn run_queries<'a>(
        &self,
        subset: impl Into<SubsetRef<'a>>,
        queries: &[Query<'_>],
    ) -> Queried {
        let s = &self.stores;
        let subset = subset.into();
        let room = self.room(subset).max(Query::longest_list(queries));
        let (mut first, mut second) = (vec![0; room], vec![0; room]);
        let words = encode_queries(queries);
        let left = lent::run_queries(
            &s.header,
            &s.rows,
            &s.sorts,
            subset,
            &words,
            &mut first,
            &mut second,
        );
        let list = |mut ids: Vec<u32>, count| {
            ids.truncate(count);
            Subset::List(ids)
        };
        let ids = match (left.ids, subset) {
            (lent::LeftIn::Range(start, end), _) => Subset::Range(start, end),
            (lent::LeftIn::First(count), _) => list(first, count),
            (lent::LeftIn::Second(count), _) => list(second, count),
            (lent::LeftIn::Start, SubsetRef::List(ids)) => Subset::List(ids.to_vec()),
            (lent::LeftIn::Start, SubsetRef::Range(start, end)) => Subset::Range(start, end),
        };
        Queried {
            ids,
            refined: left.refined,
            taken: left.taken,
        }
    }

    /// A listing of the live rows as text: in the new form, with row numbers, if `numbered`, else in the old one.
    ///
    /// ```
    /// # use mouldgrey::{Opening, Rule, Table};
    /// # fn main() -> Result<(), mouldgrey::Error> {
    /// # let opening = Opening { columns: 2, keys: 1, sort: 1, rule: Rule::KeepOld, capacity: 10, generation: 0 };
    /// # let mut table = Table::new(&opening, 100)?;
    /// # table.stage_insert(&[7, 1])?;
    /// # table.merge()?;
    /// assert_eq!(table.listing(true), b"U,2,1,1,0,0,1\nD,0,7,1\n");
    /// # Ok(())
    /// # }
    /// ```
    pub fn listing(&self, numbered: bool) -> Vec<u8> {
        let s = &self.stores;
        let (rows, columns) = (s.header.rows as usize, s.header.columns as usize);
        // Every number takes at most ten digits and a comma.
        let mut text = vec![0; 68 + rows * (2 + 11 * (columns + 1))];
        let length = lent::write_listing(&s.header, &s.rows, numbered, &mut text)
            .expect("an opened table and room for its listing");
        text.truncate(length);
        text
    }

    /// Whether header and stores are sound. They are, unless [`Stores`] were changed elsewhere.
    ///
    /// ```
    /// # use mouldgrey::{Condition, Opening, Rule, Subset, Table};
    /// # fn main() -> Result<(), mouldgrey::Error> {
    /// # let opening = Opening { columns: 2, keys: 1, sort: 1, rule: Rule::KeepOld, capacity: 10, generation: 0 };
    /// # let mut table = Table::new(&opening, 100)?;
    /// # for key in 0..5 {
    /// #     table.stage_insert(&[key, key])?;
    /// # }
    /// # table.merge()?;
    /// assert!(table.is_sound()?);
    /// # Ok(())
    /// # }
    /// ```
    pub fn is_sound(&self) -> Result<bool, Refusal> {
        let s = &self.stores;
        lent::is_sound(&s.header, &s.rows, &s.keys, &s.sorts, &s.pending)
    }

    /// The live rows, rising.
    ///
    /// ```
    /// # use mouldgrey::{Condition, Opening, Rule, Subset, Table};
    /// # fn main() -> Result<(), mouldgrey::Error> {
    /// # let opening = Opening { columns: 2, keys: 1, sort: 1, rule: Rule::KeepOld, capacity: 10, generation: 0 };
    /// # let mut table = Table::new(&opening, 100)?;
    /// # for key in 0..5 {
    /// #     table.stage_insert(&[key, key])?;
    /// # }
    /// # table.merge()?;
    /// assert_eq!(table.rows().count(), 5);
    /// # Ok(())
    /// # }
    /// ```
    pub fn rows(&self) -> Rows<'_> {
        let Header { columns, rows, .. } = self.stores.header;
        let cells = &self.stores.rows[..rows as usize * columns as usize];
        Rows {
            next: 0,
            left: cells.chunks_exact(columns as usize),
        }
    }

    /// The ids that an answer over a subset may have: a subset with more ids than there are rows is refused.
    fn room(&self, subset: SubsetRef<'_>) -> usize {
        subset.size().min(self.stores.header.rows as usize)
    }

    /// The live row with this number, such as one that a query has found; none if it is dead or there is no such row.
    ///
    /// ```
    /// # use mouldgrey::{Condition, Opening, Rule, Table};
    /// # fn main() -> Result<(), mouldgrey::Error> {
    /// # let opening = Opening { columns: 2, keys: 1, sort: 1, rule: Rule::KeepOld, capacity: 10, generation: 0 };
    /// # let mut table = Table::new(&opening, 100)?;
    /// # table.stage_insert(&[7, 1])?;
    /// # table.merge()?;
    /// for id in table.refine_one(&table.all(), Condition::eq(0, 7))?.ids() {
    ///     assert_eq!(table.row(id).expect("a live row").cells, [7, 1]);
    /// }
    /// assert_eq!(table.row(1), None);
    /// # Ok(())
    /// # }
    /// ```
    pub fn row(&self, id: u32) -> Option<Row<'_>> {
        if id >= self.stores.header.rows {
            return None;
        }
        Some(self.row_at(id)).filter(|row| row.cells[0] != DEAD)
    }

    /// A row that the library has named.
    fn row_at(&self, id: u32) -> Row<'_> {
        let columns = self.stores.header.columns as usize;
        let from = id as usize * columns;
        Row {
            id,
            cells: &self.stores.rows[from..from + columns],
        }
    }
}

/// The live rows of a table, rising.
#[derive(Clone, Debug)]
pub struct Rows<'a> {
    next: u32,
    left: ChunksExact<'a, u32>,
}

impl<'a> Iterator for Rows<'a> {
    type Item = Row<'a>;

    fn next(&mut self) -> Option<Row<'a>> {
        loop {
            let cells = self.left.next()?;
            let id = self.next;
            self.next += 1;
            if cells[0] != DEAD {
                return Some(Row { id, cells });
            }
        }
    }

    fn size_hint(&self) -> (usize, Option<usize>) {
        (0, Some(self.left.len()))
    }
}

impl<'a> IntoIterator for &'a Table {
    type Item = Row<'a>;
    type IntoIter = Rows<'a>;

    fn into_iter(self) -> Rows<'a> {
        self.rows()
    }
}

/// The ids that two subsets have in common. Two ranges give a range, a range with a list gives a list or 0..0, and a list first
/// gives a list. Refused by 4.
///
/// ```
/// use mouldgrey::{Subset, intersect};
///
/// let list = Subset::List(vec![1, 3, 5, 8]);
/// assert_eq!(intersect(&list, &Subset::Range(3, 8)), Ok(Subset::List(vec![3, 5])));
/// assert_eq!(intersect(&Subset::Range(2, 6), &Subset::Range(6, 9)), Ok(Subset::Range(6, 6)));
/// ```
pub fn intersect<'a, 'b>(
    first: impl Into<SubsetRef<'a>>,
    second: impl Into<SubsetRef<'b>>,
) -> Result<Subset, Refusal> {
    let (first, second) = (first.into(), second.into());
    let room = match (first, second) {
        (SubsetRef::List(ids), _) | (SubsetRef::Range(..), SubsetRef::List(ids)) => ids.len(),
        (SubsetRef::Range(..), SubsetRef::Range(..)) => 0,
    };
    with_output(room, |output| lent::intersect(first, second, output))
}

/// The subset that a query writes to an output of this length.
fn with_output(
    room: usize,
    query: impl FnOnce(&mut [u32]) -> Result<Written, Refusal>,
) -> Result<Subset, Refusal> {
    let mut output = vec![0; room];
    Ok(match query(&mut output)? {
        Written::Range(start, end) => Subset::Range(start, end),
        Written::List(count) => {
            output.truncate(count);
            Subset::List(output)
        }
    })
}
