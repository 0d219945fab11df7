//! Calls and queries on the real `SortedWritesTable`. It gets only what the reference model accepted, so it refuses nothing,
//! and where the Rust panics, so does this.

use crate::{
    Offset, RowId, Value,
    action::ExecutionState,
    numeric_id::NumericId,
    offsets,
    pool::with_pool_set,
    table::{MergeFn, SortedWritesTable},
    table_spec::{ColumnId, Constraint, MutationBuffer, Table},
};
use calls::{
    Answer, Call, Condition, Contents, Implementation, Lengths, Opening, Query, Refresh, Restamped,
    Subset,
};
use std::cell::RefCell;
use std::cmp::{max_by_key, min_by_key};

/// A staging buffer of the table, removals by row included. What is staged reaches the table when it is dropped.
pub(crate) trait Staging: MutationBuffer {
    fn stage_remove_row(&mut self, row: RowId, key: &[Value]);
}

/// What is private in the table and needed here.
pub(crate) trait Opened {
    fn staging(&self) -> Box<dyn Staging>;
    fn delete_pending(&mut self);
    fn insert_pending(&mut self);
    fn compact(&mut self);
    fn dead_rows(&self) -> usize;
    fn sort_entries(&self) -> &[(Value, RowId)];
    fn meets(conditions: &[Constraint], row: &[Value]) -> bool;
    fn key_hash(key: &[Value]) -> u32;
    fn compact_hash(full: u64) -> u32;
    fn probe(compact: u32) -> u64;
    /// The cells of a live row.
    fn row(&self, row: RowId) -> Option<&[Value]>;
    fn named_columns(&self) -> &[ColumnId];
    /// The columns that a refresh looks at from now on, with an index that has seen no row.
    fn name_columns(&mut self, columns: Vec<ColumnId>);
    fn unstage(&mut self);
    /// What some work stages, taken out of the table again.
    fn staged_by(&mut self, work: &mut dyn FnMut(&mut Self)) -> Taken;
}

/// Staged records, in staging order: rows to be removed with the compact hashes of their keys, and rows to be inserted.
pub(crate) struct Taken {
    pub removals: Vec<(RowId, u32)>,
    pub rows: Vec<Vec<Value>>,
}

/// The carried-over table; before the first opening there is none.
#[derive(Clone, Default)]
pub struct RustTable {
    open: Option<OpenTable>,
}

struct OpenTable {
    table: SortedWritesTable,
    /// The Rust counts generations from 0; the paper from the one given at opening.
    first_generation: u32,
    keys: usize,
    sort: usize,
    /// The one staging buffer, made when something is staged. In a cell, so that cloning can hand it over first.
    staging: RefCell<Option<Box<dyn Staging>>>,
}

impl OpenTable {
    fn new(opening: &Opening) -> OpenTable {
        let (keys, sort) = (opening.keys as usize, opening.sort as usize);
        OpenTable {
            table: SortedWritesTable::new(
                keys,
                opening.columns as usize,
                ColumnId::new(opening.sort),
                Vec::new(),
                rule_closure(opening.rule, keys, sort),
            ),
            first_generation: opening.generation,
            keys,
            sort,
            staging: RefCell::new(None),
        }
    }

    fn stage(&mut self, record: impl FnOnce(&mut dyn Staging)) {
        let buffer = self.staging.get_mut();
        record(&mut **buffer.get_or_insert_with(|| self.table.staging()));
    }

    /// Hands what is staged over to the table.
    fn flush(&self) {
        drop(self.staging.take());
    }

    fn generation(&self) -> u32 {
        let generation = u64::from(self.first_generation) + self.table.version().major.rep();
        u32::try_from(generation).expect("the paper's generations end at 4294967295")
    }

    fn rows(&self) -> u32 {
        self.table.version().minor.rep() as u32
    }

    /// How many rows the compaction of the merge since then kept and dropped: the rows that it left, of those that the merge's
    /// deletions and inserts alone leave.
    fn compacted_since(&self, mut before: OpenTable) -> (u32, u32) {
        if self.table.version().major == before.table.version().major {
            return (0, 0);
        }
        before.table.delete_pending();
        before.table.insert_pending();
        (self.rows(), before.rows() - self.rows())
    }

    /// The Rust's index is its own: it begins anew where other columns are named, and goes on over all of a history.
    fn name(&mut self, columns: &[u32]) {
        let columns: Vec<ColumnId> = columns.iter().map(|&it| ColumnId::new(it)).collect();
        if self.table.named_columns() != columns {
            self.table.name_columns(columns);
        }
    }

    /// The Rust stages in the order of a hash set; what it has staged is staged here in rising row order.
    fn refresh(&mut self, refresh: &Refresh) -> Answer {
        self.name(&refresh.columns);
        let (changed, stamp) = (values(&refresh.values), Value::new(refresh.stamp));
        let mut yes = false;
        let taken = self.table.staged_by(&mut |table| {
            yes = Table::refresh_rows_for_values(table, changed, stamp);
        });
        let mut rows: Vec<Restamped> = taken
            .removals
            .iter()
            .zip(&taken.rows)
            .map(|(removal, row)| self.restamped(*removal, row))
            .collect();
        assert_eq!(
            (rows.len(), rows.len()),
            (taken.removals.len(), taken.rows.len())
        );
        rows.sort_by_key(|of| of.row);
        for of in &rows {
            self.stage(|staging| {
                staging.stage_remove_row(RowId::new(of.row), values(&of.key));
                staging.stage_insert(values(&of.cells));
            });
        }
        Answer::Refreshed(yes, rows)
    }

    /// A removal and the insert beside it. Of the key the Rust keeps only the hash.
    fn restamped(&self, (row, hash): (RowId, u32), cells_staged: &[Value]) -> Restamped {
        let old = self.table.row(row).expect("a live row");
        let key = cells(&old[..self.keys]);
        assert_eq!(hash, key_hash(&key), "another key");
        Restamped {
            row: row.rep(),
            key,
            cells: cells(cells_staged),
        }
    }
}

impl Clone for OpenTable {
    fn clone(&self) -> OpenTable {
        self.flush();
        OpenTable {
            table: self.table.clone(),
            first_generation: self.first_generation,
            keys: self.keys,
            sort: self.sort,
            staging: RefCell::new(None),
        }
    }
}

impl RustTable {
    pub fn new() -> RustTable {
        RustTable::default()
    }

    fn open(&self) -> &OpenTable {
        self.open.as_ref().expect("no table is open")
    }

    fn open_mut(&mut self) -> &mut OpenTable {
        self.open.as_mut().expect("no table is open")
    }

    /// A call and nothing else; answers whether it appended a row.
    pub fn play(&mut self, call: &Call) -> bool {
        match call {
            Call::Open(opening) => self.open = Some(OpenTable::new(opening)),
            Call::Insert(row) => self
                .open_mut()
                .stage(|staging| staging.stage_insert(values(row))),
            Call::RemoveKey(key) => self
                .open_mut()
                .stage(|staging| staging.stage_remove(values(key))),
            Call::RemoveRow(row, key) => self
                .open_mut()
                .stage(|staging| staging.stage_remove_row(RowId::new(*row), values(key))),
            Call::Merge => {
                let open = self.open_mut();
                open.flush();
                return open.table.merge(&mut ExecutionState).added;
            }
            Call::Compact => self.open_mut().table.compact(),
            Call::Clear => {
                let open = self.open_mut();
                open.flush();
                open.table.clear();
            }
            Call::Refresh(refresh) => drop(self.open_mut().refresh(refresh)),
        }
        false
    }

    /// How many of so many ids of a subset, from a place on, have a live row: the Rust visits only those.
    fn live_from(&self, subset: &offsets::Subset, start: u32, visited: u32) -> u32 {
        let mut live = 0;
        self.open().table.scan_generic_bounded(
            subset.as_ref(),
            Offset::new(u64::from(start)),
            visited as usize,
            &[],
            |_, _| live += 1,
        );
        live
    }

    /// The Rust has no such check: its own rows are scanned, each for each.
    fn precedence(&self, column: usize, pairs: &[u32]) -> Answer {
        let OpenTable { keys, sort, .. } = *self.open();
        let live = self.contents().live;
        let others = |row: &[u32]| [&row[..column], &row[column + 1..keys]].concat();
        for (id, row) in &live {
            for (place, pair) in pairs.chunks(2).enumerate() {
                let is_met = |(_, before): &(u32, Vec<u32>)| {
                    before[column] == pair[1]
                        && before[sort] <= row[sort]
                        && others(before) == others(row)
                };
                if row[column] == pair[0] && !live.iter().any(is_met) {
                    return Answer::Fails(*id, place as u32);
                }
            }
        }
        Answer::None
    }

    /// `Subset::retain`, which no call reaches with a test of the caller's own.
    pub fn retain(subset: &Subset, keep: &dyn Fn(u32) -> bool) -> Subset {
        let mut kept = carried(subset);
        kept.retain(|row| keep(row.rep()));
        answered(&kept)
    }
}

impl Implementation for RustTable {
    fn call(&mut self, _lent: &Lengths, call: &Call) -> Answer {
        if let Call::Refresh(refresh) = call {
            return self.open_mut().refresh(refresh);
        }
        if !matches!(call, Call::Merge) {
            self.play(call);
            return Answer::Done;
        }
        let before = self.open().clone();
        let added = self.play(call);
        let (kept, dropped) = self.open().compacted_since(before);
        Answer::Merged {
            status: 0,
            place: 0,
            added,
            kept,
            dropped,
        }
    }

    fn query(&self, _lent: &Lengths, query: &Query) -> Answer {
        match query {
            Query::Lookup(key) => match self.open().table.get_row(values(key)) {
                Some(row) => Answer::Row(row.id.rep(), cells(&row.vals)),
                None => Answer::None,
            },
            Query::Cell(key, column) => {
                let column = ColumnId::new(*column);
                match self.open().table.get_row_column(values(key), column) {
                    Some(value) => Answer::Cell(value.rep()),
                    None => Answer::None,
                }
            }
            Query::FastRange(condition) => {
                match self.open().table.fast_subset(&constraint(condition)) {
                    Some(subset) => Answer::Subset(answered(&subset)),
                    None => Answer::None,
                }
            }
            Query::Version => Answer::Version {
                generation: self.open().generation(),
                rows: self.open().rows(),
            },
            Query::RowsSince(row) => {
                let since = Offset::new(u64::from(*row));
                Answer::Subset(answered(&self.open().table.updates_since(since)))
            }
            // As its index does it: the rows since the minor version, if the major one is the same.
            Query::RowsSinceNote(generation, count) => {
                assert_eq!(self.open().generation(), *generation, "another generation");
                let since = Offset::new(u64::from(*count));
                Answer::Subset(answered(&self.open().table.updates_since(since)))
            }
            Query::Precedence { column, pairs } => self.precedence(*column as usize, pairs),
            Query::RefineOne {
                subset, condition, ..
            } => {
                let table = &self.open().table;
                Answer::Subset(answered(
                    &table.refine_one(carried(subset), &constraint(condition)),
                ))
            }
            Query::RefineList {
                subset, conditions, ..
            } => {
                let table = &self.open().table;
                Answer::Subset(answered(&table.refine_ref(
                    carried(subset).as_ref(),
                    &constraints(conditions),
                    true,
                )))
            }
            Query::AnyMatch { subset, conditions } => Answer::Match(
                self.open()
                    .table
                    .contains_match(carried(subset).as_ref(), &constraints(conditions)),
            ),
            Query::Page {
                subset,
                start,
                n,
                conditions,
                ..
            } => {
                let subset = carried(subset);
                let mut ids = Vec::new();
                let next = self.open().table.scan_generic_bounded(
                    subset.as_ref(),
                    Offset::new(u64::from(*start)),
                    *n as usize,
                    &constraints(conditions),
                    |row, _| ids.push(row.rep()),
                );
                let next = next.map(|place| place.rep() as u32);
                let visited = next.unwrap_or(subset.size() as u32) - start;
                Answer::Page {
                    ids,
                    dead: visited - self.live_from(&subset, *start, visited),
                    next,
                }
            }
            Query::Intersect { first, second, .. } => {
                let mut both = carried(first);
                let pool = with_pool_set(|pools| pools.get_pool());
                both.intersect(carried(second).as_ref(), &pool);
                Answer::Subset(answered(&both))
            }
        }
    }

    fn contents(&self) -> Contents {
        let open = self.open();
        let mut live = Vec::new();
        open.table
            .scan_generic(open.table.all().as_ref(), |row, values| {
                live.push((row.rep(), cells(values)))
            });
        Contents {
            generation: open.generation(),
            rows: open.rows(),
            dead: open.table.dead_rows() as u32,
            live,
            sort_entries: open
                .table
                .sort_entries()
                .iter()
                .map(|(value, row)| (value.rep(), row.rep()))
                .collect(),
        }
    }
}

/// The real compact hash of a 64-bit hash.
#[inline]
pub fn compact_hash(full: u64) -> u32 {
    SortedWritesTable::compact_hash(full)
}

/// The real 64-bit probe of a compact hash.
#[inline]
pub fn probe(compact: u32) -> u64 {
    SortedWritesTable::probe(compact)
}

/// The real compact hash of a key.
#[inline]
pub fn key_hash(key: &[u32]) -> u32 {
    SortedWritesTable::key_hash(values(key))
}

/// Whether a row meets a condition, dead mark or not.
pub fn eval_condition(condition: &Condition, row: &[u32]) -> bool {
    SortedWritesTable::meets(&[constraint(condition)], values(row))
}

/// The row that a merge rule makes of an old and a new one; none if it keeps the old.
pub fn merge_rule(rule: u32, keys: u32, sort: u32, old: &[u32], new: &[u32]) -> Option<Vec<u32>> {
    let merge = rule_closure(rule, keys as usize, sort as usize);
    let mut made = Vec::new();
    merge(&mut ExecutionState, values(old), values(new), &mut made).then(|| cells(&made))
}

/// The paper's merge rules in the Rust's form: false keeps the old row, true takes the row that was written.
fn rule_closure(rule: u32, keys: usize, sort: usize) -> Box<MergeFn> {
    match rule {
        0 => Box::new(|_, _, _, _| false),
        1 => cell_by_cell(keys, sort, |_, new| new),
        2 => cell_by_cell(keys, sort, |old, new| min_by_key(old, new, signed)),
        3 => cell_by_cell(keys, sort, |old, new| max_by_key(old, new, signed)),
        _ => panic!("no such rule: {rule}"),
    }
}

/// A cell in two's complement, as rules 2 and 3 compare it.
fn signed(cell: &Value) -> i32 {
    cell.rep() as i32
}

/// Chooses each cell outside keys and sort column by `choose`. The other cells are the new row's; of the keys both rows
/// have the same.
fn cell_by_cell(
    keys: usize,
    sort: usize,
    choose: impl Fn(Value, Value) -> Value + Send + Sync + 'static,
) -> Box<MergeFn> {
    Box::new(move |_, old, new, made| {
        let mut changed = false;
        made.extend((0..new.len()).map(|column| {
            if column < keys || column == sort {
                return new[column];
            }
            let chosen = choose(old[column], new[column]);
            changed |= chosen != old[column];
            chosen
        }));
        changed
    })
}

/// The numbers as the Rust's values, in place.
fn values(cells: &[u32]) -> &[Value] {
    // SAFETY: a value is a u32 and nothing else in memory.
    unsafe { std::slice::from_raw_parts(cells.as_ptr().cast(), cells.len()) }
}

fn cells(values: &[Value]) -> Vec<u32> {
    values.iter().map(|value| value.rep()).collect()
}

fn carried(subset: &Subset) -> offsets::Subset {
    match subset {
        Subset::Range(start, end) => offsets::Subset::Dense(offsets::OffsetRange::new(
            RowId::new(*start),
            RowId::new(*end),
        )),
        Subset::List(ids) => {
            let mut list = with_pool_set(|pools| pools.get::<offsets::SortedOffsetVector>());
            ids.iter().for_each(|id| list.push(RowId::new(*id)));
            offsets::Subset::Sparse(list)
        }
    }
}

fn answered(subset: &offsets::Subset) -> Subset {
    match subset {
        offsets::Subset::Dense(range) => Subset::Range(range.start.rep(), range.end.rep()),
        offsets::Subset::Sparse(list) => {
            Subset::List(list.slice().iter().map(|row| row.rep()).collect())
        }
    }
}

fn constraint(condition: &Condition) -> Constraint {
    let col = ColumnId::new(condition.a);
    let val = Value::new(condition.b);
    match condition.kind {
        0 => Constraint::Eq {
            l_col: col,
            r_col: ColumnId::new(condition.b),
        },
        1 => Constraint::EqConst { col, val },
        2 => Constraint::LtConst { col, val },
        3 => Constraint::GtConst { col, val },
        4 => Constraint::LeConst { col, val },
        5 => Constraint::GeConst { col, val },
        kind => panic!("no such condition: {kind}"),
    }
}

fn constraints(conditions: &[Condition]) -> Vec<Constraint> {
    conditions.iter().map(constraint).collect()
}

/// Calls and queries to be measured without the way from and to `calls`: answers of one number.
impl RustTable {
    /// A refresh as the Rust does it, in its own order; what it stages is dropped.
    pub fn refresh_and_unstage(&mut self, columns: &[u32], changed: &[u32], stamp: u32) -> bool {
        let open = self.open_mut();
        open.name(columns);
        let changed = values(changed);
        let yes = Table::refresh_rows_for_values(&mut open.table, changed, Value::new(stamp));
        open.table.unstage();
        yes
    }

    /// The index of its refreshes begins anew.
    pub fn forget_index(&mut self) {
        self.open_mut().table.name_columns(Vec::new());
    }

    pub fn cell(&self, key: &[u32], column: u32) -> Option<u32> {
        let cell = self
            .open()
            .table
            .get_row_column(values(key), ColumnId::new(column));
        cell.map(|value| value.rep())
    }

    pub fn fast_range_size(&self, condition: &Condition) -> Option<usize> {
        let range = self.open().table.fast_subset(&constraint(condition));
        range.map(|subset| subset.size())
    }

    /// Refines a copy, since the Rust does it in place.
    pub fn refined_size(&self, subset: &RustSubset, condition: &Condition) -> usize {
        let table = &self.open().table;
        table
            .refine_one(subset.0.clone(), &constraint(condition))
            .size()
    }

    pub fn refined_by_all_size(&self, subset: &RustSubset, conditions: &[Condition]) -> usize {
        let table = &self.open().table;
        table
            .refine_ref(subset.0.as_ref(), &constraints(conditions), true)
            .size()
    }

    pub fn contains_match(&self, subset: &RustSubset, conditions: &[Condition]) -> bool {
        let table = &self.open().table;
        table.contains_match(subset.0.as_ref(), &constraints(conditions))
    }

    /// The ids of a page, pushed to a list.
    pub fn page(
        &self,
        subset: &RustSubset,
        place: u32,
        n: usize,
        conditions: &[Condition],
        ids: &mut Vec<u32>,
    ) -> Option<u32> {
        let next = self.open().table.scan_generic_bounded(
            subset.0.as_ref(),
            Offset::new(u64::from(place)),
            n,
            &constraints(conditions),
            |row, _| ids.push(row.rep()),
        );
        next.map(|place| place.rep() as u32)
    }
}

/// A subset of the Rust's own, to be measured without the way from and to `calls`.
pub struct RustSubset(offsets::Subset);

impl RustSubset {
    pub fn new(subset: &Subset) -> RustSubset {
        RustSubset(carried(subset))
    }

    /// Intersects a copy, since the Rust does it in place, and answers its size.
    pub fn intersect(&self, other: &RustSubset) -> usize {
        let pool = with_pool_set(|pools| pools.get_pool());
        let mut both = self.0.clone();
        both.intersect(other.0.as_ref(), &pool);
        both.size()
    }
}
