//! The refusals of each operation: numbered tests on a header, whatever its numbers are, on the lengths of what is lent and on
//! the arguments. Each operation makes them in its own order, the paper's.

use crate::subsets::{ids_to_write, size};
use calls::{Call, Condition, Header, Lengths, Opening, Query, Subset};

/// The longest list of ids that is not "too long".
const LONGEST_LIST: usize = 65_536;

/// The generation after which there is none.
pub const LAST_GENERATION: u32 = u32::MAX;

/// Refuses a call with this number if the test fires.
pub fn refuse(number: u32, fires: bool) -> Result<(), u32> {
    if fires { Err(number) } else { Ok(()) }
}

/// The refusal of a call, if any.
pub fn test_call(h: &Header, lent: &Lengths, call: &Call) -> Result<(), u32> {
    match call {
        // *Open*: 1, 2.
        Call::Open(opening) => {
            test_opening(opening)?;
            test_stores(opening, lent)
        }
        // *Stage insert*: 1, 3, 7.
        Call::Insert(cells) => {
            test_header_and_pending(h, lent)?;
            refuse(3, cells.len() != h.columns as usize)?;
            test_room(h, lent, record_words(h, call))
        }
        // *Stage removal by key*: 1, 3, 7.
        Call::RemoveKey(key) => {
            test_header_and_pending(h, lent)?;
            refuse(3, key.len() != h.keys as usize)?;
            test_room(h, lent, record_words(h, call))
        }
        // *Stage removal by row*: 1, 3, "5, row not below the row count", 7.
        Call::RemoveRow(row, key) => {
            test_header_and_pending(h, lent)?;
            refuse(3, key.len() != h.keys as usize)?;
            refuse(5, *row >= h.rows)?;
            test_room(h, lent, record_words(h, call))
        }
        // *Merge*: 1, 2.
        Call::Merge => {
            test_header_and_pending(h, lent)?;
            test_stores(&h.opening(), lent)?;
            test_words(&h.opening(), lent)
        }
        // *Compact*: 1, 2, "10, generation 4294967295".
        Call::Compact => {
            test_header(h)?;
            test_stores(&h.opening(), lent)?;
            test_words(&h.opening(), lent)?;
            refuse(10, h.generation == LAST_GENERATION)
        }
        // *Clear*: 1, 2, "10, as above, only if there are rows".
        Call::Clear => {
            test_header(h)?;
            test_keys(&h.opening(), lent)?;
            refuse(10, h.rows > 0 && h.generation == LAST_GENERATION)
        }
        // *Refresh*: "After 1 and 2 comes 12, more than eight columns named .., then 6, then 2 for an index store .., then 9, a
        // stamp below the last entry's", since change 7 below the kept value; "then 7", which is `test_records`.
        Call::Refresh(refresh) => {
            test_header_and_pending(h, lent)?;
            test_rows(&h.opening(), lent)?;
            refuse(12, refresh.columns.len() > 8)?;
            refuse(6, refresh.columns.iter().any(|&column| column >= h.columns))?;
            refuse(
                2,
                lent.index < index_words(h.capacity, refresh.columns.len()),
            )?;
            refuse(9, h.largest.is_some_and(|largest| refresh.stamp < largest))
        }
    }
}

/// An index store for so many named columns: "16 words plus 3 for each row of the capacity and named column"; "a repeat counts
/// again".
pub fn index_words(capacity: u32, columns: usize) -> usize {
    16 + 3 * capacity as usize * columns
}

/// The last refusal of a refresh of so many rows: "7, fewer free words than all the records together take".
pub fn test_records(h: &Header, lent: &Lengths, rows: usize) -> Result<(), u32> {
    let removal = h.keys as usize + 3;
    let insert = h.columns as usize + 2;
    test_room(h, lent, rows * (removal + insert))
}

/// The refusal of a query, if any.
pub fn test_query(h: &Header, lent: &Lengths, query: &Query) -> Result<(), u32> {
    match query {
        // *Key lookup*: 1, 2, 3.
        Query::Lookup(key) => test_key(h, lent, key),
        // *One cell*: 1, 2, 3, "6, no such column".
        Query::Cell(key, column) => {
            test_key(h, lent, key)?;
            refuse(6, *column >= h.columns)
        }
        // *Fast range*: 1, 2, 6.
        Query::FastRange(condition) => {
            test_header(h)?;
            test_entries(&h.opening(), lent)?;
            test_condition(h.columns, condition)
        }
        // *Version*: 1.
        Query::Version => test_header(h),
        // *Rows since*: 1, "5, above the row count".
        Query::RowsSince(row) => {
            test_header(h)?;
            refuse(5, *row > h.rows)
        }
        // *Rows since a note*: 1, "18, another generation or a noted count above the row count".
        Query::RowsSinceNote(generation, count) => {
            test_header(h)?;
            refuse(18, *generation != h.generation || *count > h.rows)
        }
        // *Precedence*: "After 1 and 2 comes 6, a column that is not a key column, then 14, a number of pairs outside 1 to 16".
        Query::Precedence { column, pairs } => {
            test_header(h)?;
            test_rows(&h.opening(), lent)?;
            test_keys(&h.opening(), lent)?;
            refuse(6, *column >= h.keys)?;
            refuse(14, !pairs.len().is_multiple_of(2))?;
            refuse(14, !(1..=16).contains(&(pairs.len() / 2)))
        }
        // *Refine by one*: 1, 2, 4, 5, 6, "2 again, output shorter than the subset".
        Query::RefineOne {
            subset,
            condition,
            output,
        } => {
            test_subset(h, lent, subset)?;
            test_condition(h.columns, condition)?;
            refuse(2, *output < size(subset))
        }
        // *Refine by a list*: the same.
        Query::RefineList {
            subset,
            conditions,
            output,
        } => {
            test_subset(h, lent, subset)?;
            test_conditions(h.columns, conditions)?;
            refuse(2, *output < size(subset))
        }
        // *Any match*: 1, 2, 4, 5, 6.
        Query::AnyMatch { subset, conditions } => {
            test_subset(h, lent, subset)?;
            test_conditions(h.columns, conditions)
        }
        // *Page*: 1, 2, 4, "5 (also start place above the subset's size)", 6, "2 again, output shorter than the smaller of
        // n and what remains".
        Query::Page {
            subset,
            start,
            n,
            conditions,
            output,
        } => {
            test_subset(h, lent, subset)?;
            let (start, n) = (*start as usize, *n as usize);
            refuse(5, start > size(subset))?;
            test_conditions(h.columns, conditions)?;
            refuse(2, *output < n.min(size(subset) - start))
        }
        // *Intersect*: "4 for either; 2".
        Query::Intersect {
            first,
            second,
            output,
        } => {
            test_form(first)?;
            test_form(second)?;
            refuse(2, *output < ids_to_write(first, second))
        }
    }
}

/// Writing a listing, added: 1, and 2 for the row store.
pub fn test_listing(h: &Header, lent: &Lengths) -> Result<(), u32> {
    test_header(h)?;
    test_rows(&h.opening(), lent)
}

/// The refusals of the soundness check: 1, 2.
pub fn test_soundness(h: &Header, lent: &Lengths) -> Result<(), u32> {
    test_header_and_pending(h, lent)?;
    test_stores(&h.opening(), lent)
}

/// The words that a staging's record takes in the pending store: "columns plus 2, keys plus 2, keys plus 3"; none for any other
/// call.
fn record_words(h: &Header, call: &Call) -> usize {
    match call {
        Call::Insert(_) => h.columns as usize + 2,
        Call::RemoveKey(_) => h.keys as usize + 2,
        Call::RemoveRow(..) => h.keys as usize + 3,
        _ => 0,
    }
}

/// Test 1, "header numbers outside their bounds", on the numbers of an opening.
fn test_opening(o: &Opening) -> Result<(), u32> {
    refuse(1, o.columns < 1 || o.columns > 8)?;
    refuse(1, o.keys == 0 || o.keys > o.columns)?;
    refuse(1, o.sort >= o.columns)?;
    refuse(1, o.rule > 3)?;
    refuse(1, o.capacity < 1 || o.capacity > 65_536)
}

/// Test 1 of a call that is not lent the pending store: also "dead rows or sort entries above the row count, row count above
/// capacity".
pub(crate) fn test_header(h: &Header) -> Result<(), u32> {
    test_opening(&h.opening())?;
    refuse(1, h.dead > h.rows || h.entries > h.rows)?;
    refuse(1, h.rows > h.capacity)
}

/// Test 1 of a call that is lent the pending store: also "pending words used above the pending store".
pub(crate) fn test_header_and_pending(h: &Header, lent: &Lengths) -> Result<(), u32> {
    test_header(h)?;
    refuse(1, h.pending as usize > lent.pending)
}

/// Test 2 on the row store: "rows, capacity times columns".
fn test_rows(o: &Opening, lent: &Lengths) -> Result<(), u32> {
    refuse(2, lent.rows < o.capacity as usize * o.columns as usize)
}

/// Test 2 on the key store: "keys, 2 times capacity".
fn test_keys(o: &Opening, lent: &Lengths) -> Result<(), u32> {
    refuse(2, lent.keys < 2 * o.capacity as usize)
}

/// Test 2 on the sort entries: "2 times capacity".
fn test_entries(o: &Opening, lent: &Lengths) -> Result<(), u32> {
    refuse(2, lent.sort_entries < 2 * o.capacity as usize)
}

/// Test 2 on rows and sort entries: an image has no key store.
pub(crate) fn test_image_rows(o: &Opening, lent: &Lengths) -> Result<(), u32> {
    test_rows(o, lent)?;
    test_entries(o, lent)
}

/// Test 2 on rows, keys and sort entries.
pub(crate) fn test_stores(o: &Opening, lent: &Lengths) -> Result<(), u32> {
    test_rows(o, lent)?;
    test_keys(o, lent)?;
    test_entries(o, lent)
}

/// Test 2 on the compaction words: "capacity over 64 rounded up of u64 and of u32".
fn test_words(o: &Opening, lent: &Lengths) -> Result<(), u32> {
    let words = (o.capacity as usize).div_ceil(64);
    refuse(2, lent.live_words < words || lent.base_words < words)
}

/// Test 7, "fewer free pending words than the record takes", or the records. The header could not hold more than 4294967295 words used.
fn test_room(h: &Header, lent: &Lengths, words: usize) -> Result<(), u32> {
    let used = h.pending as usize + words;
    refuse(7, used > lent.pending || used > u32::MAX as usize)
}

/// Tests 1, 2 and 3 of a query about a key.
fn test_key(h: &Header, lent: &Lengths, key: &[u32]) -> Result<(), u32> {
    test_header(h)?;
    test_rows(&h.opening(), lent)?;
    test_keys(&h.opening(), lent)?;
    refuse(3, key.len() != h.keys as usize)
}

/// Test 4, "malformed subset (start above end, list not strictly rising or too long)".
fn test_form(subset: &Subset) -> Result<(), u32> {
    match subset {
        Subset::Range(start, end) => refuse(4, start > end),
        Subset::List(ids) => {
            let rising = ids.windows(2).all(|pair| pair[0] < pair[1]);
            refuse(4, !rising || ids.len() > LONGEST_LIST)
        }
    }
}

/// Tests 1, 2, 4 and 5, "range end or last id plus one above the row count", of a query about a subset's rows.
fn test_subset(h: &Header, lent: &Lengths, subset: &Subset) -> Result<(), u32> {
    test_header(h)?;
    test_rows(&h.opening(), lent)?;
    test_form(subset)?;
    let past = match subset {
        Subset::Range(_, end) => u64::from(*end),
        Subset::List(ids) => ids.last().map_or(0, |&last| u64::from(last) + 1),
    };
    refuse(5, past > u64::from(h.rows))
}

/// Test 6 on a condition: a kind above 5 or a column that does not exist. Kind 0 names two columns.
fn test_condition(columns: u32, condition: &Condition) -> Result<(), u32> {
    refuse(6, condition.kind > 5)?;
    refuse(6, condition.a >= columns)?;
    refuse(6, condition.kind == 0 && condition.b >= columns)
}

pub(crate) fn test_conditions(columns: u32, conditions: &[Condition]) -> Result<(), u32> {
    let test = |condition| test_condition(columns, condition);
    conditions.iter().try_for_each(test)
}
