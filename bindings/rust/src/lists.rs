//! Lists of calls and of queries, encoded as words: for each a kind, a count, and so many words.

use crate::{Condition, SubsetRef};

/// A call that changes a table, for [`Table::replay`](crate::Table::replay).
#[derive(Clone, Copy, Debug, PartialEq, Eq)]
pub enum Call<'a> {
    /// Stages a row with these cells for insertion.
    Insert(&'a [u32]),
    /// Stages the removal of the row with this key.
    Remove(&'a [u32]),
    /// Stages the removal of the row with this number, if it has this key.
    RemoveRow(u32, &'a [u32]),
    /// Applies what is staged.
    Merge,
    /// Drops the dead rows.
    Compact,
    /// Drops what is staged, and all rows.
    Clear,
    /// Stages each row that holds one of the values in one of the columns, with the stamp.
    Refresh {
        /// Up to eight columns.
        columns: &'a [u32],
        /// The values.
        values: &'a [u32],
        /// The new sort cell.
        stamp: u32,
    },
}

impl Call<'_> {
    /// How many columns a refresh names.
    pub(crate) fn named_columns(&self) -> usize {
        match self {
            Call::Refresh { columns, .. } => columns.len(),
            _ => 0,
        }
    }
}

/// A query, for [`Table::run_queries`](crate::Table::run_queries).
#[derive(Clone, Copy, Debug, PartialEq, Eq)]
pub enum Query<'a> {
    /// Keeps the live rows that meet a condition.
    RefineOne(Condition),
    /// Keeps the live rows that meet all conditions, at most 16 of them.
    RefineList(&'a [Condition]),
    /// Keeps the ids that lie in a subset.
    Intersect(SubsetRef<'a>),
    /// Keeps the ids that lie in the range of a condition on the sort column, if there is one.
    IntersectFast(Condition),
}

impl Query<'_> {
    /// The most ids that an intersection of the list names.
    pub(crate) fn longest_list(queries: &[Query<'_>]) -> usize {
        let lengths = queries.iter().map(|query| match query {
            Query::Intersect(SubsetRef::List(ids)) => ids.len(),
            _ => 0,
        });
        lengths.max().unwrap_or(0)
    }
}

/// Appends an item: its kind, the number of its words, and these.
fn push(words: &mut Vec<u32>, kind: u32, parts: &[&[u32]]) {
    let count: usize = parts.iter().map(|part| part.len()).sum();
    words.extend([kind, u32::try_from(count).unwrap_or(u32::MAX)]);
    for part in parts {
        words.extend_from_slice(part);
    }
}

/// The words of a list of calls.
///
/// ```
/// use mouldgrey::{Call, encode_calls};
///
/// assert_eq!(encode_calls(&[Call::Insert(&[7, 10]), Call::Merge]), [0, 2, 7, 10, 3, 0]);
/// ```
pub fn encode_calls(calls: &[Call<'_>]) -> Vec<u32> {
    let mut words = Vec::new();
    for call in calls {
        match *call {
            Call::Insert(cells) => push(&mut words, 0, &[cells]),
            Call::Remove(key) => push(&mut words, 1, &[key]),
            Call::RemoveRow(row, key) => push(&mut words, 2, &[&[row], key]),
            Call::Merge => push(&mut words, 3, &[]),
            Call::Compact => push(&mut words, 4, &[]),
            Call::Clear => push(&mut words, 5, &[]),
            Call::Refresh {
                columns,
                values,
                stamp,
            } => {
                let count = u32::try_from(columns.len()).unwrap_or(u32::MAX);
                push(&mut words, 6, &[&[count], columns, &[stamp], values]);
            }
        }
    }
    words
}

/// The words of a condition.
fn words_of(condition: &Condition) -> [u32; 3] {
    [
        condition.comparison as u32,
        condition.column,
        condition.value,
    ]
}

/// The words of a list of queries.
///
/// ```
/// use mouldgrey::{Condition, Query, SubsetRef, encode_queries};
///
/// let queries = [Query::RefineOne(Condition::eq(0, 7)), Query::Intersect(SubsetRef::Range(2, 5))];
/// assert_eq!(encode_queries(&queries), [0, 3, 1, 0, 7, 3, 2, 2, 5]);
/// ```
pub fn encode_queries(queries: &[Query<'_>]) -> Vec<u32> {
    let mut words = Vec::new();
    for query in queries {
        match query {
            Query::RefineOne(condition) => push(&mut words, 0, &[&words_of(condition)]),
            Query::RefineList(conditions) => {
                let listed: Vec<u32> = conditions.iter().flat_map(words_of).collect();
                push(&mut words, 1, &[&listed]);
            }
            Query::Intersect(SubsetRef::List(ids)) => push(&mut words, 2, &[ids]),
            Query::Intersect(SubsetRef::Range(start, end)) => {
                push(&mut words, 3, &[&[*start, *end]]);
            }
            Query::IntersectFast(condition) => push(&mut words, 4, &[&words_of(condition)]),
        }
    }
    words
}
