//! A history: calls and queries in order, each with the lengths of the stores that it is lent.

use calls::{Call, Lengths, Opening, Query, Subset};

#[derive(Clone, Debug)]
pub struct Step {
    pub lent: Lengths,
    pub act: Act,
}

#[derive(Clone, Debug)]
pub enum Act {
    Call(Call),
    Query(Query),
    /// The table is saved as an image and goes on in other stores, with this capacity, or with 0 its own.
    Reload(u32),
}

/// Stores exactly as long as the opening's numbers require; an index store for eight columns.
pub fn needed(o: &Opening, pending: usize) -> Lengths {
    let capacity = o.capacity as usize;
    Lengths {
        rows: capacity * o.columns as usize,
        keys: 2 * capacity,
        sort_entries: 2 * capacity,
        pending,
        live_words: capacity.div_ceil(64),
        base_words: capacity.div_ceil(64),
        index: reference::index_words(o.capacity, 8),
    }
}

/// The numbers of a table that was never opened.
pub const UNOPENED: Opening = Opening {
    columns: 0,
    keys: 0,
    sort: 0,
    rule: 0,
    capacity: 0,
    generation: 0,
};

/// How many ids a subset has; none if it ends before it starts.
pub fn size(subset: &Subset) -> usize {
    match subset {
        Subset::Range(start, end) => end.saturating_sub(*start) as usize,
        Subset::List(ids) => ids.len(),
    }
}

/// The shortest output with which this query is not refused.
pub fn needed_output(query: &Query) -> usize {
    match query {
        Query::RefineOne { subset, .. } | Query::RefineList { subset, .. } => size(subset),
        Query::Page {
            subset, start, n, ..
        } => usize::min(*n as usize, size(subset).saturating_sub(*start as usize)),
        Query::Intersect { first, second, .. } => match (first, second) {
            (Subset::List(ids), _) | (Subset::Range(..), Subset::List(ids)) => ids.len(),
            (Subset::Range(..), Subset::Range(..)) => 0,
        },
        _ => 0,
    }
}

/// The query with an output of this length.
pub fn with_output(mut query: Query, length: usize) -> Query {
    match &mut query {
        Query::RefineOne { output, .. }
        | Query::RefineList { output, .. }
        | Query::Page { output, .. }
        | Query::Intersect { output, .. } => *output = length,
        _ => {}
    }
    query
}

/// The query with an output exactly as long as needed.
pub fn with_exact_output(query: Query) -> Query {
    let length = needed_output(&query);
    with_output(query, length)
}
