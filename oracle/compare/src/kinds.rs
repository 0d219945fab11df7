//! The kinds of calls and queries, each with its name and its refusals, and how often each outcome of each kind was reached.

use crate::history::Act;
use calls::{Call, Query};

/// The outcome of an accepted step; any other outcome is the number of a refusal, or `AGAIN`.
pub const ACCEPTED: usize = 0;

/// Refused by the second test 2, of the output or the index store.
pub const AGAIN: usize = 32;

const OUTCOMES: usize = AGAIN + 1;

macro_rules! kinds {
    ($($kind:ident = $name:literal, $refusals:expr;)*) => {
        #[derive(Clone, Copy, Debug, PartialEq, Eq, PartialOrd)]
        pub enum Kind {
            $($kind,)*
        }

        impl Kind {
            pub const ALL: &[Kind] = &[$(Kind::$kind,)*];

            pub fn name(self) -> &'static str {
                match self {
                    $(Kind::$kind => $name,)*
                }
            }

            /// In the order of its tests.
            pub fn refusals(self) -> &'static [usize] {
                match self {
                    $(Kind::$kind => &$refusals,)*
                }
            }
        }
    };
}

kinds! {
    Open = "open", [1, 2];
    Insert = "insert", [1, 3, 7];
    RemoveKey = "remove by key", [1, 3, 7];
    RemoveRow = "remove by row", [1, 3, 5, 7];
    Merge = "merge", [1, 2];
    Compact = "compact", [1, 2, 10];
    Clear = "clear", [1, 2, 10];
    Refresh = "refresh", [1, 2, 12, 6, AGAIN, 9, 7];
    Reload = "reload", [1, 2];
    Lookup = "lookup", [1, 2, 3];
    Cell = "one cell", [1, 2, 3, 6];
    FastRange = "fast range", [1, 2, 6];
    Version = "version", [1];
    RowsSince = "rows since", [1, 5];
    RefineOne = "refine by one", [1, 2, 4, 5, 6, AGAIN];
    RefineList = "refine by a list", [1, 2, 4, 5, 6, AGAIN];
    AnyMatch = "any match", [1, 2, 4, 5, 6];
    Page = "page", [1, 2, 4, 5, 6, AGAIN];
    Intersect = "intersect", [4, AGAIN];
    RowsSinceNote = "rows since a note", [1, 18];
    Precedence = "precedence", [1, 2, 6, 14];
}

impl Kind {
    pub fn of(act: &Act) -> Kind {
        match act {
            Act::Call(call) => Kind::of_call(call),
            Act::Query(query) => Kind::of_query(query),
            Act::Reload(_) => Kind::Reload,
        }
    }

    fn of_call(call: &Call) -> Kind {
        match call {
            Call::Open(_) => Kind::Open,
            Call::Insert(_) => Kind::Insert,
            Call::RemoveKey(_) => Kind::RemoveKey,
            Call::RemoveRow(..) => Kind::RemoveRow,
            Call::Merge => Kind::Merge,
            Call::Compact => Kind::Compact,
            Call::Clear => Kind::Clear,
            Call::Refresh(_) => Kind::Refresh,
        }
    }

    fn of_query(query: &Query) -> Kind {
        match query {
            Query::Lookup(_) => Kind::Lookup,
            Query::Cell(..) => Kind::Cell,
            Query::FastRange(_) => Kind::FastRange,
            Query::Version => Kind::Version,
            Query::RowsSince(_) => Kind::RowsSince,
            Query::RefineOne { .. } => Kind::RefineOne,
            Query::RefineList { .. } => Kind::RefineList,
            Query::AnyMatch { .. } => Kind::AnyMatch,
            Query::Page { .. } => Kind::Page,
            Query::Intersect { .. } => Kind::Intersect,
            Query::RowsSinceNote(..) => Kind::RowsSinceNote,
            Query::Precedence { .. } => Kind::Precedence,
        }
    }

    pub fn is_call(self) -> bool {
        self <= Kind::Reload
    }

    /// Whether the recorded list has it.
    pub fn is_recorded(self) -> bool {
        !matches!(self, Kind::Refresh | Kind::Reload | Kind::Precedence)
    }

    /// Whether a gate's run must reach each of its refusals often.
    pub fn is_often_refused(self) -> bool {
        matches!(self, Kind::Refresh | Kind::Precedence)
    }

    /// The outcomes that a run must reach.
    pub fn outcomes(self) -> impl Iterator<Item = usize> {
        [ACCEPTED]
            .into_iter()
            .chain(self.refusals().iter().copied())
    }
}

/// How often each outcome of each kind was reached.
pub struct Outcomes([[u64; OUTCOMES]; Kind::ALL.len()]);

impl Default for Outcomes {
    fn default() -> Outcomes {
        Outcomes([[0; OUTCOMES]; Kind::ALL.len()])
    }
}

impl Outcomes {
    pub fn add(&mut self, kind: Kind, outcome: usize) {
        self.0[kind as usize][outcome] += 1;
    }

    pub fn add_all(&mut self, other: &Outcomes) {
        let sums = self.0.as_flattened_mut().iter_mut();
        sums.zip(other.0.as_flattened()).for_each(|(a, b)| *a += b);
    }

    pub fn times(&self, kind: Kind, outcome: usize) -> u64 {
        self.0[kind as usize][outcome]
    }

    /// All outcomes of a kind together.
    pub fn all(&self, kind: Kind) -> u64 {
        self.0[kind as usize].iter().sum()
    }

    /// The refusals of a kind that were reached, each with its times.
    pub fn refused(&self, kind: Kind) -> impl Iterator<Item = (usize, u64)> + '_ {
        let refused = (ACCEPTED + 1)..OUTCOMES;
        let counted = refused.map(move |outcome| (outcome, self.times(kind, outcome)));
        counted.filter(|(_, times)| *times > 0)
    }
}

pub fn outcome_name(outcome: usize) -> String {
    match outcome {
        ACCEPTED => "accepted".to_string(),
        AGAIN => "refused 2 again".to_string(),
        number => format!("refused {number}"),
    }
}
