//! Sets of row numbers, and the conditions that rows are tested by.

use crate::raw;

/// A set of row numbers: a range, end not included, or a strictly rising list of at most 65,536 ids. Equality is that of the form: a
/// range and a list of the same ids differ; compare [`ids`](Subset::ids) for the set.
///
/// ```
/// use mouldgrey::Subset;
///
/// let list = Subset::List(vec![1, 3, 5]);
/// assert_eq!(list.size(), 3);
/// assert_eq!(Subset::Range(2, 4).ids().collect::<Vec<_>>(), [2, 3]);
/// ```
#[derive(Clone, Debug, PartialEq, Eq, Hash)]
pub enum Subset {
    /// From the first number up to the second, which is not included.
    Range(u32, u32),
    /// These numbers.
    List(Vec<u32>),
}

/// A subset whose ids are borrowed.
#[derive(Clone, Copy, Debug, PartialEq, Eq, Hash)]
pub enum SubsetRef<'a> {
    /// From the first number up to the second, which is not included.
    Range(u32, u32),
    /// These numbers.
    List(&'a [u32]),
}

impl Subset {
    /// The same subset, borrowed.
    pub fn as_ref(&self) -> SubsetRef<'_> {
        match self {
            Subset::Range(start, end) => SubsetRef::Range(*start, *end),
            Subset::List(ids) => SubsetRef::List(ids),
        }
    }

    /// How many ids there are; none in a range that starts above its end.
    pub fn size(&self) -> usize {
        self.as_ref().size()
    }

    /// The ids, in order.
    pub fn ids(&self) -> impl Iterator<Item = u32> + '_ {
        let (range, ids) = match self {
            Subset::Range(start, end) => (*start..*end, &[][..]),
            Subset::List(ids) => (0..0, ids.as_slice()),
        };
        range.chain(ids.iter().copied())
    }
}

impl<'a> From<&'a Subset> for SubsetRef<'a> {
    fn from(subset: &'a Subset) -> SubsetRef<'a> {
        subset.as_ref()
    }
}

impl<'a> SubsetRef<'a> {
    /// How many ids there are; none in a range that starts above its end.
    pub fn size(self) -> usize {
        match self {
            SubsetRef::Range(start, end) => end.saturating_sub(start) as usize,
            SubsetRef::List(ids) => ids.len(),
        }
    }

    /// The subset as the C functions take it: a struct and the ids beside it.
    #[inline]
    pub(crate) fn parts(self) -> (raw::Subset, &'a [u32]) {
        match self {
            SubsetRef::Range(start, end) => (
                raw::Subset {
                    dense: 1,
                    start,
                    end,
                },
                &[],
            ),
            SubsetRef::List(ids) => (raw::Subset::default(), ids),
        }
    }
}

/// A subset as an answer over a borrowed output: a range, which writes no id, or the first so many words of the output.
#[derive(Clone, Copy, Debug, PartialEq, Eq)]
pub enum Written {
    /// From the first number up to the second, which is not included.
    Range(u32, u32),
    /// The first so many words of the output.
    List(usize),
}

impl From<raw::Subset> for Written {
    #[inline]
    fn from(answer: raw::Subset) -> Written {
        match answer.dense {
            0 => Written::List(answer.end as usize),
            _ => Written::Range(answer.start, answer.end),
        }
    }
}

/// A page over a borrowed output.
#[derive(Clone, Copy, Debug, PartialEq, Eq)]
pub struct PageWritten {
    /// How many ids stand at the start of the output.
    pub written: usize,
    /// How many of the visited ids have a dead row. Live rows that fail a condition are not counted.
    pub dead: usize,
    /// The place to go on from, if ids remain.
    pub next: Option<u32>,
}

/// A page: the ids found, and how to go on.
#[derive(Clone, Debug, PartialEq, Eq)]
pub struct Page {
    /// The ids of the visited live rows that meet all conditions, rising.
    pub ids: Vec<u32>,
    /// How many of the visited ids have a dead row. Live rows that fail a condition are not counted.
    pub dead: usize,
    /// The place to go on from, if ids remain.
    pub next: Option<u32>,
}

/// How a condition compares a cell.
#[derive(Clone, Copy, Debug, PartialEq, Eq, Hash)]
#[repr(u32)]
pub enum Comparison {
    /// With the cell of another column: equal.
    EqualColumns = 0,
    /// With a value: equal.
    Equal = 1,
    /// With a value: less. All comparisons are unsigned.
    Less = 2,
    /// With a value: greater.
    Greater = 3,
    /// With a value: at most.
    AtMost = 4,
    /// With a value: at least.
    AtLeast = 5,
}

/// A condition on a row. A dead row meets none.
///
/// ```
/// use mouldgrey::{Comparison, Condition};
///
/// let level_at_least = Condition::ge(2, 150);
/// assert_eq!(level_at_least.comparison, Comparison::AtLeast);
/// ```
#[derive(Clone, Copy, Debug, PartialEq, Eq, Hash)]
#[repr(C)]
pub struct Condition {
    /// How the cell is compared.
    pub comparison: Comparison,
    /// Whose cell is compared.
    pub column: u32,
    /// The value, or the other column.
    pub value: u32,
}

impl Condition {
    fn new(comparison: Comparison, column: u32, value: u32) -> Condition {
        Condition {
            comparison,
            column,
            value,
        }
    }

    /// Two columns are equal.
    pub fn eq_columns(column: u32, other: u32) -> Condition {
        Condition::new(Comparison::EqualColumns, column, other)
    }

    /// The column's cell equals the value.
    pub fn eq(column: u32, value: u32) -> Condition {
        Condition::new(Comparison::Equal, column, value)
    }

    /// It is less than the value. All comparisons are unsigned.
    pub fn lt(column: u32, value: u32) -> Condition {
        Condition::new(Comparison::Less, column, value)
    }

    /// It is greater than the value.
    pub fn gt(column: u32, value: u32) -> Condition {
        Condition::new(Comparison::Greater, column, value)
    }

    /// It is at most the value.
    pub fn le(column: u32, value: u32) -> Condition {
        Condition::new(Comparison::AtMost, column, value)
    }

    /// It is at least the value.
    pub fn ge(column: u32, value: u32) -> Condition {
        Condition::new(Comparison::AtLeast, column, value)
    }

    /// The list as the C functions take it.
    #[inline]
    pub(crate) fn as_constraints(conditions: &[Condition]) -> &[raw::Constraint] {
        const {
            assert!(size_of::<Condition>() == size_of::<raw::Constraint>());
            assert!(align_of::<Condition>() == align_of::<raw::Constraint>());
        }
        // SAFETY: both are three words in the same order, and every comparison is a u32.
        unsafe { std::slice::from_raw_parts(conditions.as_ptr().cast(), conditions.len()) }
    }
}

impl From<Condition> for raw::Constraint {
    #[inline]
    fn from(condition: Condition) -> raw::Constraint {
        raw::Constraint {
            kind: condition.comparison as u32,
            column: condition.column,
            value: condition.value,
        }
    }
}
