//! The index that refreshes keep.

/// An index from values to rows, as [`Table::refresh_rows_for_values`] keeps it: the words of an index store, which
/// docs/FORMAT.md describes. It belongs to the table that used it first: used with another table, with a copy of the table, or after
/// the table was opened anew, it may miss rows. [`forget`](ValueIndex::forget) makes it new.
///
/// ```
/// use mouldgrey::ValueIndex;
///
/// let mut index = ValueIndex::from(vec![1, 0, 0]);
/// index.forget();
/// assert_eq!(index.words()[0], 0);
/// assert_eq!(ValueIndex::words_needed(100, 2), 616);
/// ```
///
/// [`Table::refresh_rows_for_values`]: crate::Table::refresh_rows_for_values
#[derive(Clone, Debug, Default, PartialEq, Eq)]
pub struct ValueIndex {
    words: Vec<u32>,
}

impl ValueIndex {
    /// A new one, which the next refresh fills.
    pub fn new() -> ValueIndex {
        ValueIndex::default()
    }

    /// Makes it new again, for any table.
    pub fn forget(&mut self) {
        if let Some(first) = self.words.first_mut() {
            *first = 0;
        }
    }

    /// How many words a table of this capacity needs for so many named columns, repeats counted.
    pub fn words_needed(capacity: u32, columns: usize) -> usize {
        16 + 3 * capacity as usize * columns
    }

    /// The words, to be kept.
    pub fn words(&self) -> &[u32] {
        &self.words
    }

    /// Gives back words that a refused call was lent and has not used.
    pub(crate) fn shorten(&mut self, words: usize) {
        self.words.truncate(words);
    }

    /// The words to be passed, at least this many.
    pub(crate) fn lend(&mut self, words: usize) -> &mut [u32] {
        if self.words.len() < words {
            self.words.resize(words, 0);
        }
        &mut self.words
    }
}

/// Words that were kept, of the same table.
impl From<Vec<u32>> for ValueIndex {
    fn from(words: Vec<u32>) -> ValueIndex {
        ValueIndex { words }
    }
}
