//! A table of u32 cells: rows are found by key and appended in the order of a sort column. The library is written in
//! Rattle, a language in which every function is proved to meet its contract; this crate calls its C functions and depends on
//! nothing else.
//!
//! - [`Table`] keeps its stores and is all that most callers need. A [`ValueIndex`] beside it leads refreshes to the rows that
//!   mention a value.
//! - [`Table::save`] gives a table as the bytes of a file, its image, and [`Table::load`] takes it up again; [`check_image`] tests
//!   such bytes, and [`image_text`] reads the text in them. The program `mouldgrey` of this crate works on such files.
//! - [`lent`] has the same calls over stores that the caller keeps, such as those of a mapped file.
//! - [`Table::replay`] makes a list of calls, [`Table::run_queries`] a list of queries, each in one call of the library.
//! - [`to_columns`] and [`from_columns`] put rows into column order, which compresses well, and back.
//! - [`Table::listing`] writes a listing as text; [`read_listing`] and [`read_numbered`] read one; [`to_numbered`] and
//!   [`from_numbered`] convert between the forms; [`check_answers`] checks row numbers that another
//!   program has found in a listing.
//! - [`ShortHistories`] gives every sequence of at most six steps, in order.
//! - [`raw`] has the C functions themselves.
//!
//! A call that is refused returns a [`Refusal`] and has changed nothing. "Refused by 7" means refusal number 7; docs/GUIDE.md,
//! "Refusals", lists all numbers. A merge that stops returns [`Error::Stopped`].
//!
//! The library libmouldgrey.a is looked for in target/lib of the repository, where `make` leaves it, or in the folder that the
//! environment variable MOULDGREY_LIBRARIES names. `cargo check` and `cargo doc` work without it.

#![warn(missing_docs)]

mod header;
mod images;
pub mod lent;
mod listings;
mod lists;
pub mod raw;
mod refusal;
mod short_histories;
mod subset;
mod table;
#[cfg(test)]
mod tests;
mod value_index;
mod vault;

pub use header::{DEAD, HEADER_WORDS, Header, Lengths, Merge, Merged, Opening, Rule, Version};
pub use images::{LONGEST_TEXT, check_image, image_text};
pub use listings::{
    Listing, ListingHead, Verdict, check_answers, from_numbered, read_listing, read_numbered,
    to_numbered,
};
pub use lists::{Call, Query, encode_calls, encode_queries};
pub use refusal::{Error, Refusal, Stop, StopReason};
pub use short_histories::{LONGEST, ShortHistories, Step, position_of, sequence_at};
pub use subset::{Comparison, Condition, Page, PageWritten, Subset, SubsetRef, Written};
pub use table::{NoTable, Queried, Row, Rows, Stores, Table, intersect};
pub use value_index::ValueIndex;
pub use vault::{from_columns, to_columns};

/// The version of the library that is linked, as in include/mouldgrey.h: major * 1000000 + minor * 1000 + patch.
pub fn library_version() -> u32 {
    // SAFETY: it takes nothing.
    unsafe { raw::mouldgrey_library_version() }
}

/// The library's sentence for the number of a refusal or a stop.
///
/// ```
/// assert_eq!(mouldgrey::refusal_text(8), "the table is full");
/// ```
pub fn refusal_text(number: u32) -> &'static str {
    // SAFETY: for every number it returns a string that is never freed and ends in a 0.
    let text = unsafe { std::ffi::CStr::from_ptr(raw::mouldgrey_refusal_text(number)) };
    text.to_str().expect("a sentence in English")
}
