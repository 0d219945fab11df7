//! The library over stores that the caller keeps, such as those of a mapped file: each is passed as a slice. [`Table`] keeps stores
//! of its own.
//!
//! No call needs a check beforehand. On any header and any stores a call ends and writes nothing outside what is passed; the
//! meaning of answers is guaranteed for sound stores ([`is_sound`]). Where `open_table`, `fast_subset` and others take
//! [`raw::Opening`] and [`raw::Constraint`], any numbers will do; `Opening` and `Condition` convert into them.
//!
//! ```
//! use mouldgrey::{Header, Opening, Rule, lent};
//!
//! # fn main() -> Result<(), mouldgrey::Error> {
//! let opening = Opening { columns: 2, keys: 1, sort: 1, rule: Rule::TakeNew, capacity: 10, generation: 0 };
//! let (mut rows, mut keys, mut sorts, mut pending) = ([0; 20], [0; 20], [0; 20], [0; 64]);
//! let (mut live, mut base) = ([0; 1], [0; 1]);
//! let mut header = Header::default();
//! lent::open_table(&opening, &mut header, &rows, &mut keys, &sorts, &pending)?;
//! lent::stage_insert(&mut header, &mut pending, &[7, 10])?;
//! let merge = lent::merge(
//!     &mut header, &mut rows, &mut keys, &mut sorts, &pending, &mut live, &mut base,
//! )?;
//! assert!(merge.accepted()?.added);
//! assert_eq!(lent::get_row(&header, &rows, &keys, &[7])?, Some(0));
//! # Ok(())
//! # }
//! ```
//!
//! [`Table`]: crate::Table

use crate::{
    Header, ListingHead, Merge, Merged, PageWritten, Refusal, Step, Stop, StopReason, SubsetRef,
    Verdict, Version, Written, raw,
};

/// The refusal of this number. Not inlined, so that accepted calls do not pay for its search.
#[cold]
fn refusal(number: u32) -> Refusal {
    Refusal::from_number(number).expect("the library refuses by the paper's numbers")
}

/// Accepted, or refused by this number.
#[inline]
fn verdict(number: u32) -> Result<(), Refusal> {
    match number {
        0 => Ok(()),
        _ => Err(refusal(number)),
    }
}

/// The range, if there is one.
#[inline]
fn range(range: raw::Range) -> Option<(u32, u32)> {
    (range.found == 1).then_some((range.start, range.end))
}

// SAFETY, of every call below: each pointer is that of a slice and goes with its length, or that of a struct, and what is passed
// to be written is borrowed by nobody else.

/// Makes an empty table of the stores. Refused by 1 and 2.
#[inline]
pub fn open_table(
    opening: impl Into<raw::Opening>,
    header: &mut Header,
    rows: &[u32],
    keys: &mut [u32],
    sorts: &[u32],
    pending: &[u32],
) -> Result<(), Refusal> {
    verdict(unsafe {
        raw::mouldgrey_open_table(
            &opening.into(),
            header,
            rows.as_ptr(),
            rows.len(),
            keys.as_mut_ptr(),
            keys.len(),
            sorts.as_ptr(),
            sorts.len(),
            pending.as_ptr(),
            pending.len(),
        )
    })
}

/// Stages a row for insertion. Refused by 1, 3 and 7.
#[inline]
pub fn stage_insert(
    header: &mut Header,
    pending: &mut [u32],
    cells: &[u32],
) -> Result<(), Refusal> {
    verdict(unsafe {
        raw::mouldgrey_stage_insert(
            header,
            pending.as_mut_ptr(),
            pending.len(),
            cells.as_ptr(),
            cells.len(),
        )
    })
}

/// Stages the removal of a key's row. Refused by 1, 3 and 7.
#[inline]
pub fn stage_remove(header: &mut Header, pending: &mut [u32], key: &[u32]) -> Result<(), Refusal> {
    verdict(unsafe {
        raw::mouldgrey_stage_remove(
            header,
            pending.as_mut_ptr(),
            pending.len(),
            key.as_ptr(),
            key.len(),
        )
    })
}

/// Stages the removal of a row that still has this key at merge time. Refused by 1, 3, 5 and 7.
#[inline]
pub fn stage_remove_row(
    header: &mut Header,
    pending: &mut [u32],
    row: u32,
    key: &[u32],
) -> Result<(), Refusal> {
    verdict(unsafe {
        raw::mouldgrey_stage_remove_row(
            header,
            pending.as_mut_ptr(),
            pending.len(),
            row,
            key.as_ptr(),
            key.len(),
        )
    })
}

/// Applies what is staged. A stop is no refusal: it is in the answer ([`Merge::accepted`]). Refused by 1 and 2.
#[inline]
pub fn merge(
    header: &mut Header,
    rows: &mut [u32],
    keys: &mut [u32],
    sorts: &mut [u32],
    pending: &[u32],
    live: &mut [u64],
    base: &mut [u32],
) -> Result<Merge, Refusal> {
    let mut merged = raw::Merged::default();
    verdict(unsafe {
        raw::mouldgrey_merge(
            header,
            rows.as_mut_ptr(),
            rows.len(),
            keys.as_mut_ptr(),
            keys.len(),
            sorts.as_mut_ptr(),
            sorts.len(),
            pending.as_ptr(),
            pending.len(),
            live.as_mut_ptr(),
            live.len(),
            base.as_mut_ptr(),
            base.len(),
            &mut merged,
        )
    })?;
    let stop = StopReason::from_number(merged.status).map(|reason| Stop {
        reason,
        place: merged.place,
    });
    let merged = Merged {
        added: merged.added == 1,
        kept: merged.kept,
        dropped: merged.dropped,
    };
    Ok(Merge { stop, merged })
}

/// Drops the dead rows; the others close up. Refused by 1, 2 and 10.
#[inline]
pub fn compact(
    header: &mut Header,
    rows: &mut [u32],
    keys: &mut [u32],
    sorts: &mut [u32],
    live: &mut [u64],
    base: &mut [u32],
) -> Result<(), Refusal> {
    verdict(unsafe {
        raw::mouldgrey_compact(
            header,
            rows.as_mut_ptr(),
            rows.len(),
            keys.as_mut_ptr(),
            keys.len(),
            sorts.as_mut_ptr(),
            sorts.len(),
            live.as_mut_ptr(),
            live.len(),
            base.as_mut_ptr(),
            base.len(),
        )
    })
}

/// Drops what is staged, and all rows. Refused by 1, 2 and, if there are rows, 10.
#[inline]
pub fn clear(header: &mut Header, keys: &mut [u32]) -> Result<(), Refusal> {
    verdict(unsafe { raw::mouldgrey_clear(header, keys.as_mut_ptr(), keys.len()) })
}

/// Stages each live row that holds one of these values in one of these columns, rising, for removal by row and for insertion with
/// the stamp as its sort cell; returns whether there was one. The index store is new if its first word is 0, and needs 16 words and
/// 3 for each row of the capacity and named column. Refused by 1, 2, 12, 6, 2 again if the index store is shorter, 9 and 7.
#[inline]
pub fn refresh_rows_for_values(
    header: &mut Header,
    rows: &[u32],
    pending: &mut [u32],
    index: &mut [u32],
    columns: &[u32],
    values: &[u32],
    stamp: u32,
) -> Result<bool, Refusal> {
    let mut staged = 0;
    verdict(unsafe {
        raw::mouldgrey_refresh_rows_for_values(
            header,
            rows.as_ptr(),
            rows.len(),
            pending.as_mut_ptr(),
            pending.len(),
            index.as_mut_ptr(),
            index.len(),
            columns.as_ptr(),
            columns.len(),
            values.as_ptr(),
            values.len(),
            stamp,
            &mut staged,
        )
    })?;
    Ok(staged == 1)
}

/// Whether header and stores are a sound table. Refused by 1 and 2.
#[inline]
pub fn is_sound(
    header: &Header,
    rows: &[u32],
    keys: &[u32],
    sorts: &[u32],
    pending: &[u32],
) -> Result<bool, Refusal> {
    let mut sound = 0;
    verdict(unsafe {
        raw::mouldgrey_is_sound(
            header,
            rows.as_ptr(),
            rows.len(),
            keys.as_ptr(),
            keys.len(),
            sorts.as_ptr(),
            sorts.len(),
            pending.as_ptr(),
            pending.len(),
            &mut sound,
        )
    })?;
    Ok(sound == 1)
}

/// The number of a key's live row. Refused by 1, 2 and 3.
#[inline]
pub fn get_row(
    header: &Header,
    rows: &[u32],
    keys: &[u32],
    key: &[u32],
) -> Result<Option<u32>, Refusal> {
    let mut row = raw::Row::default();
    verdict(unsafe {
        raw::mouldgrey_get_row(
            header,
            rows.as_ptr(),
            rows.len(),
            keys.as_ptr(),
            keys.len(),
            key.as_ptr(),
            key.len(),
            &mut row,
        )
    })?;
    Ok((row.found == 1).then_some(row.row))
}

/// One cell of a key's live row. Refused by 1, 2, 3 and 6.
#[inline]
pub fn get_row_column(
    header: &Header,
    rows: &[u32],
    keys: &[u32],
    key: &[u32],
    column: u32,
) -> Result<Option<u32>, Refusal> {
    let mut cell = raw::Cell::default();
    verdict(unsafe {
        raw::mouldgrey_get_row_column(
            header,
            rows.as_ptr(),
            rows.len(),
            keys.as_ptr(),
            keys.len(),
            key.as_ptr(),
            key.len(),
            column,
            &mut cell,
        )
    })?;
    Ok((cell.found == 1).then_some(cell.cell))
}

/// The range, start and end, of all rows that meet a condition on the sort column; none for two columns compared and for any
/// other column. Dead rows may lie in it. Refused by 1, 2 and 6.
#[inline]
pub fn fast_subset(
    header: &Header,
    sorts: &[u32],
    condition: impl Into<raw::Constraint>,
) -> Result<Option<(u32, u32)>, Refusal> {
    let mut found = raw::Range::default();
    verdict(unsafe {
        raw::mouldgrey_fast_subset(
            header,
            sorts.as_ptr(),
            sorts.len(),
            &condition.into(),
            &mut found,
        )
    })?;
    Ok(range(found))
}

/// Generation and row count. Refused by 1.
#[inline]
pub fn version(header: &Header) -> Result<Version, Refusal> {
    let mut version = raw::Version::default();
    verdict(unsafe { raw::mouldgrey_table_version(header, &mut version) })?;
    let raw::Version { generation, rows } = version;
    Ok(Version { generation, rows })
}

/// The rows from this one on, start and end. Refused by 1 and 5.
#[inline]
pub fn updates_since(header: &Header, row: u32) -> Result<(u32, u32), Refusal> {
    let mut range = raw::Range::default();
    verdict(unsafe { raw::mouldgrey_updates_since(header, row, &mut range) })?;
    Ok((range.start, range.end))
}

/// The rows since a noted version, start and end. Refused by 1 and 18.
#[inline]
pub fn rows_since_version(header: &Header, noted: Version) -> Result<(u32, u32), Refusal> {
    let noted = raw::Version {
        generation: noted.generation,
        rows: noted.rows,
    };
    let mut range = raw::Range::default();
    verdict(unsafe { raw::mouldgrey_rows_since_version(header, &noted, &mut range) })?;
    Ok((range.start, range.end))
}

/// The lowest live row that fails one of these pairs of values in a key column, and the place of the first pair that it fails;
/// none if every row meets its pairs. Two words are a pair. Refused by 1, 2, 6 and 14.
#[inline]
pub fn check_precedence(
    header: &Header,
    rows: &[u32],
    keys: &[u32],
    column: u32,
    pairs: &[u32],
) -> Result<Option<(u32, u32)>, Refusal> {
    let mut failure = raw::Failure::default();
    verdict(unsafe {
        raw::mouldgrey_check_precedence(
            header,
            rows.as_ptr(),
            rows.len(),
            keys.as_ptr(),
            keys.len(),
            column,
            pairs.as_ptr(),
            pairs.len(),
            &mut failure,
        )
    })?;
    Ok((failure.found == 1).then_some((failure.row, failure.pair)))
}

/// The live rows of a subset that meet a condition. Refused by 1, 2, 4, 5, 6 and, if the output is shorter than the subset, 2.
#[inline]
pub fn refine_one(
    header: &Header,
    rows: &[u32],
    subset: SubsetRef<'_>,
    condition: impl Into<raw::Constraint>,
    output: &mut [u32],
) -> Result<Written, Refusal> {
    let (subset, ids) = subset.parts();
    let mut answer = raw::Subset::default();
    verdict(unsafe {
        raw::mouldgrey_refine_one(
            header,
            rows.as_ptr(),
            rows.len(),
            &subset,
            ids.as_ptr(),
            ids.len(),
            &condition.into(),
            output.as_mut_ptr(),
            output.len(),
            &mut answer,
        )
    })?;
    Ok(answer.into())
}

/// The live rows of a subset that meet all conditions. A range stays one only if all of it is kept. Refused by 1, 2, 4, 5, 6
/// and, if the output is shorter than the subset, 2.
#[inline]
pub fn refine_ref(
    header: &Header,
    rows: &[u32],
    subset: SubsetRef<'_>,
    conditions: &[raw::Constraint],
    output: &mut [u32],
) -> Result<Written, Refusal> {
    let (subset, ids) = subset.parts();
    let mut answer = raw::Subset::default();
    verdict(unsafe {
        raw::mouldgrey_refine_ref(
            header,
            rows.as_ptr(),
            rows.len(),
            &subset,
            ids.as_ptr(),
            ids.len(),
            conditions.as_ptr(),
            conditions.len(),
            output.as_mut_ptr(),
            output.len(),
            &mut answer,
        )
    })?;
    Ok(answer.into())
}

/// Whether some live row of a subset meets all conditions. Refused by 1, 2, 4, 5 and 6.
#[inline]
pub fn contains_match(
    header: &Header,
    rows: &[u32],
    subset: SubsetRef<'_>,
    conditions: &[raw::Constraint],
) -> Result<bool, Refusal> {
    let (subset, ids) = subset.parts();
    let mut matched = 0;
    verdict(unsafe {
        raw::mouldgrey_contains_match(
            header,
            rows.as_ptr(),
            rows.len(),
            &subset,
            ids.as_ptr(),
            ids.len(),
            conditions.as_ptr(),
            conditions.len(),
            &mut matched,
        )
    })?;
    Ok(matched == 1)
}

/// Visits n ids of a subset from a place on, counted from 0, and writes those of the live rows that meet all conditions.
/// Refused by 1, 2, 4, 5 (also if the place is above the subset's size), 6 and, if the output is shorter than the smaller of n
/// and what remains, 2.
#[inline]
pub fn read_page(
    header: &Header,
    rows: &[u32],
    subset: SubsetRef<'_>,
    place: u32,
    n: usize,
    conditions: &[raw::Constraint],
    output: &mut [u32],
) -> Result<PageWritten, Refusal> {
    let (subset, ids) = subset.parts();
    let mut page = raw::Page::default();
    verdict(unsafe {
        raw::mouldgrey_read_page(
            header,
            rows.as_ptr(),
            rows.len(),
            &subset,
            ids.as_ptr(),
            ids.len(),
            place,
            n,
            conditions.as_ptr(),
            conditions.len(),
            output.as_mut_ptr(),
            output.len(),
            &mut page,
        )
    })?;
    Ok(PageWritten {
        written: page.written as usize,
        dead: page.dead as usize,
        next: (page.has_next == 1).then_some(page.next),
    })
}

/// The ids that two subsets have in common. Refused by 4 and, if the output is shorter than the first list, or than the second
/// where the first is a range, 2.
#[inline]
pub fn intersect(
    first: SubsetRef<'_>,
    second: SubsetRef<'_>,
    output: &mut [u32],
) -> Result<Written, Refusal> {
    let mut answer = raw::Subset::default();
    verdict(match (first, second) {
        // The C function for two ranges takes its arguments in registers.
        (SubsetRef::Range(start, end), SubsetRef::Range(other_start, other_end)) => unsafe {
            raw::mouldgrey_intersect_ranges(start, end, other_start, other_end, &mut answer)
        },
        _ => {
            let ((first, first_ids), (second, second_ids)) = (first.parts(), second.parts());
            unsafe {
                raw::mouldgrey_intersect(
                    &first,
                    first_ids.as_ptr(),
                    first_ids.len(),
                    &second,
                    second_ids.as_ptr(),
                    second_ids.len(),
                    output.as_mut_ptr(),
                    output.len(),
                    &mut answer,
                )
            }
        }
    })?;
    Ok(answer.into())
}

/// Writes rows of this width to the output in column order, each cell but a column's first as its difference from the cell above,
/// modulo 2^32. Output past them is unchanged. Refused by 1, 13 and 2.
#[inline]
pub fn to_columns(width: u32, cells: &[u32], output: &mut [u32]) -> Result<(), Refusal> {
    verdict(unsafe {
        raw::mouldgrey_to_columns(
            width,
            cells.as_ptr(),
            cells.len(),
            output.as_mut_ptr(),
            output.len(),
        )
    })
}

/// Writes the rows back from what [`to_columns`] wrote. Refused by 1, 13 and 2.
#[inline]
pub fn from_columns(width: u32, cells: &[u32], output: &mut [u32]) -> Result<(), Refusal> {
    verdict(unsafe {
        raw::mouldgrey_from_columns(
            width,
            cells.as_ptr(),
            cells.len(),
            output.as_mut_ptr(),
            output.len(),
        )
    })
}

/// What a step of a short history does. Refused by 15.
pub fn step_at(step: u32) -> Result<Step, Refusal> {
    let mut answer = raw::Step::default();
    verdict(unsafe { raw::mouldgrey_step_at(step, &mut answer) })?;
    Ok(match answer.kind {
        0 => Step::Insert([answer.key, answer.stamp, answer.level]),
        1 => Step::Remove([answer.key]),
        _ => Step::Merge,
    })
}

/// The position of a sequence of steps among all of at most six. Refused by 15.
#[inline]
pub fn position_of(sequence: &[u32]) -> Result<u32, Refusal> {
    let mut position = 0;
    verdict(unsafe {
        raw::mouldgrey_position_of(sequence.as_ptr(), sequence.len(), &mut position)
    })?;
    Ok(position)
}

/// Writes the sequence at a position to the start of the output, and returns how many steps it has. Output past them is
/// unchanged. Refused by 16 and 2.
#[inline]
pub fn sequence_at(position: u32, output: &mut [u32]) -> Result<usize, Refusal> {
    let mut answer = raw::Sequence::default();
    verdict(unsafe {
        raw::mouldgrey_sequence_at(position, output.as_mut_ptr(), output.len(), &mut answer)
    })?;
    Ok(answer.steps as usize)
}

/// Writes the sequence after this one as [`sequence_at`] does; none, and nothing is written, after the last. Refused by 15 and 2.
#[inline]
pub fn next_sequence(sequence: &[u32], output: &mut [u32]) -> Result<Option<usize>, Refusal> {
    let mut answer = raw::Sequence::default();
    verdict(unsafe {
        raw::mouldgrey_next_sequence(
            sequence.as_ptr(),
            sequence.len(),
            output.as_mut_ptr(),
            output.len(),
            &mut answer,
        )
    })?;
    Ok((answer.found == 1).then_some(answer.steps as usize))
}

/// Writes a listing of a table to the start of the output, in the new form if `numbered`, and returns how many bytes it has. Output
/// past them is unchanged. Refused by 1, 2 and, if the output is shorter than the text, 2.
pub fn write_listing(
    header: &Header,
    rows: &[u32],
    numbered: bool,
    output: &mut [u8],
) -> Result<usize, Refusal> {
    let mut length = 0;
    verdict(unsafe {
        raw::mouldgrey_write_listing(
            header,
            rows.as_ptr(),
            rows.len(),
            u32::from(numbered),
            output.as_mut_ptr(),
            output.len(),
            &mut length,
        )
    })?;
    Ok(length as usize)
}

/// Reads a listing in the old form: the head's numbers and how many rows it has. Their cells are written to the start of the
/// output, and output past them is unchanged. Refused by 11 and 2.
pub fn read_listing(text: &[u8], output: &mut [u32]) -> Result<(ListingHead, usize), Refusal> {
    let mut read = raw::Listing::default();
    verdict(unsafe {
        raw::mouldgrey_read_listing(
            text.as_ptr(),
            text.len(),
            output.as_mut_ptr(),
            output.len(),
            &mut read,
        )
    })?;
    let head = ListingHead {
        columns: read.columns,
        keys: read.keys,
        sort: read.sort,
        rule: read.rule,
        generation: read.generation,
    };
    Ok((head, read.listed as usize))
}

/// Reads a listing in the new form: the head's numbers, the row count and how many rows it has. Their numbers, each before the
/// row's cells, are written as [`read_listing`] does. Refused by 11 and 2.
pub fn read_numbered(
    text: &[u8],
    output: &mut [u32],
) -> Result<(ListingHead, u32, usize), Refusal> {
    let mut read = raw::NumberedListing::default();
    verdict(unsafe {
        raw::mouldgrey_read_numbered(
            text.as_ptr(),
            text.len(),
            output.as_mut_ptr(),
            output.len(),
            &mut read,
        )
    })?;
    let head = ListingHead {
        columns: read.columns,
        keys: read.keys,
        sort: read.sort,
        rule: read.rule,
        generation: read.generation,
    };
    Ok((head, read.count, read.listed as usize))
}

/// A C function that converts a listing's text to the other form.
type Convert = unsafe extern "C" fn(*const u8, usize, *mut u8, usize, *mut u64) -> u32;

fn convert(by: Convert, text: &[u8], output: &mut [u8]) -> Result<usize, Refusal> {
    let mut length = 0;
    verdict(unsafe {
        by(
            text.as_ptr(),
            text.len(),
            output.as_mut_ptr(),
            output.len(),
            &mut length,
        )
    })?;
    Ok(length as usize)
}

/// Writes a listing in the old form to the start of the output in the new one, its rows numbered from 0, and returns how many
/// bytes that are. Output past them is unchanged. Refused by 11 and 2.
pub fn to_numbered(text: &[u8], output: &mut [u8]) -> Result<usize, Refusal> {
    convert(raw::mouldgrey_to_numbered, text, output)
}

/// Writes a listing in the new form to the output in the old one, as [`to_numbered`] does. Refused by 11, 17 and 2.
pub fn from_numbered(text: &[u8], output: &mut [u8]) -> Result<usize, Refusal> {
    convert(raw::mouldgrey_from_numbered, text, output)
}

/// Whether the numbers given are, rising and each once, those of the rows of a listing in the new form that meet all conditions.
/// Refused by 11 and 6.
pub fn check_answers(
    text: &[u8],
    conditions: &[raw::Constraint],
    given: &[u32],
) -> Result<Verdict, Refusal> {
    let mut answer = raw::Verdict::default();
    verdict(unsafe {
        raw::mouldgrey_check_answers(
            text.as_ptr(),
            text.len(),
            conditions.as_ptr(),
            conditions.len(),
            given.as_ptr(),
            given.len(),
            &mut answer,
        )
    })?;
    Ok(match answer.kind {
        0 => Verdict::Right,
        1 => Verdict::Misplaced(answer.number as usize),
        _ => Verdict::Wrong(answer.number as u32),
    })
}

/// How many words the image of a table has, with a text of this many bytes. Refused by 1 and 21.
pub fn image_size(header: &Header, text_len: usize) -> Result<usize, Refusal> {
    let mut words = 0;
    verdict(unsafe { raw::mouldgrey_image_size(header, text_len, &mut words) })?;
    Ok(words as usize)
}

/// Writes the image of a table, with a text, to the start of `image`, and returns how many words it has. Words past them are
/// unchanged. Refused by 1, 2, 21 and, if `image` is shorter than the image, 2.
pub fn write_image(
    header: &Header,
    rows: &[u32],
    sorts: &[u32],
    pending: &[u32],
    text: &[u8],
    image: &mut [u32],
) -> Result<usize, Refusal> {
    let mut words = 0;
    verdict(unsafe {
        raw::mouldgrey_write_image(
            header,
            rows.as_ptr(),
            rows.len(),
            sorts.as_ptr(),
            sorts.len(),
            pending.as_ptr(),
            pending.len(),
            text.as_ptr(),
            text.len(),
            image.as_mut_ptr(),
            image.len(),
            &mut words,
        )
    })?;
    Ok(words as usize)
}

/// The header of the table whose image these words are, all of them. Uses about 600 KiB of stack. Refused by 19 and 20.
pub fn check_image(image: &[u32]) -> Result<Header, Refusal> {
    let mut header = Header::default();
    verdict(unsafe { raw::mouldgrey_check_image(image.as_ptr(), image.len(), &mut header) })?;
    Ok(header)
}

/// Reads an image into the stores and builds the key index anew. The table gets this capacity, or with 0 the image's own. Checks
/// the words as [`check_image`] does, and uses as much stack. Refused by 19, 20, 1 (a capacity above 65,536 or below the row
/// count) and 2.
pub fn read_image(
    image: &[u32],
    capacity: u32,
    header: &mut Header,
    rows: &mut [u32],
    keys: &mut [u32],
    sorts: &mut [u32],
    pending: &mut [u32],
) -> Result<(), Refusal> {
    verdict(unsafe {
        raw::mouldgrey_read_image(
            image.as_ptr(),
            image.len(),
            capacity,
            header,
            rows.as_mut_ptr(),
            rows.len(),
            keys.as_mut_ptr(),
            keys.len(),
            sorts.as_mut_ptr(),
            sorts.len(),
            pending.as_mut_ptr(),
            pending.len(),
        )
    })
}

/// Writes the text of an image to the start of `text`, and returns how many bytes it has. Bytes past them are unchanged. The table
/// need not be sound. Refused by 19 and 2.
pub fn read_image_text(image: &[u32], text: &mut [u8]) -> Result<usize, Refusal> {
    let mut bytes = 0;
    verdict(unsafe {
        raw::mouldgrey_read_image_text(
            image.as_ptr(),
            image.len(),
            text.as_mut_ptr(),
            text.len(),
            &mut bytes,
        )
    })?;
    Ok(bytes as usize)
}

/// Makes an empty table of the stores and makes the calls on it, in order, also after one that is refused. The calls are encoded
/// as words ([`encode_calls`](crate::encode_calls)). The index store is that of all refreshes of the list. Refused by 1 and 2, as
/// [`open_table`].
#[allow(clippy::too_many_arguments)]
pub fn replay(
    opening: impl Into<raw::Opening>,
    header: &mut Header,
    calls: &[u32],
    rows: &mut [u32],
    keys: &mut [u32],
    sorts: &mut [u32],
    pending: &mut [u32],
    live: &mut [u64],
    base: &mut [u32],
    index: &mut [u32],
) -> Result<(), Refusal> {
    verdict(unsafe {
        raw::mouldgrey_replay(
            &opening.into(),
            header,
            calls.as_ptr(),
            calls.len(),
            rows.as_mut_ptr(),
            rows.len(),
            keys.as_mut_ptr(),
            keys.len(),
            sorts.as_mut_ptr(),
            sorts.len(),
            pending.as_mut_ptr(),
            pending.len(),
            live.as_mut_ptr(),
            live.len(),
            base.as_mut_ptr(),
            base.len(),
            index.as_mut_ptr(),
            index.len(),
        )
    })
}

/// Where the ids are that a list of queries left.
#[derive(Clone, Copy, Debug, PartialEq, Eq)]
pub enum LeftIn {
    /// They are a range.
    Range(u32, u32),
    /// They are all of the starting list.
    Start,
    /// They are the first so many words of the first work space.
    First(usize),
    /// They are the first so many words of the second work space.
    Second(usize),
}

/// What a list of queries left.
#[derive(Clone, Copy, Debug, PartialEq, Eq)]
pub struct Left {
    /// The ids.
    pub ids: LeftIn,
    /// Some accepted query refines.
    pub refined: bool,
    /// How many queries were taken from the list, refused ones too; `u32::MAX` also where there were more.
    pub taken: u32,
}

/// Makes the queries on a subset, in order, each on the ids that the last accepted one left. They are encoded as words
/// ([`encode_queries`](crate::encode_queries)). Each query has room for as many ids as the shorter of the two work spaces holds.
/// Never refused; a query that is refused changes nothing.
#[allow(clippy::too_many_arguments)]
pub fn run_queries(
    header: &Header,
    rows: &[u32],
    sorts: &[u32],
    subset: SubsetRef<'_>,
    queries: &[u32],
    first: &mut [u32],
    second: &mut [u32],
) -> Left {
    let (subset, ids) = subset.parts();
    let mut answer = raw::QueryResult::default();
    let number = unsafe {
        raw::mouldgrey_run_queries(
            header,
            rows.as_ptr(),
            rows.len(),
            sorts.as_ptr(),
            sorts.len(),
            &subset,
            ids.as_ptr(),
            ids.len(),
            queries.as_ptr(),
            queries.len(),
            first.as_mut_ptr(),
            first.len(),
            second.as_mut_ptr(),
            second.len(),
            &mut answer,
        )
    };
    debug_assert_eq!(number, 0, "a list of queries is never refused");
    let ids = match (answer.dense, answer.list) {
        (1, _) => LeftIn::Range(answer.start, answer.end),
        (_, 1) => LeftIn::First(answer.count as usize),
        (_, 2) => LeftIn::Second(answer.count as usize),
        _ => LeftIn::Start,
    };
    Left {
        ids,
        refined: answer.refined == 1,
        taken: answer.taken,
    }
}
