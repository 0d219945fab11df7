//! The C functions as include/mouldgrey.h declares them, where each is described, and its structs. A test compares these
//! declarations with the header and with the library's source.
//!
//! # Safety
//!
//! Each pointer is valid for as many elements as the length beside it says; a pointer to a struct is valid for that struct.
//! What may be written overlaps nothing else that is passed. Everything else is safe: a call ends and does nothing undefined,
//! whatever the numbers are.

#![allow(missing_docs)]

pub use crate::header::Header;

/// What a table is opened with: any numbers. [`crate::Opening`] is the typed form.
#[repr(C)]
#[derive(Clone, Copy, Debug, Default, PartialEq, Eq)]
pub struct Opening {
    pub columns: u32,
    pub keys: u32,
    pub sort: u32,
    pub rule: u32,
    pub capacity: u32,
    pub generation: u32,
}

#[repr(C)]
#[derive(Clone, Copy, Debug, Default, PartialEq, Eq)]
pub struct Merged {
    pub status: u32,
    pub place: u32,
    pub added: u32,
    pub kept: u32,
    pub dropped: u32,
}

#[repr(C)]
#[derive(Clone, Copy, Debug, Default, PartialEq, Eq)]
pub struct Row {
    pub found: u32,
    pub row: u32,
}

#[repr(C)]
#[derive(Clone, Copy, Debug, Default, PartialEq, Eq)]
pub struct Cell {
    pub found: u32,
    pub cell: u32,
}

#[repr(C)]
#[derive(Clone, Copy, Debug, Default, PartialEq, Eq)]
pub struct Range {
    pub found: u32,
    pub start: u32,
    pub end: u32,
}

#[repr(C)]
#[derive(Clone, Copy, Debug, Default, PartialEq, Eq)]
pub struct Version {
    pub generation: u32,
    pub rows: u32,
}

/// A condition: any numbers. [`crate::Condition`] is the typed form.
#[repr(C)]
#[derive(Clone, Copy, Debug, Default, PartialEq, Eq)]
pub struct Constraint {
    pub kind: u32,
    pub column: u32,
    pub value: u32,
}

#[repr(C)]
#[derive(Clone, Copy, Debug, Default, PartialEq, Eq)]
pub struct Subset {
    pub dense: u32,
    pub start: u32,
    pub end: u32,
}

#[repr(C)]
#[derive(Clone, Copy, Debug, Default, PartialEq, Eq)]
pub struct Page {
    pub written: u32,
    pub dead: u32,
    pub has_next: u32,
    pub next: u32,
}

#[repr(C)]
#[derive(Clone, Copy, Debug, Default, PartialEq, Eq)]
pub struct Failure {
    pub found: u32,
    pub row: u32,
    pub pair: u32,
}

#[repr(C)]
#[derive(Clone, Copy, Debug, Default, PartialEq, Eq)]
pub struct Step {
    pub kind: u32,
    pub key: u32,
    pub stamp: u32,
    pub level: u32,
}

#[repr(C)]
#[derive(Clone, Copy, Debug, Default, PartialEq, Eq)]
pub struct Sequence {
    pub found: u32,
    pub steps: u32,
}

#[repr(C)]
#[derive(Clone, Copy, Debug, Default, PartialEq, Eq)]
pub struct Listing {
    pub columns: u32,
    pub keys: u32,
    pub sort: u32,
    pub rule: u32,
    pub generation: u32,
    pub listed: u32,
}

#[repr(C)]
#[derive(Clone, Copy, Debug, Default, PartialEq, Eq)]
pub struct NumberedListing {
    pub columns: u32,
    pub keys: u32,
    pub sort: u32,
    pub rule: u32,
    pub generation: u32,
    pub count: u32,
    pub listed: u32,
}

#[repr(C)]
#[derive(Clone, Copy, Debug, Default, PartialEq, Eq)]
pub struct Verdict {
    pub kind: u64,
    pub number: u64,
}

#[repr(C)]
#[derive(Clone, Copy, Debug, Default, PartialEq, Eq)]
pub struct QueryResult {
    pub dense: u32,
    pub start: u32,
    pub end: u32,
    pub count: u32,
    pub list: u32,
    pub refined: u32,
    pub taken: u32,
}

unsafe extern "C" {
    pub fn mouldgrey_refusal_text(number: u32) -> *const std::ffi::c_char;
    pub fn mouldgrey_library_version() -> u32;
    pub fn mouldgrey_open_table(
        opening: *const Opening,
        header: *mut Header,
        rows: *const u32,
        rows_len: usize,
        keys: *mut u32,
        keys_len: usize,
        sorts: *const u32,
        sorts_len: usize,
        pending: *const u32,
        pending_len: usize,
    ) -> u32;
    pub fn mouldgrey_stage_insert(
        header: *mut Header,
        pending: *mut u32,
        pending_len: usize,
        cells: *const u32,
        cells_len: usize,
    ) -> u32;
    pub fn mouldgrey_stage_remove(
        header: *mut Header,
        pending: *mut u32,
        pending_len: usize,
        key: *const u32,
        key_len: usize,
    ) -> u32;
    pub fn mouldgrey_stage_remove_row(
        header: *mut Header,
        pending: *mut u32,
        pending_len: usize,
        row: u32,
        key: *const u32,
        key_len: usize,
    ) -> u32;
    pub fn mouldgrey_merge(
        header: *mut Header,
        rows: *mut u32,
        rows_len: usize,
        keys: *mut u32,
        keys_len: usize,
        sorts: *mut u32,
        sorts_len: usize,
        pending: *const u32,
        pending_len: usize,
        live: *mut u64,
        live_len: usize,
        base: *mut u32,
        base_len: usize,
        merged: *mut Merged,
    ) -> u32;
    pub fn mouldgrey_compact(
        header: *mut Header,
        rows: *mut u32,
        rows_len: usize,
        keys: *mut u32,
        keys_len: usize,
        sorts: *mut u32,
        sorts_len: usize,
        live: *mut u64,
        live_len: usize,
        base: *mut u32,
        base_len: usize,
    ) -> u32;
    pub fn mouldgrey_clear(header: *mut Header, keys: *mut u32, keys_len: usize) -> u32;
    pub fn mouldgrey_refresh_rows_for_values(
        header: *mut Header,
        rows: *const u32,
        rows_len: usize,
        pending: *mut u32,
        pending_len: usize,
        index: *mut u32,
        index_len: usize,
        columns: *const u32,
        columns_len: usize,
        values: *const u32,
        values_len: usize,
        stamp: u32,
        staged: *mut u32,
    ) -> u32;
    pub fn mouldgrey_is_sound(
        header: *const Header,
        rows: *const u32,
        rows_len: usize,
        keys: *const u32,
        keys_len: usize,
        sorts: *const u32,
        sorts_len: usize,
        pending: *const u32,
        pending_len: usize,
        sound: *mut u32,
    ) -> u32;
    pub fn mouldgrey_get_row(
        header: *const Header,
        rows: *const u32,
        rows_len: usize,
        keys: *const u32,
        keys_len: usize,
        key: *const u32,
        key_len: usize,
        row: *mut Row,
    ) -> u32;
    pub fn mouldgrey_get_row_column(
        header: *const Header,
        rows: *const u32,
        rows_len: usize,
        keys: *const u32,
        keys_len: usize,
        key: *const u32,
        key_len: usize,
        column: u32,
        cell: *mut Cell,
    ) -> u32;
    pub fn mouldgrey_fast_subset(
        header: *const Header,
        sorts: *const u32,
        sorts_len: usize,
        condition: *const Constraint,
        range: *mut Range,
    ) -> u32;
    pub fn mouldgrey_updates_since(header: *const Header, row: u32, range: *mut Range) -> u32;
    pub fn mouldgrey_table_version(header: *const Header, version: *mut Version) -> u32;
    pub fn mouldgrey_rows_since_version(
        header: *const Header,
        version: *const Version,
        range: *mut Range,
    ) -> u32;
    pub fn mouldgrey_check_precedence(
        header: *const Header,
        rows: *const u32,
        rows_len: usize,
        keys: *const u32,
        keys_len: usize,
        column: u32,
        pairs: *const u32,
        pairs_len: usize,
        failure: *mut Failure,
    ) -> u32;
    pub fn mouldgrey_refine_one(
        header: *const Header,
        rows: *const u32,
        rows_len: usize,
        subset: *const Subset,
        ids: *const u32,
        ids_len: usize,
        condition: *const Constraint,
        output: *mut u32,
        output_len: usize,
        answer: *mut Subset,
    ) -> u32;
    pub fn mouldgrey_refine_ref(
        header: *const Header,
        rows: *const u32,
        rows_len: usize,
        subset: *const Subset,
        ids: *const u32,
        ids_len: usize,
        conditions: *const Constraint,
        conditions_len: usize,
        output: *mut u32,
        output_len: usize,
        answer: *mut Subset,
    ) -> u32;
    pub fn mouldgrey_contains_match(
        header: *const Header,
        rows: *const u32,
        rows_len: usize,
        subset: *const Subset,
        ids: *const u32,
        ids_len: usize,
        conditions: *const Constraint,
        conditions_len: usize,
        matched: *mut u32,
    ) -> u32;
    pub fn mouldgrey_read_page(
        header: *const Header,
        rows: *const u32,
        rows_len: usize,
        subset: *const Subset,
        ids: *const u32,
        ids_len: usize,
        place: u32,
        n: usize,
        conditions: *const Constraint,
        conditions_len: usize,
        output: *mut u32,
        output_len: usize,
        page: *mut Page,
    ) -> u32;
    pub fn mouldgrey_intersect(
        first: *const Subset,
        first_ids: *const u32,
        first_ids_len: usize,
        second: *const Subset,
        second_ids: *const u32,
        second_ids_len: usize,
        output: *mut u32,
        output_len: usize,
        subset: *mut Subset,
    ) -> u32;
    pub fn mouldgrey_intersect_ranges(
        start: u32,
        end: u32,
        other_start: u32,
        other_end: u32,
        subset: *mut Subset,
    ) -> u32;
    pub fn mouldgrey_to_columns(
        width: u32,
        cells: *const u32,
        cells_len: usize,
        output: *mut u32,
        output_len: usize,
    ) -> u32;
    pub fn mouldgrey_from_columns(
        width: u32,
        cells: *const u32,
        cells_len: usize,
        output: *mut u32,
        output_len: usize,
    ) -> u32;
    pub fn mouldgrey_step_at(step: u32, answer: *mut Step) -> u32;
    pub fn mouldgrey_position_of(
        sequence: *const u32,
        sequence_len: usize,
        position: *mut u32,
    ) -> u32;
    pub fn mouldgrey_sequence_at(
        position: u32,
        output: *mut u32,
        output_len: usize,
        answer: *mut Sequence,
    ) -> u32;
    pub fn mouldgrey_next_sequence(
        sequence: *const u32,
        sequence_len: usize,
        output: *mut u32,
        output_len: usize,
        answer: *mut Sequence,
    ) -> u32;
    pub fn mouldgrey_write_listing(
        header: *const Header,
        rows: *const u32,
        rows_len: usize,
        numbered: u32,
        output: *mut u8,
        output_len: usize,
        length: *mut u64,
    ) -> u32;
    pub fn mouldgrey_read_listing(
        text: *const u8,
        text_len: usize,
        output: *mut u32,
        output_len: usize,
        head: *mut Listing,
    ) -> u32;
    pub fn mouldgrey_read_numbered(
        text: *const u8,
        text_len: usize,
        output: *mut u32,
        output_len: usize,
        head: *mut NumberedListing,
    ) -> u32;
    pub fn mouldgrey_to_numbered(
        text: *const u8,
        text_len: usize,
        output: *mut u8,
        output_len: usize,
        length: *mut u64,
    ) -> u32;
    pub fn mouldgrey_from_numbered(
        text: *const u8,
        text_len: usize,
        output: *mut u8,
        output_len: usize,
        length: *mut u64,
    ) -> u32;
    pub fn mouldgrey_check_answers(
        text: *const u8,
        text_len: usize,
        conditions: *const Constraint,
        conditions_len: usize,
        given: *const u32,
        given_len: usize,
        verdict: *mut Verdict,
    ) -> u32;
    pub fn mouldgrey_image_size(header: *const Header, text_len: usize, words: *mut u64) -> u32;
    pub fn mouldgrey_write_image(
        header: *const Header,
        rows: *const u32,
        rows_len: usize,
        sorts: *const u32,
        sorts_len: usize,
        pending: *const u32,
        pending_len: usize,
        text: *const u8,
        text_len: usize,
        image: *mut u32,
        image_len: usize,
        words: *mut u64,
    ) -> u32;
    pub fn mouldgrey_check_image(image: *const u32, image_len: usize, header: *mut Header) -> u32;
    pub fn mouldgrey_read_image(
        image: *const u32,
        image_len: usize,
        capacity: u32,
        header: *mut Header,
        rows: *mut u32,
        rows_len: usize,
        keys: *mut u32,
        keys_len: usize,
        sorts: *mut u32,
        sorts_len: usize,
        pending: *mut u32,
        pending_len: usize,
    ) -> u32;
    pub fn mouldgrey_read_image_text(
        image: *const u32,
        image_len: usize,
        text: *mut u8,
        text_len: usize,
        bytes: *mut u64,
    ) -> u32;
    pub fn mouldgrey_replay(
        opening: *const Opening,
        header: *mut Header,
        calls: *const u32,
        calls_len: usize,
        rows: *mut u32,
        rows_len: usize,
        keys: *mut u32,
        keys_len: usize,
        sorts: *mut u32,
        sorts_len: usize,
        pending: *mut u32,
        pending_len: usize,
        live: *mut u64,
        live_len: usize,
        base: *mut u32,
        base_len: usize,
        index: *mut u32,
        index_len: usize,
    ) -> u32;
    pub fn mouldgrey_run_queries(
        header: *const Header,
        rows: *const u32,
        rows_len: usize,
        sorts: *const u32,
        sorts_len: usize,
        subset: *const Subset,
        ids: *const u32,
        ids_len: usize,
        queries: *const u32,
        queries_len: usize,
        first: *mut u32,
        first_len: usize,
        second: *mut u32,
        second_len: usize,
        answer: *mut QueryResult,
    ) -> u32;
}
