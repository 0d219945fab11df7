//! The C functions of the single parts. A slice goes as a pointer and a length.

unsafe extern "C" {
    pub fn mouldgrey_is_stale(first: u32) -> bool;
    pub fn mouldgrey_from_full(full: u64) -> u32;
    pub fn mouldgrey_probe(hash: u32) -> u64;
    pub fn mouldgrey_key_hash(key: *const u32, key_len: usize) -> u64;
    pub fn mouldgrey_compact_hash(key: *const u32, key_len: usize) -> u32;
    pub fn mouldgrey_known(kind: u32, column: u32, value: u32, columns: u32) -> bool;
    pub fn mouldgrey_meets(
        kind: u32,
        column: u32,
        value: u32,
        row: *const u32,
        row_len: usize,
    ) -> bool;
    pub fn mouldgrey_changes(
        rule: u32,
        keys: u32,
        sort: u32,
        old: *const u32,
        old_len: usize,
        new: *const u32,
        new_len: usize,
    ) -> bool;
    pub fn mouldgrey_make(
        rule: u32,
        keys: u32,
        sort: u32,
        old: *const u32,
        old_len: usize,
        new: *const u32,
        new_len: usize,
        out: *mut u32,
        out_len: usize,
    ) -> bool;
    pub fn mouldgrey_surviving_row(
        rule: u32,
        keys: u32,
        sort: u32,
        width: usize,
        rows: *const u32,
        rows_len: usize,
        old: usize,
        pending: *const u32,
        pending_len: usize,
        new: usize,
        out: *mut u32,
        out_len: usize,
    ) -> bool;
    pub fn mouldgrey_rank(live: u64, base: u32, bit: u32) -> u32;
    pub fn mouldgrey_find(
        columns: u32,
        keys: u32,
        room: u32,
        count: u32,
        rows: *const u32,
        rows_len: usize,
        store: *const u32,
        store_len: usize,
        key: *const u32,
        key_len: usize,
    ) -> u64;
    pub fn mouldgrey_put(
        room: u32,
        store: *mut u32,
        store_len: usize,
        key: *const u32,
        key_len: usize,
        row: u32,
    ) -> u64;
    pub fn mouldgrey_replace(
        store: *mut u32,
        store_len: usize,
        slot: u32,
        key: *const u32,
        key_len: usize,
        row: u32,
    ) -> u64;
    pub fn mouldgrey_take_out(
        columns: u32,
        keys: u32,
        room: u32,
        count: u32,
        rows: *const u32,
        rows_len: usize,
        store: *mut u32,
        store_len: usize,
        slot: u32,
    ) -> u64;
    pub fn mouldgrey_renumber(
        room: u32,
        count: u32,
        store: *mut u32,
        store_len: usize,
        live: *const u64,
        live_len: usize,
        base: *const u32,
        base_len: usize,
    ) -> u64;
    pub fn mouldgrey_fast_range(
        sorts: *const u32,
        sorts_len: usize,
        entries: u32,
        rows: u32,
        kind: u32,
        value: u32,
    ) -> u64;
}
