//! Replaces `core-relations/src/parallel_heuristics`: one thread, so nothing is ever worth sharing out.

pub fn parallelize_table_op(_rows: usize) -> bool {
    false
}

pub fn parallelize_index_construction(_rows: usize) -> bool {
    false
}

pub fn parallelize_rebuild(_rows: usize) -> bool {
    false
}

pub fn parallelize_incremental_rebuild(_rows: usize) -> bool {
    false
}
