//! Ours, not carried over. The carried text declares this module under `cfg(test)`; standing inside `table`, it opens
//! what is private there. Each function names or calls one private item and decides nothing.

use super::*;
use crate::driver::{Opened, Staging, Taken};

impl Staging for Buffer {
    fn stage_remove_row(&mut self, row: RowId, key: &[Value]) {
        Buffer::stage_remove_row(self, row, key);
    }
}

impl Opened for SortedWritesTable {
    fn staging(&self) -> Box<dyn Staging> {
        Box::new(self.new_table_buffer())
    }

    fn delete_pending(&mut self) {
        self.do_delete();
    }

    fn insert_pending(&mut self) {
        self.do_insert(&mut ExecutionState);
    }

    fn compact(&mut self) {
        self.rehash();
    }

    fn dead_rows(&self) -> usize {
        self.data.stale_rows
    }

    fn sort_entries(&self) -> &[(Value, RowId)] {
        &self.offsets
    }

    fn meets(conditions: &[Constraint], row: &[Value]) -> bool {
        SortedWritesTable::eval_constraints(conditions, row)
    }

    fn key_hash(key: &[Value]) -> u32 {
        shard_hash(ShardData::new(1), key, key.len()).compact.0
    }

    fn compact_hash(full: u64) -> u32 {
        CompactHash::from_full(FullHash(full)).0
    }

    fn probe(compact: u32) -> u64 {
        CompactHash(compact).probe().raw()
    }

    fn row(&self, row: RowId) -> Option<&[Value]> {
        self.data.get_row(row)
    }

    fn named_columns(&self) -> &[ColumnId] {
        &self.to_rebuild
    }

    fn name_columns(&mut self, columns: Vec<ColumnId>) {
        self.rebuild_index = Index::new(columns.clone(), ColumnIndex::new());
        self.to_rebuild = columns;
    }

    fn unstage(&mut self) {
        self.pending_state.clear();
    }

    fn staged_by(&mut self, work: &mut dyn FnMut(&mut Self)) -> Taken {
        let none = Arc::new(PendingState::new(self.hash.shard_data()));
        let before = mem::replace(&mut self.pending_state, none);
        work(self);
        let staged = mem::replace(&mut self.pending_state, before);
        let shard = ShardId::new(0);
        let removals = drain_queue(&staged.pending_known_removals[shard]);
        let rows = drain_queue(&staged.pending_rows[shard]);
        let rows = rows.iter().flat_map(HashedRowBuffer::rows_hashed);
        Taken {
            removals: removals.iter().flatten().map(|it| (it.row, it.hash.0)).collect(),
            rows: rows.map(|(_, row)| row.to_vec()).collect(),
        }
    }
}
