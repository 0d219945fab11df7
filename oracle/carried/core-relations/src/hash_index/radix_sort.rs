//! Ours, not carried over: stands for the module of this name, a stable sort of pairs by value.

use crate::{common::Value, offsets::RowId};

pub(super) fn sort(pairs: &mut [(Value, RowId)], _scratch: &mut [(Value, RowId)]) {
    pairs.sort_by_key(|(value, _)| *value);
}
