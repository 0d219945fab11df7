//! The carried-over Rust as an implementation of the table. The files under `carried` are those of egraphs-good/egglog at commit d89bc58adc,
//! compiled as they are; the modules declared first, and the crates under `stand_ins`, replace what those files lean
//! on. Every rule of the table is the carried text's own.

#[macro_use]
mod action;
mod numeric_id;
mod parallel;
mod parallel_heuristics;

// Not to be formatted: the text is not ours.
#[rustfmt::skip]
#[allow(dead_code)]
#[path = "../../carried/core-relations/src/common.rs"]
mod common;
#[rustfmt::skip]
#[allow(dead_code)]
#[path = "../../carried/core-relations/src/hash_index/mod.rs"]
mod hash_index;
#[rustfmt::skip]
#[allow(dead_code)]
#[path = "../../carried/core-relations/src/offsets/mod.rs"]
mod offsets;
#[rustfmt::skip]
#[allow(dead_code)]
#[path = "../../carried/core-relations/src/pool/mod.rs"]
mod pool;
#[rustfmt::skip]
#[allow(dead_code)]
#[path = "../../carried/core-relations/src/row_buffer/mod.rs"]
mod row_buffer;
#[rustfmt::skip]
#[allow(dead_code)]
#[path = "../../carried/core-relations/src/table/mod.rs"]
mod table;
#[rustfmt::skip]
#[allow(dead_code, unreachable_code, unused_imports, unused_mut, unused_variables)]
#[path = "../../carried/core-relations/src/table_spec.rs"]
mod table_spec;

mod driver;

pub use driver::{
    RustSubset, RustTable, compact_hash, eval_condition, key_hash, merge_rule, probe,
};

// Names that the carried-over files expect at the root.
use action::ExecutionState;
use common::Value;
use offsets::{OffsetRange, RowId, Subset, SubsetRef};
use pool::{Pool, Pooled};
use row_buffer::TaggedRowBuffer;
use table_spec::{ColumnId, Offset, TableChange, TableVersion, WrappedTable};

numeric_id::define_id!(pub(crate) TableId, u32, "a table among others");
numeric_id::define_id!(pub(crate) AtomId, u32, "an atom of a query");
numeric_id::define_id!(pub(crate) Variable, u32, "a variable of a query");

/// An argument of a query.
#[allow(dead_code)]
pub(crate) enum QueryEntry {
    Var(Variable),
    Const(Value),
}
