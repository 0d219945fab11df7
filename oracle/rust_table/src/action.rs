//! Replaces `core-relations/src/action`: names that the table passes on or has space for. The merge rules here read no
//! other table, so there is no state to execute in.

use crate::{Variable, common::Value, pool::Clear};

#[derive(Clone)]
pub struct ExecutionState;

/// Kept in pools only.
pub struct Instr;

/// Kept in pools only.
#[derive(Default)]
pub struct PredictedVals;

impl Clear for PredictedVals {
    fn clear(&mut self) {}
    fn bytes(&self) -> usize {
        0
    }
}

/// Used by lookups over many bindings at once, which are not part of the comparison.
pub struct Bindings;

impl Bindings {
    pub(crate) fn insert(&mut self, _variable: Variable, _values: &[Value]) {}
}

pub mod mask {
    pub struct Mask;
    pub trait MaskIter {}
    pub trait ValueSource {}
}

macro_rules! for_each_binding_with_mask {
    ($mask:expr, $arguments:expr, $bindings:expr, $body:expr) => {
        unreachable!("lookups over many bindings are not part of the comparison")
    };
}
