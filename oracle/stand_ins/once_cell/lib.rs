//! Stands for the crate once_cell: the standard library has the same by now.

pub mod sync {
    pub use std::sync::LazyLock as Lazy;
}
