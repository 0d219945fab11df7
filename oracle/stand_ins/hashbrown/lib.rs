//! Stands for the crate hashbrown: the raw `HashTable`, laid out and probed as there. Maps and sets are the standard
//! library's, which are hashbrown inside.

mod group;
pub mod hash_table;

pub use hash_table::HashTable;
pub use std::collections::{HashMap, HashSet};
