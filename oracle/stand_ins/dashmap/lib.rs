//! Stands for the crate dashmap: a name only, nothing here makes such a map.

use std::marker::PhantomData;

pub struct DashMap<K, V, S>(PhantomData<(K, V, S)>);
