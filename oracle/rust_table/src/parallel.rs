//! Replaces `core-relations/src/parallel`, with one thread: loops.

use crate::numeric_id::{IdVec, NumericId};

pub fn current_num_threads() -> usize {
    1
}

pub fn map<T, R>(items: &[T], task: impl Fn(usize, &T) -> R) -> Vec<R> {
    (0..).zip(items).map(|(i, item)| task(i, item)).collect()
}

pub fn map_mut<T, R>(items: &mut [T], task: impl Fn(usize, &mut T) -> R) -> Vec<R> {
    (0..).zip(items).map(|(i, item)| task(i, item)).collect()
}

pub fn map_chunks_mut<T, R>(items: &mut [T], task: impl Fn(usize, &mut [T]) -> R) -> Vec<R> {
    vec![task(0, items)]
}

pub fn for_each_mut<T>(items: &mut [T], task: impl Fn(usize, &mut T)) {
    (0..).zip(items).for_each(|(i, item)| task(i, item));
}

pub fn for_each_id_vec_mut<K: NumericId, V>(items: &mut IdVec<K, V>, task: impl Fn(K, &mut V)) {
    items.iter_mut().for_each(|(id, item)| task(id, item));
}
