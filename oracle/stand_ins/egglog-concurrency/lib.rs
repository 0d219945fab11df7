//! Stands for the crate egglog-concurrency, with one thread: plain locks, and tasks that run where they are spawned.

use std::ops::Deref;
use std::sync::{RwLock, RwLockReadGuard, RwLockWriteGuard};

/// A list that grows through shared access.
pub struct ConcurrentVec<T>(RwLock<Vec<T>>);

impl<T> ConcurrentVec<T> {
    pub fn with_capacity(capacity: usize) -> Self {
        ConcurrentVec(RwLock::new(Vec::with_capacity(capacity)))
    }

    pub fn read(&self) -> Reading<'_, T> {
        Reading(self.0.read().unwrap())
    }

    pub fn push(&self, item: T) -> usize {
        let mut items = self.0.write().unwrap();
        items.push(item);
        items.len() - 1
    }
}

/// Read access to a list as a slice.
pub struct Reading<'a, T>(RwLockReadGuard<'a, Vec<T>>);

impl<T> Deref for Reading<'_, T> {
    type Target = [T];

    fn deref(&self) -> &[T] {
        &self.0
    }
}

#[derive(Default)]
pub struct ReadOptimizedLock<T>(RwLock<T>);

impl<T> ReadOptimizedLock<T> {
    pub fn new(inner: T) -> Self {
        ReadOptimizedLock(RwLock::new(inner))
    }

    pub fn read(&self) -> RwLockReadGuard<'_, T> {
        self.0.read().unwrap()
    }

    pub fn lock(&self) -> RwLockWriteGuard<'_, T> {
        self.0.write().unwrap()
    }

    pub fn as_mut_ref(&mut self) -> &mut T {
        self.0.get_mut().unwrap()
    }
}

/// A list that several writers append to.
pub struct ParallelVecWriter<T>(ConcurrentVec<T>);

impl<T> ParallelVecWriter<T> {
    pub fn new(items: Vec<T>) -> Self {
        ParallelVecWriter(ConcurrentVec(RwLock::new(items)))
    }

    pub fn read_access(&self) -> Reading<'_, T> {
        self.0.read()
    }

    pub fn finish(self) -> Vec<T> {
        self.0.0.into_inner().unwrap()
    }
}

pub mod parallel_writer {
    use super::ParallelVecWriter;
    use std::cell::Cell;

    /// Appends the cells and gives the place of the first.
    pub fn write_cell_slice<T: Copy>(
        writer: &ParallelVecWriter<Cell<T>>,
        cells: &[Cell<T>],
    ) -> usize {
        let mut items = writer.0.0.write().unwrap();
        let start = items.len();
        items.extend_from_slice(cells);
        start
    }
}

pub struct ThreadPool;

impl ThreadPool {
    pub fn new(_threads: usize) -> Self {
        ThreadPool
    }

    pub fn install<R>(&self, task: impl FnOnce() -> R) -> R {
        task()
    }
}

pub struct Scope;

impl Scope {
    pub fn spawn(&self, task: impl FnOnce(&Scope)) {
        task(self)
    }
}

pub fn scope<R>(body: impl FnOnce(&Scope) -> R) -> R {
    body(&Scope)
}
