//! Stands for the crate crossbeam-queue: a queue that is shared, first in, first out.

use std::collections::VecDeque;
use std::sync::Mutex;

pub struct SegQueue<T>(Mutex<VecDeque<T>>);

impl<T> Default for SegQueue<T> {
    fn default() -> Self {
        SegQueue(Mutex::default())
    }
}

impl<T> SegQueue<T> {
    pub fn push(&self, item: T) {
        self.0.lock().unwrap().push_back(item);
    }

    pub fn pop(&self) -> Option<T> {
        self.0.lock().unwrap().pop_front()
    }
}
