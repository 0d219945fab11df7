//! A panic of an implementation is an answer: it is caught and not printed.

use std::any::Any;
use std::cell::Cell;
use std::panic::{self, AssertUnwindSafe};

thread_local! {
    static QUIET: Cell<bool> = const { Cell::new(false) };
}

/// From here on panics inside `guarded` print nothing; all others print as before.
pub fn keep_quiet() {
    let loud = panic::take_hook();
    panic::set_hook(Box::new(move |info| {
        if !QUIET.get() {
            loud(info);
        }
    }));
}

/// The answer, or the words of the panic.
pub fn guarded<T>(call: impl FnOnce() -> T) -> Result<T, String> {
    QUIET.set(true);
    let answer = panic::catch_unwind(AssertUnwindSafe(call));
    QUIET.set(false);
    answer.map_err(words)
}

fn words(panic: Box<dyn Any + Send>) -> String {
    if let Some(text) = panic.downcast_ref::<&str>() {
        return text.to_string();
    }
    match panic.downcast_ref::<String>() {
        Some(text) => text.clone(),
        None => "without words".to_string(),
    }
}
