//! The search limit of the second copy, which stands there in the place of the original's constant.
use std::cell::Cell;

thread_local! {
    static LIMIT: Cell<Option<usize>> = const { Cell::new(None) };
}

pub fn of_this_thread() -> usize {
    LIMIT.get().expect("a limit is set before the second copy is asked")
}

pub fn set(limit: usize) {
    LIMIT.set(Some(limit));
}
