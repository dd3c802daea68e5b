//! Counts the instructions that a run completes.
use std::cell::Cell;

thread_local! {
    static COMPLETED: Cell<u64> = const { Cell::new(0) };
}

pub fn reset() {
    COMPLETED.set(0);
}

/// Called by the evaluation loop once for each completed instruction.
pub fn completed() {
    COMPLETED.set(COMPLETED.get() + 1);
}

pub fn count() -> u64 {
    COMPLETED.get()
}
