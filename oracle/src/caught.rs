//! Runs purr's code so that its panics become answers.

use std::any::Any;
use std::cell::Cell;
use std::panic::{self, AssertUnwindSafe};

thread_local! {
    static QUIET: Cell<bool> = Cell::new(false);
}

/// Keeps the panics inside `caught` from being printed. All others, which are
/// faults of the oracle itself, are still reported.
pub fn install_hook() {
    let report = panic::take_hook();

    panic::set_hook(Box::new(move |information| {
        if !QUIET.with(Cell::get) {
            report(information)
        }
    }));
}

/// What `work` returns, or the text of its panic. Whatever `work` was changing
/// when it panicked must not be used afterwards.
pub fn caught<T>(work: impl FnOnce() -> T) -> Result<T, String> {
    QUIET.with(|quiet| quiet.set(true));
    let outcome = panic::catch_unwind(AssertUnwindSafe(work));
    QUIET.with(|quiet| quiet.set(false));

    outcome.map_err(|payload| message(payload.as_ref()))
}

// A panic carries a &str if its text is fixed, else a String.
fn message(payload: &(dyn Any + Send)) -> String {
    if let Some(text) = payload.downcast_ref::<&str>() {
        text.to_string()
    } else if let Some(text) = payload.downcast_ref::<String>() {
        text.clone()
    } else {
        "no text".to_string()
    }
}
