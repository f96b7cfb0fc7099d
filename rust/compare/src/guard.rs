//! Catches a panic of the independent version, so that it counts as a failure of its case and does not end the run.
//! A panic anywhere else still ends the run with its message.

use std::cell::{Cell, RefCell};
use std::panic::{catch_unwind, set_hook, take_hook, AssertUnwindSafe};

thread_local! {
    static GUARDED: Cell<bool> = const { Cell::new(false) };
    static MESSAGE: RefCell<String> = const { RefCell::new(String::new()) };
}

/// Sets the hook that keeps a guarded panic's message, with its place, in place of printing it.
pub fn install() {
    let usual = take_hook();
    set_hook(Box::new(move |info| {
        if GUARDED.get() {
            MESSAGE.set(info.to_string());
        } else {
            usual(info);
        }
    }));
}

/// Runs a call, and answers the message where it panicked.
pub fn guarded<T>(call: impl FnOnce() -> T) -> Result<T, String> {
    GUARDED.set(true);
    // What a panic leaves half done is thrown away: the case has failed, and nothing reads its memory any more.
    let outcome = catch_unwind(AssertUnwindSafe(call));
    GUARDED.set(false);
    outcome.map_err(|_| MESSAGE.take())
}
