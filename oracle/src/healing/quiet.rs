//! Panics that are expected: they are caught, and nothing is printed.

use std::cell::Cell;
use std::panic::{catch_unwind, set_hook, take_hook, AssertUnwindSafe};
use std::sync::Once;

thread_local! {
    /// Whether a panic of this thread is expected.
    static EXPECTED: Cell<bool> = const { Cell::new(false) };
}

/// The hook is put in place once; it prints as ever what is not expected.
static HOOK: Once = Once::new();

/// What a function gives, or what it says when it panics.
pub fn caught<T>(run: impl FnOnce() -> T) -> Result<T, String> {
    HOOK.call_once(|| {
        let before = take_hook();
        set_hook(Box::new(move |panic| {
            if !EXPECTED.get() {
                before(panic);
            }
        }));
    });
    EXPECTED.set(true);
    let result = catch_unwind(AssertUnwindSafe(run));
    EXPECTED.set(false);
    result.map_err(|said| {
        let fixed = said.downcast_ref::<&str>().map(ToString::to_string);
        let made = || said.downcast_ref::<String>().cloned();
        fixed.or_else(made).unwrap_or("something else".into())
    })
}
