//! Runs a part of the original that may panic, and hands back what the panic says. The message of such a panic is kept from the output; any other
//! panic is a fault of the driver and is printed as usual.

use std::any::Any;
use std::cell::Cell;
use std::panic::{catch_unwind, set_hook, take_hook, AssertUnwindSafe};
use std::sync::Once;

thread_local! {
    static CAUGHT: Cell<bool> = const { Cell::new(false) };
}

static HOOK: Once = Once::new();

/// What the checked sums of an overflow-checked build say.
pub const SUBTRACT: &str = "attempt to subtract with overflow";
pub const ADD: &str = "attempt to add with overflow";

/// What `run` answers, or the message of its panic. What it holds by reference is left as the panic left it.
pub fn caught<T>(run: impl FnOnce() -> T) -> Result<T, String> {
    HOOK.call_once(keep_caught_quiet);
    CAUGHT.set(true);
    let result = catch_unwind(AssertUnwindSafe(run));
    CAUGHT.set(false);
    result.map_err(|payload| message(payload.as_ref()))
}

fn keep_caught_quiet() {
    let usual = take_hook();
    set_hook(Box::new(move |info| {
        if !CAUGHT.get() {
            usual(info);
        }
    }));
}

fn message(payload: &(dyn Any + Send)) -> String {
    match (payload.downcast_ref::<&str>(), payload.downcast_ref::<String>()) {
        (Some(text), _) => text.to_string(),
        (None, Some(text)) => text.clone(),
        (None, None) => "a panic without a message".to_string(),
    }
}
