//! The Rust answers what it does not expect with a panic; here it becomes a value.

use std::any::Any;
use std::cell::Cell;
use std::panic::{self, AssertUnwindSafe};
use std::sync::Once;

thread_local! {
    static EXPECTED: Cell<bool> = const { Cell::new(false) };
}

static SILENCE_EXPECTED: Once = Once::new();

/// How the Rust refused.
#[derive(Clone, Debug, PartialEq)]
pub struct Panic {
    pub message: String,
    /// The page it had read last, NONE if it had read none.
    pub last_read: u64,
}

/// Runs `work`, and returns the message if it panics. Nothing is printed for such a panic; panics
/// elsewhere, which are mistakes of the harness, are still reported as usual.
pub fn catching<T>(work: impl FnOnce() -> T) -> Result<T, String> {
    SILENCE_EXPECTED.call_once(|| {
        let usual = panic::take_hook();
        panic::set_hook(Box::new(move |info| {
            if !EXPECTED.with(Cell::get) {
                usual(info)
            }
        }));
    });
    EXPECTED.with(|expected| expected.set(true));
    // A store left half written by a panic is whole pages all the same, and callers may look at it.
    let outcome = panic::catch_unwind(AssertUnwindSafe(work));
    EXPECTED.with(|expected| expected.set(false));
    outcome.map_err(message_of)
}

fn message_of(payload: Box<dyn Any + Send>) -> String {
    match payload.downcast::<String>() {
        Ok(text) => *text,
        Err(payload) => match payload.downcast::<&'static str>() {
            Ok(text) => text.to_string(),
            Err(_) => "a panic without a message".to_string(),
        },
    }
}
