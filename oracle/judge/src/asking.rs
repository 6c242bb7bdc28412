//! Putting one question to the original and bringing back its answer or its panic.

use std::any::Any;
use std::cell::Cell;
use std::cell::RefCell;
use std::fmt;
use std::hint;
use std::panic;
use std::panic::AssertUnwindSafe;
use std::panic::Location;
use std::path::Path;
use std::sync::Once;

/// What the original answers, or how it panics instead.
pub type Answer<T> = Result<T, Panicked>;

/// A panic: its message and the place in the source.
#[derive(Clone, Debug, PartialEq, Eq)]
pub struct Panicked {
    pub message: String,
    pub place: String,
}

impl Panicked {
    /// Whether a sum, a difference or a product passed its type.
    pub fn is_overflow(&self) -> bool {
        self.message.ends_with(" with overflow")
    }

    pub fn is_division_by_zero(&self) -> bool {
        [
            "attempt to divide by zero",
            "attempt to calculate the remainder with a divisor of zero",
        ]
        .contains(&self.message.as_str())
    }
}

impl fmt::Display for Panicked {
    fn fmt(&self, f: &mut fmt::Formatter<'_>) -> fmt::Result {
        write!(f, "panicked: {} ({})", self.message, self.place)
    }
}

thread_local! {
    static ASKING: Cell<bool> = const { Cell::new(false) };
    static PLACE: RefCell<String> = const { RefCell::new(String::new()) };
}

/// Runs `question`, which calls the original, and catches its panic.
pub fn ask<T>(question: impl FnOnce() -> T) -> Answer<T> {
    note_panics_quietly();
    let nested = ASKING.replace(true);
    // What a panic leaves half-done is dropped with the question: the original
    // keeps no state of its own, and callers lend it none that it changes.
    let answer = panic::catch_unwind(AssertUnwindSafe(question));
    ASKING.set(nested);
    answer.map_err(|payload| Panicked {
        message: message_of(&*payload),
        place: PLACE.take(),
    })
}

/// Whether this build sees an overflow of the original as a panic. Where it does
/// not, wrapped numbers pass for answers and nothing should be judged.
pub fn overflow_is_checked() -> bool {
    ask(|| hint::black_box(u8::MAX) + hint::black_box(1)).is_err()
}

/// Has a panic under a question noted instead of printed. Any other panic is
/// reported as before.
fn note_panics_quietly() {
    static HOOK: Once = Once::new();
    HOOK.call_once(|| {
        let report = panic::take_hook();
        panic::set_hook(Box::new(move |panic| {
            if ASKING.get() {
                PLACE.set(panic.location().map(place_of).unwrap_or_default());
            } else {
                report(panic);
            }
        }));
    });
}

/// The file and the line. The original's file has its name alone, since the folders
/// before it are those of this machine.
fn place_of(location: &Location) -> String {
    let path = Path::new(location.file());
    let file = match path.file_name() {
        Some(name) if path.is_absolute() => Path::new(name),
        _ => path,
    };
    format!("{} line {}", file.display(), location.line())
}

fn message_of(payload: &(dyn Any + Send)) -> String {
    payload
        .downcast_ref::<&str>()
        .map(|message| message.to_string())
        .or_else(|| payload.downcast_ref::<String>().cloned())
        .unwrap_or_else(|| "no message".to_owned())
}
