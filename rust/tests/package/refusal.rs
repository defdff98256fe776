//! Panics that are caught.

#![allow(dead_code, reason = "a test program may use only some of this")]

use std::cell::Cell;
use std::panic::{AssertUnwindSafe, catch_unwind, set_hook, take_hook};
use std::sync::Once;

/// The text of a panic, and the file and the line that it names.
#[derive(Debug, PartialEq)]
pub struct Refusal {
    pub text: String,
    pub file: String,
    pub line: u32,
}

thread_local! {
    /// Whether a panic of this thread is expected, which means that it is caught and not shown.
    static EXPECTED: Cell<bool> = const { Cell::new(false) };

    /// The file and the line that the last panic named.
    static PLACE: Cell<Option<(String, u32)>> = const { Cell::new(None) };
}

/// The panic of `call`, if it panics.
pub fn refusal(call: impl FnOnce()) -> Option<Refusal> {
    static HOOK: Once = Once::new();
    HOOK.call_once(|| {
        let shown = take_hook();
        set_hook(Box::new(move |info| match info.location() {
            Some(at) if EXPECTED.get() => PLACE.set(Some((at.file().to_owned(), at.line()))),
            _ => shown(info),
        }));
    });
    EXPECTED.set(true);
    let outcome = catch_unwind(AssertUnwindSafe(call));
    EXPECTED.set(false);
    let payload = outcome.err()?;
    let text = match payload.downcast_ref::<String>() {
        Some(text) => text.clone(),
        None => payload.downcast_ref::<&str>()?.to_string(),
    };
    let (file, line) = PLACE.take()?;
    Some(Refusal { text, file, line })
}

/// The text of the original's panic if it transposes lists of these lengths and `width * height` is `product`. It names
/// the first length that does not fit.
pub fn text_of_transpose(input: usize, output: usize, product: u128) -> Option<String> {
    let lengths = [("Input", input), ("Output", output)];
    let (name, len) = lengths.into_iter().find(|(_, len)| *len as u128 != product)?;
    Some(format!(
        "assertion `left == right` failed: {name} length {len} doesn't match width*height = {product}\n  left: {len}\n right: {product}"
    ))
}

/// Whether `call` panics.
pub fn panics(call: impl FnOnce()) -> bool {
    refusal(call).is_some()
}
