//! What both crates did with an input, and how this differs.

use std::panic::{AssertUnwindSafe, catch_unwind, set_hook, take_hook};

/// What a call left or returned, as bytes or as text, or the text of its panic.
pub enum Answer {
    Bytes(Vec<u8>),
    Text(String),
    Panic(String),
}

/// The result of a call, or the text of its panic.
pub fn caught<R>(call: impl FnOnce() -> R) -> Result<R, String> {
    // Prints nothing about a panic of the call.
    let hook = take_hook();
    set_hook(Box::new(|_| {}));
    let result = catch_unwind(AssertUnwindSafe(call));
    set_hook(hook);
    result.map_err(|payload| {
        let text = payload.downcast_ref::<&str>().map(|text| text.to_string());
        text.or_else(|| payload.downcast_ref::<String>().cloned()).unwrap_or_default()
    })
}

impl Answer {
    /// What the call returns, as text.
    pub fn text(call: impl FnOnce() -> String) -> Self {
        caught(call).map_or_else(Answer::Panic, Answer::Text)
    }
}

/// Which of the two crates.
#[derive(Clone, Copy)]
pub enum Side {
    Package,
    Original,
}

/// A call, and the answer of each crate to it.
pub struct Compared {
    pub call: String,
    pub answer: Box<dyn Fn(Side) -> Answer>,
    /// Where a list begins in the bytes, and the number of bytes of an item.
    pub list: (usize, usize),
}

impl Compared {
    /// Makes the call by both crates. Returns the call and the first difference of the answers, if there is one. The text
    /// of a panic of the package begins with the original's, and may say more.
    pub fn difference(&self) -> Option<String> {
        let differs = match (&(self.answer)(Side::Package), &(self.answer)(Side::Original)) {
            (Answer::Bytes(a), Answer::Bytes(b)) => (a != b).then(|| self.of_bytes(a, b)),
            (Answer::Text(a), Answer::Text(b)) => (a != b).then(|| both(a, b)),
            (Answer::Panic(a), Answer::Panic(b)) => (!a.starts_with(b)).then(|| both(a, b)),
            (Answer::Panic(a), _) => Some(both(&format!("panics with: {a}"), "returns")),
            (_, Answer::Panic(b)) => Some(both("returns", &format!("panics with: {b}"))),
            _ => unreachable!("a call has bytes or a text"),
        };
        Some(format!("  {}\n{}", self.call, differs?))
    }

    /// The first item that differs, or the first byte outside the list.
    fn of_bytes(&self, package: &[u8], original: &[u8]) -> String {
        let (start, size) = self.list;
        let at = package.iter().zip(original).take_while(|(a, b)| a == b).count();
        let Some(item) = at.checked_sub(start).map(|at| at / size) else {
            return format!("  a byte before the list differs, {} before it", start - at);
        };
        let bytes = start + item * size..package.len().min(start + (item + 1) * size);
        format!(
            "  item {item}, or what follows the list:\n{}",
            both(&format!("{:x?}", &package[bytes.clone()]), &format!("{:x?}", &original[bytes]))
        )
    }
}

fn both(package: &str, original: &str) -> String {
    format!("    package:  {package}\n    original: {original}")
}
