//! Requests for more than all memory fail. The error types and strings implement the traits that those of std
//! implement.

use core::error::Error;
use std::boxed::Box;
use std::format;

use super::{AllocError, Global, String, Vec};
use crate::kernels::NoRoom;

#[test]
fn more_than_all_memory() {
    assert_eq!(Vec::<u16>::with_capacity(Global, usize::MAX), Err(AllocError));
    assert_eq!(Vec::<u16>::new(Global).reserve(usize::MAX), Err(AllocError));
    assert_eq!(String::with_capacity(Global, usize::MAX), Err(AllocError));
}

#[test]
fn refusals_are_errors() {
    let refusals: [Box<dyn Error>; 2] = [AllocError.into(), NoRoom { given: (1, "a") }.into()];
    for refusal in refusals {
        assert_eq!(format!("{refusal}"), "memory allocation failed");
    }
}

/// The length in bytes of a text that is passed without an explicit conversion.
fn bytes(text: impl AsRef<str>) -> usize {
    text.as_ref().len()
}

#[test]
fn texts_are_read_as_std_has_them() {
    let text = text_of("a\"b");
    assert_eq!((&*text, text.len(), text.find('b')), ("a\"b", 3, Some(2)));
    assert_eq!((format!("{text:>5}"), format!("{text:?}")), ("  a\"b".into(), r#""a\"b""#.into()));
    assert_eq!((text.clone(), bytes(text)), (text_of("a\"b"), 3));
}

fn text_of(given: &str) -> String {
    let mut text = String::with_capacity(Global, 0).unwrap();
    text.push_str(given).unwrap();
    text
}
