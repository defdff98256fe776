//! `Vec` and `String` as the proved sources use them: a call that needs memory returns an error if there is none.

use core::error::Error;
use core::fmt::{self, Debug, Display, Formatter};
use core::ops::{Deref, DerefMut};

use crate::kernels::NoRoom;

/// The program's allocator. A call that allocates takes it as an argument.
#[derive(Clone, Copy, Debug)]
pub struct Global;

/// The error of a call for which there was no memory.
#[derive(Clone, Copy, Debug, PartialEq, Eq)]
pub struct AllocError;

impl Display for AllocError {
    fn fmt(&self, f: &mut Formatter<'_>) -> fmt::Result {
        f.write_str("memory allocation failed")
    }
}

impl Error for AllocError {}

impl<G> Display for NoRoom<G> {
    fn fmt(&self, f: &mut Formatter<'_>) -> fmt::Result {
        Display::fmt(&AllocError, f)
    }
}

impl<G: Debug> Error for NoRoom<G> {}

/// The value of a call that allocates. Panics if there was no memory.
#[inline(always)]
#[track_caller]
pub(crate) fn granted<T, E>(answer: Result<T, E>) -> T {
    let Ok(value) = answer else { panic!("out of memory") };
    value
}

/// A string whose calls return an error if there is no memory. `into` turns it into the `String` of `alloc`.
#[derive(Clone, PartialEq, Eq)]
pub struct String(alloc::string::String);

impl String {
    /// An empty string with room for `bytes` bytes.
    pub fn with_capacity(_: Global, bytes: usize) -> Result<Self, AllocError> {
        let mut text = alloc::string::String::new();
        text.try_reserve_exact(bytes).map_err(|_| AllocError)?;
        Ok(String(text))
    }

    /// Appends `more`.
    pub fn push_str(&mut self, more: &str) -> Result<(), AllocError> {
        self.0.try_reserve(more.len()).map_err(|_| AllocError)?;
        self.0.push_str(more);
        Ok(())
    }
}

impl Deref for String {
    type Target = str;

    fn deref(&self) -> &str {
        &self.0
    }
}

impl AsRef<str> for String {
    fn as_ref(&self) -> &str {
        self
    }
}

impl Debug for String {
    fn fmt(&self, f: &mut Formatter<'_>) -> fmt::Result {
        Debug::fmt(&self.0, f)
    }
}

impl Display for String {
    fn fmt(&self, f: &mut Formatter<'_>) -> fmt::Result {
        Display::fmt(&self.0, f)
    }
}

impl From<String> for alloc::string::String {
    fn from(text: String) -> Self {
        text.0
    }
}

/// A vector whose calls return an error if there is no memory.
#[derive(Debug, PartialEq, Eq)]
pub struct Vec<T>(alloc::vec::Vec<T>);

impl<T> Vec<T> {
    #[inline(always)]
    pub fn new(_: Global) -> Self {
        Vec(alloc::vec::Vec::new())
    }

    pub fn with_capacity(_: Global, items: usize) -> Result<Self, AllocError> {
        let mut list = Vec::new(Global);
        list.0.try_reserve_exact(items).map_err(|_| AllocError)?;
        Ok(list)
    }

    #[inline(always)]
    pub fn reserve(&mut self, items: usize) -> Result<(), AllocError> {
        // Even if there is room, `try_reserve` would be a call.
        let has_room = self.0.capacity() - self.0.len() >= items;
        if has_room { Ok(()) } else { self.0.try_reserve(items).map_err(|_| AllocError) }
    }

    /// Appends `value`. There must be room for it.
    #[inline(always)]
    pub fn push_reserved(&mut self, value: T) {
        self.0.push(value);
    }

    pub fn as_slice(&self) -> &[T] {
        &self.0
    }

    pub fn into_iter(self) -> alloc::vec::IntoIter<T> {
        self.0.into_iter()
    }
}

impl<T> Deref for Vec<T> {
    type Target = [T];

    #[inline(always)]
    fn deref(&self) -> &[T] {
        &self.0
    }
}

impl<T> DerefMut for Vec<T> {
    fn deref_mut(&mut self) -> &mut [T] {
        &mut self.0
    }
}

#[cfg(test)]
mod tests;
