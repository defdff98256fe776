//! What several test programs need: the definitions of the calls, and items that count their drops.

#![allow(dead_code, reason = "a test program may use only some of this")]

use std::sync::atomic::{AtomicUsize, Ordering::Relaxed};

/// `i`, which has at most `bits` binary digits, with these digits in reversed order.
pub fn reversed(bits: u32, i: usize) -> usize {
    (0..bits).fold(0, |rev, place| rev << 1 | i >> place & 1)
}

/// Which item of a matrix of `width` by `height` items its transpose has at `place`: the index of the item in the
/// matrix.
pub fn transposed(width: usize, height: usize, place: usize) -> usize {
    place % height * width + place / height
}

/// A number that cannot be cloned and that counts its drops. Two owners are equal if their numbers are.
#[derive(Debug)]
pub struct Owner<'a> {
    pub number: usize,
    drops: &'a AtomicUsize,
}

impl<'a> Owner<'a> {
    pub fn new(number: usize, drops: &'a AtomicUsize) -> Self {
        Owner { number, drops }
    }

    /// One owner for each number below `count`.
    pub fn list(count: usize, drops: &'a AtomicUsize) -> Vec<Self> {
        (0..count).map(|number| Owner::new(number, drops)).collect()
    }

    /// How often owners with this counter were dropped. A closure that calls this captures the whole owner, not only
    /// its fields.
    pub fn dropped(&self) -> usize {
        self.drops.load(Relaxed)
    }
}

impl Drop for Owner<'_> {
    fn drop(&mut self) {
        self.drops.fetch_add(1, Relaxed);
    }
}

impl PartialEq for Owner<'_> {
    fn eq(&self, other: &Self) -> bool {
        self.number == other.number
    }
}

impl Eq for Owner<'_> {}
