//! A list at any address, and what lies around it.

use crate::answer::{Answer, caught};
use crate::choices::{Choices, Random};
use crate::items::Item;

/// A cache line.
#[repr(align(64))]
#[derive(Clone, Copy)]
struct Line([u8; 64]);

/// A list that begins anywhere in a cache line, with at least a line before and after it. No call may touch these lines.
pub struct List {
    lines: Vec<Line>,
    start: usize,
    len: usize,
    size: usize,
}

impl List {
    /// A list of so many items. They are the numbers from 0 on, or random bytes.
    pub fn chosen(choices: &mut Choices, item: &Item, items: usize) -> Self {
        let mut list = List {
            lines: vec![Line([0; 64]); 3 + items * item.size / 64],
            start: 64 + choices.below(64 / item.align) * item.align,
            len: items * item.size,
            size: item.size,
        };
        match choices.below(1 << 16) {
            0 => list.number(),
            seed => list.fill(Random::new(seed as u64)),
        }
        list
    }

    fn number(&mut self) {
        let (start, len, size) = (self.start, self.len, self.size);
        for (i, item) in bytes_mut(&mut self.lines)[start..][..len].chunks_mut(size).enumerate() {
            for (byte, digits) in item.iter_mut().zip(i.to_le_bytes()) {
                *byte = digits;
            }
        }
    }

    fn fill(&mut self, mut random: Random) {
        for Line(bytes) in &mut self.lines {
            for bytes in bytes.chunks_mut(8) {
                bytes.copy_from_slice(&random.next().to_le_bytes());
            }
        }
    }

    pub fn bytes(&self) -> &[u8] {
        &bytes(&self.lines)[self.start..][..self.len]
    }

    /// Where the list begins in the bytes of an answer, and the size of its items.
    pub fn place(&self) -> (usize, usize) {
        (self.start, self.size)
    }

    /// How many bytes after a multiple of 64 the list begins.
    pub fn offset(&self) -> usize {
        self.start - 64
    }

    /// The list, with the bytes around it, after a call on a copy.
    pub fn after(&self, call: impl FnOnce(&mut [u8])) -> Answer {
        let mut lines = self.lines.clone();
        let list = &mut bytes_mut(&mut lines)[self.start..][..self.len];
        match caught(|| call(list)) {
            Ok(()) => Answer::Bytes(bytes(&lines).to_vec()),
            Err(text) => Answer::Panic(text),
        }
    }
}

fn bytes(lines: &[Line]) -> &[u8] {
    // SAFETY: the pointer and the length are those of a shared slice. A line is 64 bytes, with nothing between lines.
    unsafe { std::slice::from_raw_parts(lines.as_ptr().cast(), size_of_val(lines)) }
}

fn bytes_mut(lines: &mut [Line]) -> &mut [u8] {
    // SAFETY: as in `bytes`, of an exclusive slice.
    unsafe { std::slice::from_raw_parts_mut(lines.as_mut_ptr().cast(), size_of_val(lines)) }
}
