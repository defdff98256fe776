//! What a holder does with registers, which it has without the feature `checked`.

use std::array::from_fn;
use std::mem::MaybeUninit;
use std::vec::Vec;

use super::*;
use crate::kernels::bulk::Ahead;
use crate::kernels::registers::blocks::LinesOfCells;
use crate::kernels::registers::{Loads, Paired, Register, Runs};
pub(in crate::slices) use crate::kernels::registers::{Pair, Two};
use crate::slices::holders::{Bytes, Run};
pub(in crate::slices) use crate::slices::holders::{Items, USES_REGISTERS, Vector};

/// The index in a matrix of `width` columns and `height` rows of the item that its transpose has at `place`.
pub(in crate::slices) fn transposed(width: usize, height: usize, place: usize) -> usize {
    place % height * width + place / height
}

/// The holder that transposes squares of items of `N` bytes in registers.
pub(in crate::slices) struct ByRegisters<const N: usize, D>(D);

impl<'a, T: 'a, const N: usize, D: Register<Bytes<N>, Half: Run>> Hold<'a, T> for ByRegisters<N, D> {
    type Holder = SliceItems<'a, Bytes<N>, D>;

    fn hold(list: &'a mut [T]) -> Self::Holder {
        SliceItems::new(list).in_bytes()
    }
}

impl<T: Copy + 'static, const N: usize, D: Register<Bytes<N>, Half: Run>> Put<T> for ByRegisters<N, D> {
    type Cell = Bytes<N>;

    fn source(list: &[T]) -> SliceSource<'_, Bytes<N>> {
        SliceSource::new(list).in_bytes()
    }
}

/// Puts a block by a holder that stores whole lines past the caches.
pub(in crate::slices) fn put_past_caches<const N: usize, D: Register<Bytes<N>, Half: Run>>(
    cells: &mut [[u8; N]],
    source: &[[u8; N]],
    block: Block,
) {
    let mut cells: SliceItems<Bytes<N>, D, true> = SliceItems::new(cells).in_bytes();
    cells.put_block(&SliceSource::new(source).in_bytes(), block);
}

/// A block of this many rows is stored past the caches only if each of its columns is a line of the output. If it has one column,
/// their distance does not matter. Registers that hold nothing store no block so.
#[test]
fn blocks_of_lines() {
    fn streams<const N: usize, D: Register<Bytes<N>, Half: Run>>() {
        let line = 64 / N;
        let mut list = Aligned([[MaybeUninit::new(0); N]; 600]);
        for (to, height) in (0..=2 * line).flat_map(|to| (line - 2..=3 * line).map(move |height| (to, height))) {
            for cols in [1, 2, line] {
                let block = block([line, cols], [0, line], [to, height]);
                let is_line = to % line == 0 && (cols == 1 || height % line == 0);
                let cells = SliceItems::new(&mut list.0).in_bytes::<N, D, true>();
                assert_eq!(cells.may_stream_lines(block), is_line, "{cols} {to} {height}");
                assert!(!SliceItems::new(&mut list.0).in_bytes::<N, Two<()>, true>().may_stream_lines(block));
            }
        }
    }
    streams::<4, Pair<Items<4>>>();
    streams::<8, Pair<Items<8>>>();
    streams::<16, Two<Vector>>();
}

/// A list that begins where a cache line does.
#[repr(align(64))]
struct Aligned<T>([T; 600]);

/// A list taken as groups of bytes has as many groups as lie within it.
#[test]
fn lists_in_bytes() {
    fn in_groups<const ITEM: usize, const N: usize>() {
        for len in 0..=20 {
            let mut list = std::vec![[0u8; ITEM]; len];
            let source = SliceSource::new(&list).in_bytes::<N>();
            assert_eq!(source.as_slice().unwrap().len(), len * ITEM / N, "{len} of {ITEM} by {N}");
            let places: SliceItems<Bytes<N>> = SliceItems::new(&mut list).in_bytes();
            assert_eq!(Places::len(&places), len * ITEM / N, "{len} of {ITEM} by {N}");
        }
    }
    macro_rules! of {
        ($($item:literal by $bytes:literal)*) => { $(in_groups::<$item, $bytes>();)* };
    }
    of!(1 by 1 1 by 8 2 by 2 3 by 2 5 by 1 12 by 12 20 by 64 64 by 1 64 by 64);
}

/// Each shuffle alone: both interleaves of two registers, and both halves of one, next to those of lists. No two bytes are
/// equal, so the result shows where each of them goes.
#[test]
fn shuffles() {
    fn compare<const N: usize>()
    where
        Items<N>: Paired<Bytes<N>> + Register<Bytes<N>, Half: Run>,
    {
        let lists: [Vec<[u8; N]>; 2] =
            [0, 16].map(|first| (0..16 / N).map(|i| from_fn(|byte| (first + N * i + byte) as u8)).collect());
        let mut list = lists.concat();
        let mut runs: SliceItems<Bytes<N>> = SliceItems::new(&mut list).in_bytes();
        let [a, b] = [0, 16 / N].map(|place| Loads::<Bytes<N>, Pair<Items<N>>>::load(&runs, place));
        Runs::<Bytes<N>, Pair<Items<N>>>::store(&mut runs, 0, a.low(b));
        Runs::<Bytes<N>, Pair<Items<N>>>::store(&mut runs, 16 / N, a.high(b));
        let interleaved: Vec<[u8; N]> = lists[0].iter().zip(&lists[1]).flat_map(|(a, b)| [*a, *b]).collect();
        assert_eq!(list, interleaved);

        let (first, second) = a.halves();
        let first = Items::<N>::from_half(first).halves().0;
        let mut list = lists[0].clone();
        let mut runs: SliceItems<Bytes<N>> = SliceItems::new(&mut list).in_bytes();
        Runs::<Bytes<N>, Items<N>>::store(&mut runs, 0, second);
        Runs::<Bytes<N>, Items<N>>::store(&mut runs, 8 / N, first);
        let swapped = [&lists[0][8 / N..], &lists[0][..8 / N]].concat();
        assert_eq!(list, swapped);
        // From registers, to any address.
        let mut list = [&lists[0][..], &lists[0]].concat();
        let mut runs: SliceItems<Bytes<N>, Items<N>> = SliceItems::new(&mut list).in_bytes();
        Runs::<Bytes<N>, Items<N>>::store(&mut runs, 1, second);
        Runs::<Bytes<N>, Items<N>>::store(&mut runs, 1 + 8 / N, first);
        assert_eq!(list, [&lists[0][..1], &swapped, &lists[0][1..]].concat());
    }

    let has_registers = cfg!(not(unaligned_is_slow))
        && (cfg!(target_arch = "x86_64") || cfg!(all(target_arch = "aarch64", target_endian = "little")));
    assert_eq!(USES_REGISTERS, has_registers && cfg!(not(miri)));
    if USES_REGISTERS {
        compare::<1>();
        compare::<2>();
        compare::<4>();
        compare::<8>();
    }
}

/// Runs of the first 20 items of a longer list, by registers of two rows or of four.
#[cfg(debug_assertions)]
#[test]
fn runs_outside_a_list() {
    fn refuses<const N: usize, D: Register<Bytes<N>, Half: Run>>() {
        let mut list = [[MaybeUninit::new(0); N]; 40];
        let mut places = SliceItems::new(&mut list[..20]);
        let first = Loads::<Bytes<N>, D>::load(&places, 0);
        for place in 0..=20 {
            let is_outside = place + D::SIDE > 20;
            let stores = panics(|| Runs::<Bytes<N>, D>::store(&mut places, place, first));
            let loads = panics(|| _ = Loads::<Bytes<N>, D>::load(&places, place));
            assert_eq!([stores, loads], [is_outside; 2], "{} items at {place}", D::SIDE);
        }
    }
    refuses::<1, Items<1>>();
    refuses::<2, Pair<Items<2>>>();
    refuses::<4, Pair<Items<4>>>();
    refuses::<8, Pair<Items<8>>>();
    refuses::<16, Two<Vector>>();
}

/// A store past the caches has to be inside the list, and aligned to 16 bytes. In a list of 17 items, only the first of these
/// two refuses a store at place 16.
#[cfg(all(debug_assertions, target_arch = "x86_64", not(ordinary_stores), not(miri)))]
#[test]
fn stores_past_the_caches() {
    let mut list = Aligned([0u32; 600]);
    for len in 16..=20 {
        let mut places: SliceItems<Bytes<4>, Pair<Items<4>>, true> = SliceItems::new(&mut list.0[..len]).in_bytes();
        let run = Loads::<Bytes<4>, Pair<Items<4>>>::load(&places, 0);
        for place in 0..=20 {
            let is_wrong = place + 4 > len || place % 4 != 0;
            let call = || Runs::<Bytes<4>, Pair<Items<4>>>::stream(&mut places, place, run);
            assert_eq!(panics(call), is_wrong, "a store at {place} of {len}");
        }
    }
}
