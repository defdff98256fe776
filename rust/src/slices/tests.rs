//! Tests what each step of a holder of a slice does. With debug assertions, and with the feature `checked`, each step
//! also checks its precondition.

#![cfg(target_pointer_width = "64")]

use std::array::from_fn;
use std::boxed::Box;
use std::fmt::Debug;
#[cfg(any(debug_assertions, feature = "checked"))]
use std::panic::{AssertUnwindSafe, catch_unwind};
use std::vec::Vec;

use super::holders::{SliceItems, SliceSource};
use crate::kernels::bulk::{Block, Blocked, Tiled};
use crate::kernels::places::{Cells, Places, Source};

#[cfg(not(feature = "checked"))]
mod lines;
#[cfg(not(feature = "checked"))]
mod registers;
#[cfg(not(feature = "checked"))]
pub(super) use registers::*;

/// Makes the holder of a list that is tested.
pub(super) trait Hold<'a, T> {
    type Holder: Tiled;

    fn hold(list: &'a mut [T]) -> Self::Holder;
}

/// Makes the source for such a holder, too.
pub(super) trait Put<T: Copy>: for<'a> Hold<'a, T, Holder: Blocked<Item = Self::Cell>> {
    type Cell: Copy;

    fn source(list: &[T]) -> SliceSource<'_, Self::Cell>;
}

/// The holder that makes single steps.
pub(super) struct Singly;

impl<'a, T: 'a> Hold<'a, T> for Singly {
    type Holder = SliceItems<'a, T>;

    fn hold(list: &'a mut [T]) -> SliceItems<'a, T> {
        SliceItems::new(list)
    }
}

impl<T: Copy + 'static> Put<T> for Singly {
    type Cell = T;

    fn source(list: &[T]) -> SliceSource<'_, T> {
        SliceSource::new(list)
    }
}

/// A statement about each holder of such items: that of single steps, and that of registers if there is one.
macro_rules! of_each_holder {
    ($item:ty, $hold:ident => $statement:expr) => {{
        {
            type $hold = Singly;
            $statement;
        }
        #[cfg(not(feature = "checked"))]
        of_each_holder!(@ $item, $hold => $statement,
            1: Items<1>, 2: Pair<Items<2>>, 4: Pair<Items<4>>, 8: Pair<Items<8>>, 16: Two<Vector>);
    }};
    (@ $item:ty, $hold:ident => $statement:expr, $($bytes:literal: $rows:ty),*) => {
        match size_of::<$item>() {
            $($bytes if USES_REGISTERS => {
                type $hold = ByRegisters<$bytes, $rows>;
                $statement;
            })*
            _ => {}
        }
    };
}
#[cfg(all(target_os = "linux", not(feature = "checked")))]
pub(super) use of_each_holder;

/// Exchanges items, runs and tiles by a holder, and in another list by std. The rows of the tiles lie in a mixed order, next to each
/// other or apart.
fn exchanges<T: Debug + PartialEq, H: for<'a> Hold<'a, T>>(item: impl Fn(usize) -> T) {
    for gap in 0..3 {
        let start = |number: usize| number * 7 % 16 * (8 + gap) + gap;
        let (x, y): ([usize; 8], [usize; 8]) = (from_fn(start), from_fn(|row| start(8 + row)));
        let list = || (0..16 * (8 + gap) + gap).map(&item).collect::<Vec<T>>();
        let (mut list, mut wanted) = (list(), list());
        let mut places = H::hold(&mut list);
        places.exchange(3, 3);
        places.exchange(70, 3);
        wanted.swap(3, 70);
        places.exchange_runs(x[0], y[3], 5);
        (0..5).for_each(|k| wanted.swap(x[0] + k, y[3] + k));
        places.exchange_tiles(x, y);
        places.turn_tile(x);
        drop(places);
        let pairs = || (0..8).flat_map(|row| (0..8).map(move |col| (row, col)));
        pairs().for_each(|(row, col)| wanted.swap(x[row] + col, y[col] + row));
        pairs().filter(|(row, col)| row < col).for_each(|(row, col)| wanted.swap(x[row] + col, x[col] + row));
        assert_eq!(list, wanted);
    }
}

/// An item of `4 * N` bytes, whose parts of 4 bytes differ.
fn parts<const N: usize>(number: usize) -> [u32; N] {
    from_fn(|part| (number * N + part) as u32)
}

/// For items of 5 bytes, std tests that no place is borrowed twice if debug assertions are on.
#[test]
fn exchanges_of_blocks() {
    macro_rules! of {
        ($($item:ty, $make:expr;)*) => {
            $(of_each_holder!($item, Holder => exchanges::<$item, Holder>($make));)*
        };
    }
    of! {
        u8, |number| number as u8;
        (u8, u8), |number| (number as u8, !number as u8);
        [u8; 3], |number| [number as u8, 3, !number as u8];
        [u8; 5], |number| [number as u8; 5];
        (u16, u8), |number| (number as u16, number as u8);
        (u32, bool), |number| (number as u32, number % 3 == 0);
        Box<usize>, Box::new;
        u128, |number| number as u128;
        [u32; 3], parts;
        [u32; 5], parts;
        [u32; 11], parts;
        [u32; 16], parts;
    }
}

/// Puts items of `4 * N` bytes side by side, and reads them. The cells next to them keep theirs.
#[test]
fn puts_by_parts() {
    fn puts<const N: usize>() {
        let mut list = [[u32::MAX; N]; 5];
        for i in [3, 1, 2] {
            SliceItems::new(&mut list).put(i, parts(i));
        }
        assert_eq!(list, [[u32::MAX; N], parts(1), parts(2), parts(3), [u32::MAX; N]]);
        assert_eq!(from_fn(|i| SliceSource::new(&list).at(i)), list);
    }
    macro_rules! of {
        ($($words:literal)*) => { $(puts::<$words>();)* };
    }
    of!(1 2 3 4 5 6 7 8 9 10 11 12 13 14 15 16 17 18);
}

/// A block of items whose rows begin at `from`, `width` places apart, and whose columns are put from `to` on, `height` places apart.
pub(super) fn block([rows, cols]: [usize; 2], [from, width]: [usize; 2], [to, height]: [usize; 2]) -> Block {
    Block { rows, cols, from, width, to, height }
}

/// Puts a block by a holder.
pub(super) fn put_block<T: Copy, H: Put<T>>(cells: &mut [T], source: &[T], block: Block) {
    H::hold(cells).put_block(&H::source(source), block);
}

/// Puts blocks of many shapes with each holder. All other cells keep their items.
#[test]
fn blocks_as_defined() {
    fn puts<T: Copy + PartialEq + 'static>(item: impl Fn(usize) -> T) {
        let most = if cfg!(miri) { 9 } else { 17 };
        let shapes = (1..=most).flat_map(|rows| (1..=most).map(move |cols| (rows, cols)));
        of_each_holder!(T, Holder => for (rows, cols) in shapes.clone() {
            let source: Vec<T> = (0..3 + rows * (cols + 2)).map(&item).collect();
            let mut cells = std::vec![item(usize::MAX); 5 + cols * (rows + 1)];
            put_block::<T, Holder>(&mut cells, &source, block([rows, cols], [3, cols + 2], [5, rows + 1]));
            for (place, got) in cells.into_iter().enumerate() {
                let wanted = match place.checked_sub(5).map(|cell| (cell % (rows + 1), cell / (rows + 1))) {
                    Some((row, col)) if row < rows => source[3 + row * (cols + 2) + col],
                    _ => item(usize::MAX),
                };
                assert!(got == wanted, "place {place}, a block of {rows} rows and {cols} columns");
            }
        });
    }
    puts(|i| (i >> 4) as u8 ^ i as u8);
    puts(|i| i as u16);
    puts(|i| i as u32);
    puts(|i| i as u64);
    puts(|i| i as u128);
    puts(|i| (i as u8, (i >> 8) as u16));
}

#[cfg(any(debug_assertions, feature = "checked"))]
fn panics(call: impl FnOnce()) -> bool {
    catch_unwind(AssertUnwindSafe(call)).is_err()
}

/// The preconditions that each step tests.
#[cfg(any(debug_assertions, feature = "checked"))]
mod preconditions {
    use super::*;

    #[test]
    fn exchanges() {
        let refused = |i, j| panics(|| SliceItems::new(&mut [[7u8; 5]; 6]).exchange(i, j));
        assert!(!refused(5, 0));
        for (i, j) in [(6, 0), (0, 6), (6, 6), (usize::MAX, 0), (0, usize::MAX)] {
            assert!(refused(i, j), "{i} {j}");
        }
    }

    #[test]
    fn exchanges_of_runs() {
        let refused = |i, j, len| panics(|| SliceItems::new(&mut [[7u8; 5]; 6]).exchange_runs(i, j, len));
        assert!(!refused(0, 4, 2) && !refused(6, 0, 0));
        let outside = [(0, 5, 2), (5, 0, 2), (0, 3, 7), (7, 0, 0), (usize::MAX, 0, 2), (0, usize::MAX, 2)];
        let overlapping = [(2, 2, 1), (2, 3, 2), (3, 1, 3), (0, 0, usize::MAX)];
        for (i, j, len) in outside.into_iter().chain(overlapping) {
            assert!(refused(i, j, len), "{i} {j} {len}");
        }
    }

    #[test]
    fn tiles() {
        let rows = |first: usize| from_fn(|row| first.wrapping_add(8 * row));
        of_each_holder!(u32, Holder => {
            let refused = |x, y| panics(|| Holder::hold(&mut [0u32; 130]).exchange_tiles(rows(x), rows(y)));
            assert!(!refused(0, 64) && !refused(66, 2));
            for (x, y) in [(0, 67), (67, 0), (0, usize::MAX - 60), (usize::MAX - 60, 0)] {
                assert!(refused(x, y), "{x} {y}");
            }
            let refused = |x| panics(|| Holder::hold(&mut [0u32; 66]).turn_tile(rows(x)));
            assert_eq!([0, 2, 4, usize::MAX - 60].map(refused), [false, false, true, true]);
        });
    }

    #[test]
    fn blocks() {
        of_each_holder!(u32, Holder => {
            let refused = |change: fn(&mut Block)| {
                let mut block = block([4, 4], [1, 6], [2, 5]);
                change(&mut block);
                panics(|| put_block::<u32, Holder>(&mut [0; 21], &[0; 23], block))
            };
            assert!(!refused(|_| ()));
            assert!(refused(|block| block.from += 1) && refused(|block| block.from = usize::MAX));
            assert!(refused(|block| block.to += 1) && refused(|block| block.to = usize::MAX));
            assert!(refused(|block| block.width += 1) && refused(|block| block.width = usize::MAX));
            assert!(refused(|block| block.height += 1) && refused(|block| block.height = usize::MAX));
            assert!(refused(|block| block.rows += 1) && refused(|block| block.cols += 1));
        });
    }

    #[test]
    fn puts_and_reads() {
        for i in [3, usize::MAX] {
            assert!(panics(|| SliceItems::new(&mut [0, 1, 2]).put(i, 7)), "{i}");
            assert!(panics(|| _ = SliceSource::new(&[0, 1, 2]).at(i)), "{i}");
        }
    }

    #[test]
    fn copies_of_another_length() {
        use crate::kernels::calls::Output;

        for len in 0..6 {
            let copy = || _ = SliceItems::new(&mut [0; 3]).copy(SliceSource::new(&[7; 6][..len]));
            assert_eq!(panics(copy), len != 3, "{len}");
        }
    }
}

/// With the feature `checked`, a share of a list gives access only to its own places, which have the same indices as in
/// the list.
#[cfg(feature = "checked")]
#[test]
fn shares() {
    use crate::kernels::parts::Shared;

    let mut list = [0, 1, 2, 3, 4];
    let mut items = SliceItems::in_shares(&mut list, 3);
    let (mut first, mut second) = (items.share(), items.share());
    first.put(2, 7);
    first.exchange(0, 1);
    second.put(3, 8);
    second.exchange(3, 4);
    assert_eq!([Cells::len(&first), Cells::len(&second), Places::len(&second)], [5; 3]);
    let refuses = |share: &mut SliceItems<i32>, inside: usize, outside: &[usize]| {
        for outside in outside {
            assert!(panics(|| share.put(*outside, 9)), "{outside}");
            assert!(panics(|| share.exchange(inside, *outside)), "{inside} {outside}");
            assert!(panics(|| share.exchange(*outside, inside)), "{outside} {inside}");
            assert!(panics(|| share.exchange(*outside, *outside)), "{outside}");
        }
    };
    refuses(&mut first, 1, &[3, 4, 5, usize::MAX]);
    refuses(&mut second, 4, &[0, 2, 5, 6, usize::MAX]);
    // Without places, every one is outside.
    refuses(&mut items, 5, &[0, 3, 4, 5, usize::MAX]);
    assert_eq!(list, [1, 0, 7, 4, 8]);
}

/// The parts of a reversal exchange rows of a usual size as a whole, single items too, and other rows as runs of bytes.
#[test]
fn places_of_parts() {
    fn place<const N: usize>(row_width: usize) -> usize {
        super::instances::bytes_of_place(N, N * row_width)
    }
    let moves_bytes = cfg!(all(any(target_arch = "x86_64", target_arch = "aarch64"), not(unaligned_is_slow)));
    if cfg!(feature = "checked") || !moves_bytes {
        assert_eq!([place::<3>(4), place::<4>(4)], [3, 4]);
        return;
    }
    assert_eq!([1, 2, 4, 8, 32].map(place::<4>), [4, 8, 16, 32, 1]);
    assert_eq!([1, 2, 4, 64].map(place::<3>), [3, 1, 12, 1]);
    assert_eq!([place::<48>(1), place::<64>(2)], [48, 1]);
    assert_eq!([place::<1023>(1), place::<1024>(1)], [1023, 1]);
}
