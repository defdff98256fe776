//! A user's project under the overlay. The project and its dependency run the proved calls, or on other systems those
//! of the original. It prints which build is in use.

use std::fmt::Debug;
use std::sync::atomic::Ordering::Relaxed;

use p3_util::*;

const IS_PROVED: bool = PROVED_BUILD.is_some();
const LOG: usize = log2_strict_usize(1 << 9);

/// Reverses items that `item` makes.
fn reverses<T: Debug + PartialEq + Send + Sync>(item: impl Fn(u8) -> T) {
    let items = |numbers: [u8; 8]| Vec::from(numbers.map(&item));
    let list = items([0, 1, 2, 3, 4, 5, 6, 7]);
    assert_eq!(tree::reversed(list), items([0, 4, 2, 6, 1, 5, 3, 7]));
}

/// Reverses and transposes items that `item` makes.
fn moves<T: Copy + Debug + PartialEq + Send + Sync>(item: impl Fn(u8) -> T) {
    let items = |numbers: [u8; 6]| numbers.map(&item);
    reverses(&item);
    assert_eq!(tree::transposed(&items([1, 2, 3, 4, 5, 6]), 3), items([1, 4, 2, 5, 3, 6]));
}

/// What the proved package has in addition to the original's names. The project does not depend on the package itself.
#[cfg(target_pointer_width = "64")]
fn calls_of_the_package() {
    use p3_util::proved::{
        kernels::places::{SlicePlaces, Swaps},
        kernels::reverse::reverse_index_bits_on,
        parts, reverse_slice_row_index_bits,
    };

    let mut rows = [0, 1, 10, 11, 20, 21, 30, 31];
    reverse_slice_row_index_bits(&mut rows, 2);
    assert_eq!(rows, [0, 1, 20, 21, 10, 11, 30, 31]);
    parts::row_reversal(&mut rows, 2, 3).for_each(|part| part.run());
    assert_eq!(rows, [0, 1, 10, 11, 20, 21, 30, 31]);
    let mut swaps = Swaps::new(SlicePlaces::new(&mut rows));
    reverse_index_bits_on(&mut swaps);
    assert_eq!(swaps.swaps(), 2);
}

#[cfg(not(target_pointer_width = "64"))]
fn calls_of_the_package() {}

/// Results that the stand-in for the original never returns.
fn right_answers() -> [bool; 15] {
    let chunks: Vec<[u8; 2]> = iter_array_chunks_padded([1, 2, 3], 0).collect();
    [
        LOG == 9,
        tree::LOG_ROWS == 5,
        log2_ceil_usize(9) == 4,
        log2_ceil_u64(9) == 4,
        log2_floor_usize(9) == 3,
        log3_strict_usize(27) == 3,
        checked_pow2(5) == Some(32),
        checked_log_size_sum(1, 2) == Some((3, 8)),
        indices_arr() == [0, 1],
        reverse_bits(1, 8) == 4,
        reverse_bits_len(1, 3) == 4,
        pretty_name::<Vec<u8>>() == "Vec<u8>",
        chunks == [[1, 2], [3, 0]],
        zip_eq::zip_eq([1], [2], ()).is_ok(),
        zip_eq::zip_eq([1], [2, 3], 7).err() == Some(7) && IS_PROVED,
    ]
}

/// Five calls that return nothing.
fn calls() {
    apply_to_chunks::<2, _, _>([1, 2, 3], |_| ());
    branch_hint();
    assert_clone::<u8>();
    assert_send::<u8>();
    assert_sync::<u8>();
}

fn main() {
    moves(|i| i);
    moves(|i| [i; 3]);
    moves(|i| [i; 7]);
    moves(|i| [u32::from(i); 9]);
    reverses(|i| vec![i; 5]);
    calls_of_the_package();
    calls();
    // Only the call of branch_hint, or all of them.
    let originals = if IS_PROVED { 1 } else { 2 * 4 + 1 + 5 };
    assert_eq!(CALLS.load(Relaxed), originals);
    assert_eq!(right_answers(), [IS_PROVED; 15]);
    // Items that are the original's on every system.
    let _ = linear_map::OfTheOriginal;
    assert_eq!(Kept::default().0, 0);
    const { assert!(PARALLEL) };
    println!("{}", PROVED_BUILD.unwrap_or("the original"));
}

#[test]
fn runs() {
    main();
}
