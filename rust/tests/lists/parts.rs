//! Calls in parts, the last part first or on several threads, compared with the calls and with their definitions.

use std::fmt::Debug;
use std::iter::FusedIterator;
use std::sync::Mutex;
use std::sync::atomic::{AtomicUsize, Ordering::Relaxed};
use std::thread::scope;

use p3_util_proved::parts::*;
use p3_util_proved::reverse_slice_row_index_bits;

use crate::common::{Owner, reversed, transposed};
use crate::refusal::{Refusal, refusal, text_of_transpose};

/// Runs the parts on `threads` threads. Each thread takes the next part when it is done with the one before.
fn run_on<P: Send>(threads: usize, parts: impl Iterator<Item = P> + Send, run: fn(P)) {
    let parts = &Mutex::new(parts);
    let next = || parts.lock().unwrap().next();
    scope(|scope| {
        for _ in 0..threads {
            scope.spawn(|| std::iter::from_fn(next).for_each(run));
        }
    });
}

/// Runs the parts on so many threads, or with 0 on this one, the last part first.
fn run<P: Send>(threads: usize, parts: impl ExactSizeIterator<Item = P> + Send, run: fn(P)) {
    if threads > 0 {
        return run_on(threads, parts, run);
    }
    let wanted = parts.len();
    let parts: Vec<P> = parts.collect();
    assert_eq!(parts.len(), wanted);
    parts.into_iter().rev().for_each(run);
}

/// Transposes the items that `item` makes in parts.
fn check_transpose<T: Copy + Debug + PartialEq + Send + Sync>(
    item: impl Fn(usize) -> T,
    (width, height): (usize, usize),
    parts: usize,
    threads: usize,
) {
    let input: Vec<T> = (0..width * height).map(&item).collect();
    let mut output = vec![item(usize::MAX); input.len()];
    let cut = transpose(&input, &mut output, width, height, parts);
    run(threads, cut, TransposePart::run);
    for (place, got) in output.iter().enumerate() {
        let wanted = input[transposed(width, height, place)];
        assert_eq!(*got, wanted, "place {place} of {width} by {height} in {parts} parts");
    }
}

/// Reverses 2^`bits` rows of `width` items that `item` makes in parts.
fn check_reversal<F: Debug + PartialEq + Send + Sync>(
    item: impl Fn(usize) -> F,
    bits: u32,
    width: usize,
    parts: usize,
    threads: usize,
) {
    let mut list: Vec<F> = (0..width << bits).map(&item).collect();
    let cut = match width {
        1 => reversal(&mut list, parts),
        _ => row_reversal(&mut list, width, parts),
    };
    run(threads, cut, ReversalPart::run);
    for (i, got) in list.iter().enumerate() {
        let wanted = item(reversed(bits, i / width) * width + i % width);
        assert_eq!(*got, wanted, "place {i} of 2^{bits} rows of {width} in {parts} parts");
    }
}

/// All shapes up to 40 by 40 and some larger ones, short lists and long ones, in up to 9 parts.
fn serves<T: Copy + Debug + PartialEq + Send + Sync>(item: impl Fn(usize) -> T) {
    for (width, height) in (0..=40).flat_map(|width| (0..=40).map(move |height| (width, height))) {
        check_transpose(&item, (width, height), width * height % 10, 0);
    }
    for parts in 0..=9 {
        check_transpose(&item, (150, 40), parts, 0);
        check_transpose(&item, (40, 150), parts, parts);
        (0..=13).for_each(|bits| check_reversal(&item, bits, 1, parts, 0));
        check_reversal(&item, 4, 3, parts, parts);
    }
    check_reversal(&item, 19, 1, 9, 4);
}

#[test]
fn items_of_each_size() {
    serves(|i| i as u8);
    serves(|i| [i as u8, (i >> 8) as u8, 7]);
    serves(|i| i as u32);
    serves(|i| i as u64);
    serves(|i| [i as u64, 1, !i as u64, 3]);
}

#[test]
fn large_lists_on_threads() {
    for threads in 1..=9 {
        let parts = 4 * threads;
        for shape in [(1000, 30), (30, 1000), (129, 1030), (512, 256)] {
            check_transpose(|i| i as u32, shape, parts, threads);
        }
        check_reversal(|i| i as u32, 19, 1, parts, threads);
        check_reversal(|i| i as u16, 12, 100, parts, threads);
    }
    check_transpose(|i| i as u64, (2100, 1000), 16, 4);
    // Wide items, which have strips of their own, cut along the columns and along the rows.
    check_transpose(|i| [i as u64, 1, !i as u64, 3], (1100, 960), 16, 4);
    check_transpose(|i| [i as u64, 1, !i as u64, 3], (17, 61_696), 16, 4);
    check_reversal(|i| i as u64, 20, 1, 16, 4);
    check_reversal(|i| i as u32, 21, 1, usize::MAX, 4);
}

/// Lists that have no part, and lists that have one.
#[test]
fn none_and_one() {
    assert_eq!(transpose::<u8>(&[], &mut [], usize::MAX, 0, 3).len(), 0);
    assert_eq!(transpose::<u8>(&[], &mut [], 0, usize::MAX, 3).len(), 0);
    assert_eq!(transpose(&[(); 6], &mut [(); 6], 3, 2, 3).len(), 0);
    let (input, mut output) = ([(); 1 << 40], [(); 1 << 40]);
    for parts in [0, 1, 16, usize::MAX] {
        for (width, height) in [(1, 1 << 33), (1, 1 << 40), (1 << 40, 1)] {
            let len = width * height;
            let parts = transpose(&input[..len], &mut output[..len], width, height, parts);
            assert_eq!(parts.len(), 0, "{width} by {height}");
        }
        assert_eq!(reversal(&mut output, parts).len(), 0);
    }
    assert_eq!(reversal::<u8>(&mut [], 3).len(), 0);
    assert_eq!(reversal(&mut [(); 8], 3).len(), 0);
    assert_eq!(row_reversal::<u8>(&mut [], 0, 3).len(), 0);
    assert_eq!(row_reversal::<u64>(&mut [], usize::MAX, 3).len(), 0);
    assert_eq!(row_reversal(&mut [(); 6], 3, 3).len(), 0);
    for parts in [0, 1] {
        assert_eq!(transpose(&[7; 800], &mut [0; 800], 20, 40, parts).len(), 1);
        let wanted = if cfg!(feature = "checked") { 1 } else { 2 };
        let count = reversal(&mut vec![0u8; 1 << 19], parts).len();
        assert_eq!(count, wanted, "a square and the one beside it are two parts");
    }
}

/// A list of `limit` items is one part, and one of twice as many is cut. With the feature `checked` none is.
#[test]
fn lists_that_are_cut() {
    fn check<F: Default + Send>(limit: usize) {
        let mut list: Vec<F> = (0..2 * limit).map(|_| F::default()).collect();
        let is_cut = cfg!(not(feature = "checked"));
        assert_eq!(one_part_reversal::<F>(), if is_cut { limit } else { usize::MAX });
        assert_eq!(reversal(&mut list[..limit], 16).len(), 1);
        assert_eq!(row_reversal(&mut list[..limit], 4, 16).len(), 1);
        assert_eq!(reversal(&mut list, 16).len() > 1, is_cut);
        assert_eq!(row_reversal(&mut list, 4, 16).len() > 1, is_cut);
    }
    check::<u8>(1 << 16);
    check::<[u64; 4]>(1 << 16);
    check::<[u64; 8]>(1 << 15);
    check::<[[u64; 32]; 8]>(1 << 10);
}

/// The longer side is cut, except that with the feature `checked` always the columns are. A part that is not run leaves
/// its cells as they are.
#[test]
fn parts_that_are_not_run() {
    let input: Vec<u32> = (1..=60 * 40).collect();
    for ((width, height), kept) in [(60, 40), (40, 60)].into_iter().flat_map(|shape| [(shape, 0), (shape, 1)]) {
        let mut output = vec![0; input.len()];
        let part = transpose(&input, &mut output, width, height, 3).nth(kept);
        part.unwrap().run();
        let by_rows = height > width && cfg!(not(feature = "checked"));
        // Each part has a multiple of 16 columns or rows, the smallest one that gives at most three parts.
        let side: usize = if by_rows { height } else { width };
        let step = side.div_ceil(16).div_ceil(3) * 16;
        for (place, item) in output.into_iter().enumerate() {
            let (x, y) = (place / height, place % height);
            let is_kept = (if by_rows { y } else { x }) / step == kept;
            let wanted = u32::from(is_kept) * input[transposed(width, height, place)];
            assert_eq!(item, wanted, "place {place} of {width} by {height} by part {kept}");
        }
    }
}

/// Items that own something are each in the list exactly once, whichever parts of a reversal are run.
#[test]
fn owners_are_neither_lost_nor_doubled() {
    let drops = AtomicUsize::new(0);
    let mut list = Owner::list(1 << 19, &drops);
    reversal(&mut list, 5).step_by(2).for_each(ReversalPart::run);
    assert_eq!(drops.load(Relaxed), 0);
    let mut numbers: Vec<usize> = list.iter().map(|owner| owner.number).collect();
    assert!(!numbers.is_sorted());
    numbers.sort_unstable();
    assert!(numbers.into_iter().eq(0..1 << 19));
    drop(list);
    assert_eq!(drops.load(Relaxed), 1 << 19);
}

/// The number of parts that are left. After the last part the iterator ends for good, so it is `FusedIterator`.
fn left(parts: &(impl ExactSizeIterator + FusedIterator)) -> usize {
    parts.len()
}

#[test]
fn iterators_of_known_length() {
    let input = [1u8; 48 * 2];
    let mut output = [0; 48 * 2];
    let mut parts = transpose(&input, &mut output, 48, 2, 3);
    for count in [3, 2, 1] {
        assert_eq!((left(&parts), parts.size_hint()), (count, (count, Some(count))));
        assert!(parts.next().is_some());
    }
    assert!(parts.next().is_none() && parts.next().is_none());
    let mut parts = reversal(&mut output[..8], 3);
    assert_eq!((left(&parts), parts.size_hint()), (1, (1, Some(1))));
    assert!(parts.next().is_some());
    assert!(parts.next().is_none() && parts.next().is_none());
}

/// `Debug` shows only numbers, and needs nothing from the item type.
#[test]
fn debug_shows_numbers() {
    #[derive(Clone, Copy)]
    struct Bare;
    #[derive(Clone, Copy)]
    struct Silent(#[expect(dead_code, reason = "it gives the item a size")] u8, Bare);
    let input = [Silent(3, Bare); 32];
    let mut output = input;
    let mut parts = transpose(&input, &mut output, 32, 1, 2);
    assert_eq!(format!("{parts:?}"), "TransposeParts { left: 2 }");
    assert_eq!(format!("{:?}", parts.nth(1).unwrap()), "TransposePart { number: 1 }");
    let mut list = input;
    let mut parts = reversal(&mut list, 2);
    assert_eq!(format!("{parts:?}"), "ReversalParts { left: 1 }");
    assert_eq!(format!("{:?}", parts.next().unwrap()), "ReversalPart { number: 0 }");
}

/// A call that gives parts, and each part, must not be dropped silently. The compiler warns of each statement, as the
/// attribute above the statement expects.
#[test]
#[deny(unfulfilled_lint_expectations)]
fn a_warning_where_parts_are_thrown_away() {
    fn transpose_parts<'a>(input: &'a [u8], output: &'a mut [u8]) -> TransposeParts<'a, u8> {
        transpose(input, output, 2, 2, 2)
    }
    fn reversal_parts(list: &mut [u8]) -> ReversalParts<'_, u8> {
        reversal(list, 2)
    }
    let (mut list, mut output) = ([0u8, 1, 2, 3], [0; 4]);
    #[expect(unused_must_use)]
    one_part_reversal::<u8>();
    #[expect(unused_must_use)]
    transpose(&list, &mut output, 2, 2, 2);
    #[expect(unused_must_use)]
    transpose_parts(&list, &mut output);
    #[expect(unused_must_use)]
    transpose(&list, &mut output, 2, 2, 2).next().unwrap();
    #[expect(unused_must_use)]
    reversal(&mut list, 2);
    #[expect(unused_must_use)]
    reversal_parts(&mut list);
    #[expect(unused_must_use)]
    row_reversal(&mut list, 2, 2);
    #[expect(unused_must_use)]
    reversal(&mut list, 2).next().unwrap();
    assert_eq!((list, output), ([0, 1, 2, 3], [0; 4]));
}

/// The panics of the calls themselves. They name the caller's file.
#[test]
fn panics_of_the_calls() {
    use p3_util_proved as call;
    macro_rules! pairs {
        ($($whole:expr, $in_parts:expr;)*) => { [$([(|| $whole) as fn(), || _ = $in_parts]),*] };
    }
    for calls in pairs! {
        call::reverse_slice_index_bits(&mut [0u8; 6]), reversal(&mut [0u8; 6], 2);
        call::reverse_slice_index_bits(&mut [(); 6]), reversal(&mut [(); 6], 2);
        reverse_slice_row_index_bits(&mut [0u8; 6], 1), row_reversal(&mut [0u8; 6], 1, 2);
        reverse_slice_row_index_bits(&mut [0u8; 6], 0), row_reversal(&mut [0u8; 6], 0, 2);
        reverse_slice_row_index_bits(&mut [0u8; 9], 3), row_reversal(&mut [0u8; 9], 3, 2);
    } {
        let [panic, in_parts] = calls.map(|call| refusal(call).unwrap());
        assert_eq!(panic.text, in_parts.text);
        assert_eq!([panic.file, in_parts.file], [file!(); 2]);
    }
}

/// A transpose in parts refuses the same lengths as the original, with its text and with the caller's line. The last
/// product is 2^64, which wraps to zero.
#[test]
fn lengths_that_do_not_fit() {
    let lengths = (0..=8).flat_map(|input| (0..=8).map(move |output| (input, output)));
    for ((input, output), (width, height)) in
        lengths.flat_map(|it| [(3, 2), (7, 1), (1 << 32, 1 << 32)].map(|shape| (it, shape)))
    {
        let (from, mut to) = (vec![0u8; input], vec![0; output]);
        let line = line!() + 1;
        let refused = refusal(|| _ = transpose(&from, &mut to, width, height, 2));
        let text = text_of_transpose(input, output, width as u128 * height as u128);
        let file = file!().to_owned();
        assert_eq!(refused, text.map(|text| Refusal { text, file, line }));
    }
}
