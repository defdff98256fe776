//! Runs parts on several threads, on lists that are cut even if they are short. `rust/test` runs these tests with a
//! race detector. It also runs the ignored tests, each of which runs two parts that overlap, and the detector must
//! report each of these races.

use std::iter::from_fn;
use std::thread::scope;
use std::vec::Vec;

use super::super::*;
use crate::kernels::parts::lists::{Given, Plan, Shared};
use crate::slices::tests::transposed;

/// `i`, which has `digits` binary digits, with the digits in reversed order.
fn reversed(digits: usize, i: usize) -> usize {
    (0..digits).fold(0, |rev, place| rev << 1 | i >> place & 1)
}

/// Runs each share on its own thread.
fn run_all<P: Send>(shares: impl IntoIterator<Item = Vec<P>>, run: fn(P)) {
    scope(|scope| {
        let threads: Vec<_> =
            shares.into_iter().map(|share| scope.spawn(move || share.into_iter().for_each(run))).collect();
        // The detector learns that a thread is done when the thread is joined, but not when the scope waits for it.
        threads.into_iter().for_each(|thread| thread.join().unwrap());
    });
}

/// Runs all parts, which are dealt out to `threads` threads.
fn run_on<P: Send>(threads: usize, parts: impl Iterator<Item = P>, run: fn(P)) {
    let mut shares: Vec<Vec<_>> = from_fn(|| Some(Vec::new())).take(threads).collect();
    for (turn, part) in parts.enumerate() {
        shares[turn % threads].push(part);
    }
    run_all(shares, run);
}

/// Transposes a matrix of the items that `of` makes in at most `parts` parts.
fn transposes<T: Copy + PartialEq + Send + Sync>(
    of: fn(usize) -> T,
    shape: (usize, usize),
    parts: usize,
    threads: usize,
) {
    let (width, height) = shape;
    let input: Vec<T> = (0..width * height).map(of).collect();
    let mut output = std::vec![of(0); input.len()];
    let cut = transpose(&input, &mut output, width, height, parts);
    run_on(threads, cut, TransposePart::run);
    let wanted = |place| of(transposed(width, height, place));
    assert!(output.into_iter().eq((0..input.len()).map(wanted)));
}

/// Reverses 2^`digits` rows of these items, in parts. The sides of the squares are cut into at most `parts` pieces.
fn reverses<F: PartialEq + Send>(of: fn(usize) -> F, (digits, width): (usize, usize), parts: usize, threads: usize) {
    let mut list: Vec<F> = (0..width << digits).map(of).collect();
    run_on(threads, cut(&mut list, width, Some(parts)), ReversalPart::run);
    let wanted = |place| of(reversed(digits, place / width) * width + place % width);
    assert!(list.into_iter().eq((0..width << digits).map(wanted)));
}

#[test]
fn parts_on_threads() {
    for round in 0..if cfg!(miri) { 12 } else { 150 } {
        let (parts, threads) = (1 + round % 11, 2 + round % 7);
        let (short, long) = (1 + round * 13 % 89, 1 + round * 7 % 97);
        transposes(|i| i as u32, (long, short), parts, threads);
        transposes(|i| i, (short, long), parts, threads);
        // These are put by cache lines.
        transposes(|i| i as u32, (long, 16 + round % 5 * 16), parts, threads);
        reverses(|i| i as u32, (round % 13, 1), parts, threads);
        reverses(|i| i, (round % 12, 1), parts, threads);
        // These have padding and a pointer.
        let padded = |i| (i as u8, &"a text"[i % 6..]);
        reverses(padded, (round % 9, 1 + round % 2), parts, threads);
        reverses(|i| i, (round % 8, 2 + round % 3), parts, threads);
    }
}

/// Takes two plans for a list, and one part of each.
fn of_both<L: Shared, P: Plan, I: Given<P>>(mut list: L, given: I, plans: [(P, usize); 2]) -> [PartToRun<L, P, I>; 2] {
    plans.map(|(plan, number)| {
        let mut parts = PartsToRun::of(list.share(), plan, given);
        from_fn(|| parts.hand_out()).nth(number).unwrap()
    })
}

/// Runs two parts of a reversal that overlap, on two threads: a patch of a square whose sides are cut into two pieces,
/// and the whole square.
fn exchanges_both(len: usize, row_width: usize) {
    let mut list: Vec<usize> = (0..len).collect();
    let plans = [1, 2].map(|ranges| plan_of(len, size_of::<usize>(), row_width, Some(ranges)));
    assert_eq!(plans.map(|(_, plan)| plan.count()), [1, 3]);
    let bytes = plans[0].0;
    let both = of_both(SliceItems::in_shares(&mut list, len), bytes, plans.map(|(_, plan)| (plan, 0)));
    run_all(both.map(|part| std::vec![ReversalPart(part)]), ReversalPart::run);
}

/// The first 32 of 64 columns, and the last 16 of those 32.
#[test]
#[ignore = "a race, which a detector has to report"]
fn overlapping_regions() {
    let input: Vec<u32> = (0..64 * 64).collect();
    let mut output = input.clone();
    let cuts = [(2, 0), (4, 1)].map(|(count, part)| (TransposePlan::new(64, 64, count, true), part));
    let both = of_both(SliceItems::in_shares(&mut output, 0), &input[..], cuts);
    run_all(both.map(|part| std::vec![TransposePart(part)]), TransposePart::run);
}

/// 2^8 rows of three items, which are a square of 16 by 16 rows.
#[test]
#[ignore = "a race, which a detector has to report"]
fn overlapping_pairs() {
    exchanges_both(3 << 8, 3);
}

/// A square of 64 by 64 items.
#[test]
#[ignore = "a race, which a detector has to report"]
fn overlapping_patches() {
    exchanges_both(1 << 12, 1);
}
