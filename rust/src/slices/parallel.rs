//! Long calls in parts on rayon's threads: the feature `parallel`. Here stands which calls are cut, and into how many parts.

use rayon::iter::{ParallelBridge, ParallelIterator};

use super::parts::{self, ReversalPart, ReversalParts, TransposePart, TransposeParts, one_part_reversal};

/// Reverses rows in parts. Returns false if the call is short, or if there is one thread, and then does nothing.
#[inline]
pub(super) fn reverse<F: Send>(vals: &mut [F], row_width: usize) -> bool {
    vals.len() > one_part_reversal::<F>() && run_all(ReversalPart::run, |threads| reversal(vals, row_width, threads))
}

/// Does the same for a transpose. With fewer than 2^18 items it takes less time on one thread.
#[inline]
pub(super) fn transpose<T: Copy + Send + Sync>(input: &[T], output: &mut [T], width: usize, height: usize) -> bool {
    let shape = (width, height);
    input.len() >= 1 << 18 && run_all(TransposePart::run, |threads| transposes(input, output, shape, threads))
}

/// Asks for eight parts for each thread, since some have half as many pairs as the others.
fn reversal<F: Send>(vals: &mut [F], row_width: usize, threads: usize) -> ReversalParts<'_, F> {
    parts::row_reversal(vals, row_width, threads.saturating_mul(8))
}

/// At most four parts for each thread.
fn transposes<'a, T: Copy + Send + Sync>(
    input: &'a [T],
    output: &'a mut [T],
    (width, height): (usize, usize),
    threads: usize,
) -> TransposeParts<'a, T> {
    parts::transpose(input, output, width, height, threads.saturating_mul(4))
}

/// Cuts a call for so many threads and runs the parts, unless there is one thread. A thread takes the next part when it is done
/// with the one before.
#[inline(never)]
fn run_all<P: Send, I: Iterator<Item = P> + Send>(run: fn(P), cut: impl FnOnce(usize) -> I) -> bool {
    let threads = rayon::current_num_threads();
    if threads > 1 {
        cut(threads).par_bridge().for_each(run);
    }
    threads > 1
}

/// No result of a call depends on these numbers. The documentation of `parts` advises them.
#[test]
fn parts_of_each_thread() {
    let mut list = std::vec![0u8; 1 << 20];
    let wanted = parts::reversal(&mut list, 48).len();
    assert_eq!(reversal(&mut list, 1, 6).len(), wanted);
    let mut output = list.clone();
    assert_eq!(transposes(&list, &mut output, (1 << 14, 64), 10).len(), 40);
}
