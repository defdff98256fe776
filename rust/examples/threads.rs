//! A transpose and a reversal on several threads: by the feature `parallel`, and in parts on threads of your own.
//!
//!     cargo run --release --example threads --features parallel
//!
//! Only systems of 64 bits have either. Without the feature, the calls below run on one thread.

use std::num::NonZero;
use std::sync::Mutex;
use std::thread::{available_parallelism, scope};

use p3_util_proved::parts::{self, ReversalPart, TransposePart};
use p3_util_proved::{reverse_slice_index_bits, transpose::transpose};
// The package's own name. Your Cargo.toml may name it p3_util, as README shows, so that code for the original compiles.

/// Runs all parts on `threads` threads of std, and returns when they are done. Each takes one part after another from a queue.
fn run_all<P>(threads: usize, parts: impl Iterator<Item = P> + Send, run: fn(P)) {
    let queue = Mutex::new(parts);
    // The lock is held only while a part is taken, not while it runs.
    let next = || queue.lock().ok()?.next();
    scope(|scope| {
        for _ in 0..threads {
            scope.spawn(|| std::iter::from_fn(next).for_each(run));
        }
    });
}

fn main() {
    let (width, height) = (2048, 1024);
    let matrix: Vec<u32> = (0..1 << 21).collect();

    // With the feature, long calls run on the threads of rayon's pool. In a pool of your own, `pool.install` makes them run there.
    let mut columns = vec![0; matrix.len()];
    transpose(&matrix, &mut columns, width, height);
    let mut list = matrix.clone();
    reverse_slice_index_bits(&mut list);

    // Without the feature, or if your threads are not rayon's: the same in parts. These differ in size, so there are more of them
    // than threads.
    let threads = available_parallelism().map_or(1, NonZero::get);
    let mut same = vec![0; matrix.len()];
    let parts = parts::transpose(&matrix, &mut same, width, height, 4 * threads);
    println!("a transpose in {} parts", parts.len());
    run_all(threads, parts, TransposePart::run);
    assert!(same == columns);

    let mut same = matrix;
    let parts = parts::reversal(&mut same, 8 * threads);
    println!("a reversal in {} parts", parts.len());
    run_all(threads, parts, ReversalPart::run);
    assert!(same == list);
}
