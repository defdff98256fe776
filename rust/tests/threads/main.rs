//! Calls with the feature `parallel`, in rayon's pools, compared with their definitions.

#![cfg(all(feature = "parallel", target_pointer_width = "64"))]

#[path = "../package/common.rs"]
mod common;
#[path = "../package/refusal.rs"]
mod refusal;

use std::alloc::{GlobalAlloc, Layout, System};
use std::array::from_fn;
use std::cell::Cell;

use common::{reversed, transposed};
use p3_util_proved::{reverse_slice_index_bits, reverse_slice_row_index_bits, transpose::transpose};
use rayon::{ThreadPool, ThreadPoolBuilder, current_num_threads, join};
use refusal::{Refusal, refusal, text_of_transpose};

thread_local! {
    /// How often this thread asked for memory.
    static REQUESTS: Cell<usize> = const { Cell::new(0) };
}

struct Counting;

#[global_allocator]
static ALLOCATOR: Counting = Counting;

unsafe impl GlobalAlloc for Counting {
    unsafe fn alloc(&self, layout: Layout) -> *mut u8 {
        REQUESTS.set(REQUESTS.get() + 1);
        unsafe { System.alloc(layout) }
    }

    unsafe fn dealloc(&self, place: *mut u8, layout: Layout) {
        unsafe { System.dealloc(place, layout) }
    }
}

/// Makes a call. It has to run on all threads if it is long and there are several. Then rayon asks for memory. A call on one
/// thread never does.
fn run(is_long: bool, call: impl FnOnce()) {
    let (is_cut, before) = (is_long && current_num_threads() > 1, REQUESTS.get());
    call();
    assert_eq!(REQUESTS.get() > before, is_cut);
}

/// Whether a reversal of more than this is long.
const IS_CUT: bool = cfg!(not(feature = "checked"));

fn reverses<T: PartialEq + Send + Sync>(digits: u32, limit: u32, item: fn(usize) -> T) {
    let mut list: Vec<T> = (0..1 << digits).map(item).collect();
    run(IS_CUT && digits > limit, || reverse_slice_index_bits(&mut list));
    let is_reversed = (0..).zip(list).all(|(i, got)| got == item(reversed(digits, i)));
    assert!(is_reversed, "2^{digits}");
}

/// These items are `Send` and not `Sync`.
fn reverses_rows(digits: u32, width: usize) {
    let mut list: Vec<Cell<usize>> = (0..width << digits).map(Cell::new).collect();
    let is_long = IS_CUT && list.len() > 1 << 16;
    run(is_long, || reverse_slice_row_index_bits(&mut list, width));
    let wanted = |i| reversed(digits, i / width) * width + i % width;
    let is_reversed = (0..).zip(list).all(|(i, got)| got.get() == wanted(i));
    assert!(is_reversed, "2^{digits} rows of {width}");
}

fn transposes(width: usize, height: usize) {
    let input: Vec<u32> = (0..width * height).map(|i| i as u32).collect();
    let mut output = vec![0; input.len()];
    run(input.len() >= 1 << 18, || transpose(&input, &mut output, width, height));
    let wanted = |place| input[transposed(width, height, place)];
    let is_transposed = (0..).zip(output).all(|(place, got)| got == wanted(place));
    assert!(is_transposed, "{width} by {height}");
}

/// Makes calls on both sides of each limit.
fn calls() {
    (15..=18).for_each(|digits| reverses(digits, 16, |i| i as u32));
    (14..=16).for_each(|digits| reverses::<[u64; 8]>(digits, 15, |i| from_fn(|part| (8 * i + part) as u64)));
    let rows = [(16, 1), (17, 1), (15, 2), (16, 2), (14, 3), (15, 3), (3, 1 << 13), (4, 1 << 13), (0, 1 << 17)];
    rows.into_iter().for_each(|(digits, width)| reverses_rows(digits, width));
    let shapes = [(512, 512), (511, 513), (1, 1 << 18), (1 << 18, 1), (4095, 64), (64, 4097), (3, 87_382)];
    shapes.into_iter().for_each(|(width, height)| transposes(width, height));
    // Items without bytes are never moved.
    run(false, || reverse_slice_index_bits(&mut [(); 1 << 40]));
    run(false, || reverse_slice_row_index_bits(&mut [(); 3 << 40], 3));
    run(false, || transpose(&[(); 1 << 40], &mut [(); 1 << 40], 1 << 20, 1 << 20));
}

fn pool(threads: usize) -> ThreadPool {
    ThreadPoolBuilder::new().num_threads(threads).build().unwrap()
}

#[test]
fn calls_in_a_pool() {
    // In the pool that every program has.
    calls();
    for threads in [1, 2, 3, 4, 7] {
        pool(threads).install(calls);
    }
}

#[test]
fn calls_beside_each_other() {
    for threads in [1, 3] {
        pool(threads).install(|| join(calls, || join(calls, calls)));
    }
}

#[test]
fn calls_from_two_pools() {
    std::thread::scope(|scope| {
        for threads in [2, 3] {
            scope.spawn(move || pool(threads).install(calls));
        }
    });
}

/// Lengths that do not fit are refused before a thread gets a part. The panic names the caller's line.
#[test]
fn long_lists_that_are_refused() {
    let len = (1 << 18) + 1;
    let (input, mut list) = (vec![0u8; len], vec![0u8; len]);
    let wanted = |text, line| {
        let file = file!().to_owned();
        Some(Refusal { text, file, line })
    };
    pool(3).install(|| {
        let line = line!() + 1;
        let refused = refusal(|| reverse_slice_index_bits(&mut list));
        assert_eq!(refused, wanted(format!("Not a power of two: {len} items"), line));
        let line = line!() + 1;
        let refused = refusal(|| reverse_slice_row_index_bits(&mut list, 2));
        let text = format!("length {len} is not 2 times zero or a power of two");
        assert_eq!(refused, wanted(text, line));
        let line = line!() + 1;
        let refused = refusal(|| transpose(&input, &mut list, 512, 512));
        assert_eq!(refused, wanted(text_of_transpose(len, len, 1 << 18).unwrap(), line));
    });
}
