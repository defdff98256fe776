//! How much memory the calls that allocate request, and that the panic after a refused request names the caller's
//! place.

#[path = "../package/refusal.rs"]
mod refusal;

use std::alloc::{GlobalAlloc, Layout, System};
use std::any::type_name;
use std::cell::Cell;
use std::collections::BTreeMap;
use std::ptr::null_mut;

use p3_util_proved::linear_map::LinearMap;
use p3_util_proved::pretty_name;
use refusal::refusal;

/// The system's allocator. It notes the requests of each thread, and refuses a request if `REFUSES` is set.
struct Noting;

thread_local! {
    /// Whether the next request of this thread is refused.
    static REFUSES: Cell<bool> = const { Cell::new(false) };

    /// The number of requests of this thread, and the sum of the bytes requested.
    static REQUESTS: Cell<(usize, usize)> = const { Cell::new((0, 0)) };
}

/// Notes a request, and returns whether it is refused.
fn is_refused(bytes: usize) -> bool {
    let (requests, sum) = REQUESTS.get();
    REQUESTS.set((requests + 1, sum + bytes));
    REFUSES.replace(false)
}

// SAFETY: each call is passed on to the system's allocator unchanged, or it returns null, which says that there is no
// memory.
unsafe impl GlobalAlloc for Noting {
    unsafe fn alloc(&self, layout: Layout) -> *mut u8 {
        if is_refused(layout.size()) {
            return null_mut();
        }
        unsafe { System.alloc(layout) }
    }

    unsafe fn dealloc(&self, start: *mut u8, layout: Layout) {
        unsafe { System.dealloc(start, layout) }
    }

    unsafe fn realloc(&self, start: *mut u8, layout: Layout, bytes: usize) -> *mut u8 {
        if is_refused(bytes) {
            return null_mut();
        }
        unsafe { System.realloc(start, layout, bytes) }
    }
}

#[global_allocator]
static ALLOCATOR: Noting = Noting;

/// What a call returns, with the number of its requests and the sum of the bytes requested.
fn noted<A>(call: impl FnOnce() -> A) -> (A, (usize, usize)) {
    REQUESTS.set((0, 0));
    let answer = call();
    (answer, REQUESTS.get())
}

#[test]
fn a_refusal_names_the_callers_place() {
    let calls: [fn(); 5] = [
        || _ = LinearMap::<u8, u8>::with_capacity(1),
        || _ = LinearMap::new().insert(1u8, 2u8),
        || _ = LinearMap::new().get_or_insert_with(1u8, || 2u8),
        || _ = LinearMap::from_iter([(1u8, 2u8)]),
        || _ = pretty_name::<Vec<u8>>(),
    ];
    for (place, call) in calls.into_iter().enumerate() {
        let refused = refusal(|| {
            REFUSES.set(true);
            call();
        });
        let refused = refused.unwrap_or_else(|| panic!("call {place} does not panic"));
        let found = (refused.text.as_str(), refused.file.as_str());
        assert_eq!(found, ("out of memory", file!()), "call {place}");
    }
}

#[test]
fn a_refused_pair_leaves_the_map() {
    let calls: [fn(&mut LinearMap<u8, u8>); 2] =
        [|map| _ = map.insert(3, 4), |map| _ = map.get_or_insert_with(3, || panic!("no room for a value"))];
    let mut map = LinearMap::with_capacity(1);
    assert_eq!(map.insert(1, 2), None);
    for call in calls {
        let refused = refusal(|| {
            REFUSES.set(true);
            call(&mut map);
        });
        assert_eq!(refused.unwrap().text, "out of memory");
        assert!(map.iter().eq(&[(1, 2)]));
    }
}

/// A map that requests room for more pairs than it is to have meets its contract, but fails this test.
#[test]
fn empty_maps_take_no_memory() {
    let maps: [fn() -> LinearMap<u64, u64>; 3] = [LinearMap::new, LinearMap::default, || LinearMap::with_capacity(0)];
    for map in maps {
        assert_eq!(noted(map).1, (0, 0));
    }
    assert_eq!(noted(|| LinearMap::<u64, u64>::with_capacity(3)).1, (1, 3 * 16));
}

/// Each call of `call` adds a pair. Asserts that room is requested at most once each time that the number of pairs
/// doubles.
fn check_growth(call: impl Fn(&mut LinearMap<u64, u64>, u64)) {
    const PAIRS: u64 = 1000;
    let mut map = LinearMap::new();
    let ((), (requests, _)) = noted(|| (0..PAIRS).for_each(|key| call(&mut map, key)));
    assert!(requests <= 1 + PAIRS.ilog2() as usize, "{requests} requests");
}

#[test]
fn many_pairs_take_few_requests() {
    check_growth(|map, key| _ = map.insert(key, key));
    check_growth(|map, key| _ = map.get_or_insert_with(key, || key));
}

/// Asserts that there is one request, for as many bytes as the whole name has.
fn check_name<T>() {
    let name = type_name::<T>();
    let (short, requests) = noted(pretty_name::<T>);
    assert_eq!(requests, (1, name.len()), "{name}, {short}");
}

/// A `pretty_name` that requests more bytes than the name has, or requests memory twice, meets its contract, but fails
/// this test.
#[test]
fn a_name_takes_its_bytes_once() {
    check_name::<u8>();
    check_name::<Vec<Option<String>>>();
    check_name::<BTreeMap<[String; 9], Result<(), std::fmt::Error>>>();
}
