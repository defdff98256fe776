//! The calls on maps and iterators. They are generic, so the compiler may inline them in this crate.

use std::hint::black_box;

use crate::timed::{Timed, timed};

/// A use of the pairs of two iterators over a list of 4096 items, as a function of the iterator over the pairs.
macro_rules! pairs {
    ($name:literal, |$pairs:ident| $used:expr) => {
        timed!($name, 4096, |library, list| {
            Box::new(move || {
                let $pairs = library::zip_eq::zip_eq(black_box(&list), black_box(&list), ()).unwrap();
                $used
            })
        })
    };
}

/// A program with few uses of an iterator does not show what it costs: the compiler inlines the only use of a function. So there
/// are three of the pairs.
pub const ITERATED: [Timed; 8] = [
    timed!("LinearMap::get of 8 keys", 8, |library, keys| {
        let map: library::linear_map::LinearMap<u64, u64> = keys.iter().map(|&key| (key, !key)).collect();
        Box::new(move || total(keys.iter().map(|key| *map.get(black_box(key)).unwrap())))
    }),
    timed!("LinearMap::insert of 8 keys", 8, |library, keys| {
        Box::new(move || {
            let mut map = library::linear_map::LinearMap::new();
            keys.iter().for_each(|&key| assert!(map.insert(key, !key).is_none()));
            *black_box(&map).get(&keys[0]).unwrap()
        })
    }),
    timed!("LinearMap::iter of 64 keys", 64, |library, keys| {
        let map: library::linear_map::LinearMap<u64, u64> = keys.iter().map(|&key| (key, !key)).collect();
        Box::new(move || total(black_box(&map).iter().map(|(key, value)| key ^ (value >> 1))))
    }),
    timed!("apply_to_chunks of 64 bytes", 4090, |library, list| {
        let bytes: Vec<u8> = list.iter().map(|&item| item as u8).collect();
        Box::new(move || {
            let mut sum = 0;
            let add = |chunk: &[u8]| sum += u64::from(chunk[0]) + chunk.len() as u64;
            library::apply_to_chunks::<64, _, _>(black_box(&bytes).iter().copied(), add);
            sum
        })
    }),
    timed!("iter_array_chunks_padded, 8 items", 4090, |library, list| {
        Box::new(move || {
            let chunks = library::iter_array_chunks_padded::<_, 8>(black_box(&list).iter().copied(), 0);
            total(chunks.map(|chunk| chunk[0] ^ chunk[7]))
        })
    }),
    pairs!("zip_eq, map and collect", |pairs| {
        black_box(pairs.map(|(x, y)| x.wrapping_add(*y)).collect::<Vec<_>>())[0]
    }),
    pairs!("zip_eq and fold", |pairs| pairs.fold(0, |sum: u64, (x, y)| sum.wrapping_add(x.wrapping_mul(*y)))),
    pairs!("zip_eq and all", |pairs| {
        let (mut pairs, last) = (pairs, black_box(0));
        u64::from(pairs.all(|(x, y)| x ^ y == last))
    }),
];

fn total(numbers: impl Iterator<Item = u64>) -> u64 {
    numbers.fold(0, u64::wrapping_add)
}
