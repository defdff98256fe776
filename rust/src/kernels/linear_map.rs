// rust/erase writes this file from crates/p3_util/src/linear_map.rt. Make changes there.
//! A map that keeps its pairs in the order of insertion. It finds a key by comparing it with each stored key.

mod iter;

use crate::kernels::NoRoom;
use crate::memory::{AllocError, Global, Vec};
use alloc::vec;
use core::mem::replace;
use core::ops::Index;
use core::slice;
pub use iter::{Iter, Keys, Values};

/// A map in insertion order, for few keys. A lookup compares one stored key after the other with the given one, as in
/// `stored == given`.
#[derive(Debug)]
pub struct LinearMap<K: Eq, V> {
    pairs: Vec<(K, V)>,
}

impl<K: Eq, V> LinearMap<K, V> {
    /// An empty map. It allocates nothing until the first pair is inserted.
    pub fn new(alloc: Global) -> Self {
        LinearMap { pairs: Vec::new(alloc) }
    }

    /// An empty map with room for `capacity` pairs.
    pub fn with_capacity(alloc: Global, capacity: usize) -> Result<Self, AllocError> {
        Ok(LinearMap { pairs: Vec::with_capacity(alloc, capacity)? })
    }

    /// The number of pairs.
    pub fn len(&self) -> usize {
        self.pairs.len()
    }

    /// Whether there is no pair.
    pub fn is_empty(&self) -> bool {
        self.pairs.is_empty()
    }

    /// The values, in order.
    pub fn values(&self) -> Values<'_, K, V> {
        Values { pairs: self.pairs.iter() }
    }

    /// The keys, in order.
    pub fn keys(&self) -> Keys<'_, K, V> {
        Keys { pairs: self.pairs.iter() }
    }

    /// The pairs, in order.
    pub fn iter(&self) -> Iter<'_, K, V> {
        Iter { pairs: self.pairs.iter() }
    }

    /// The index of the pair whose key equals `k`, or `None` if there is no such pair.
    fn place_of(&self, k: &K) -> Option<usize> {
        self.pairs.iter().position(|pair| pair.0 == *k)
    }

    /// The value of the pair whose key equals `k`, or `None` if there is no such pair.
    pub fn get(&self, k: &K) -> Option<&V> {
        let place = self.place_of(k)?;
        Some(&self.pairs[place].1)
    }

    /// A mutable reference to the value of the pair whose key equals `k`, or `None` if there is no such pair. A write
    /// changes only that value.
    pub fn get_mut(&mut self, k: &K) -> Option<&mut V> {
        let place = self.place_of(k)?;
        Some(&mut self.pairs[place].1)
    }
}

impl<K: Eq, V> LinearMap<K, V> {
    /// Gives `k` the value `v`.
    ///
    /// A known key keeps its place and its stored spelling: its old value is returned, and `k` is dropped. A new pair
    /// goes to the end. Only a new pair can need memory. If there is none, `NoRoom` returns the pair, and the map is
    /// unchanged.
    #[inline(always)]
    pub fn insert(&mut self, k: K, v: V) -> Result<Option<V>, NoRoom<(K, V)>> {
        if let Some(place) = self.place_of(&k) {
            return Ok(Some(replace(&mut self.pairs[place].1, v)));
        }
        let Ok(()) = self.pairs.reserve(1) else {
            return Err(NoRoom { given: (k, v) });
        };
        self.pairs.push_reserved((k, v));
        Ok(None)
    }

    /// A mutable reference to the value of `k`.
    ///
    /// For a new key, the call first makes room, and then adds the value that `f` returns at the end. For a known key
    /// `f` is not called. Only a new key can need memory. If there is none, `NoRoom` returns the key, and the map is
    /// unchanged.
    pub fn get_or_insert_with<F: FnOnce() -> V>(&mut self, k: K, f: F) -> Result<&mut V, NoRoom<K>> {
        if let Some(place) = self.place_of(&k) {
            return Ok(&mut self.pairs[place].1);
        }
        let last = self.len();
        let Ok(()) = self.pairs.reserve(1) else {
            return Err(NoRoom { given: k });
        };
        self.pairs.push_reserved((k, f()));
        Ok(&mut self.pairs[last].1)
    }
}

impl<K: Eq, V> LinearMap<K, V> {
    /// The map of the pairs of `it`, inserted in order. If memory runs out, the pairs that were taken are dropped.
    pub fn try_from_iter<I: IntoIterator<Item = (K, V)>>(alloc: Global, it: I) -> Result<Self, AllocError> {
        let mut map = LinearMap::new(alloc);
        for (k, v) in it {
            if map.insert(k, v).is_err() {
                return Err(AllocError);
            }
        }
        Ok(map)
    }
}

/// The value of the pair whose key equals `k`. There must be such a pair, which `get` checks.
impl<'q, K: Eq, V> Index<&'q K> for LinearMap<K, V> {
    type Output = V;

    fn index(&self, k: &'q K) -> &V {
        self.get(k).unwrap()
    }
}

/// Two maps are equal if they have equal pairs in the same order.
impl<K: Eq, V: PartialEq> PartialEq for LinearMap<K, V> {
    fn eq(&self, other: &Self) -> bool {
        self.pairs == other.pairs
    }
}

impl<K: Eq, V: Eq> Eq for LinearMap<K, V> {}

/// Iterates over the pairs by value, in order.
impl<K: Eq, V> IntoIterator for LinearMap<K, V> {
    type Item = (K, V);

    type IntoIter = vec::IntoIter<(K, V)>;

    fn into_iter(self) -> vec::IntoIter<(K, V)> {
        self.pairs.into_iter()
    }
}

/// Iterates over references to the pairs, in order.
impl<'a, K: Eq, V> IntoIterator for &'a LinearMap<K, V> {
    type Item = &'a (K, V);

    type IntoIter = slice::Iter<'a, (K, V)>;

    fn into_iter(self) -> slice::Iter<'a, (K, V)> {
        self.pairs.as_slice().iter()
    }
}
