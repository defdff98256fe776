//! A map that keeps its pairs in the order of insertion.

use core::alloc::Layout;
use core::fmt::{self, Debug, Formatter};
use core::ops::Index;
use core::slice::Iter;

use crate::kernels::linear_map as proved;
#[doc(inline)]
pub use crate::kernels::linear_map::{Keys, Values};
use crate::memory::{Global, granted};

/// A map in insertion order, for few keys.
///
/// A lookup compares one stored key after the other with the given one, as in `stored == given`, until one is equal. So
/// a lookup takes time proportional to the number of pairs, and inserting n new keys takes time proportional to n^2.
///
/// Each method calls the one of the same name of the proved [`kernels::linear_map::LinearMap`](proved::LinearMap), whose
/// contract says what it does. If memory runs out, that one returns an error, and the method here panics.
///
/// ```
/// use p3_util_proved::linear_map::LinearMap;
///
/// let mut degrees = LinearMap::from_iter([("trace", 10), ("quotient", 12)]);
/// assert_eq!(degrees.insert("trace", 11), Some(10));
/// *degrees.get_or_insert_with("random", || 9) += 1;
/// assert!(degrees.keys().eq(&["trace", "quotient", "random"]));
/// assert_eq!((degrees[&"random"], degrees.get(&"public")), (10, None));
/// ```
pub struct LinearMap<K: Eq, V>(proved::LinearMap<K, V>);

impl<K: Eq, V> LinearMap<K, V> {
    /// An empty map. It allocates nothing until the first pair is inserted.
    #[inline(always)]
    pub fn new() -> Self {
        LinearMap(proved::LinearMap::new(Global))
    }

    /// An empty map with room for `capacity` pairs.
    ///
    /// # Panics
    ///
    /// With `capacity overflow` if `capacity` pairs take more than `isize::MAX` bytes, and if memory runs out.
    #[track_caller]
    pub fn with_capacity(capacity: usize) -> Self {
        assert!(Layout::array::<(K, V)>(capacity).is_ok(), "capacity overflow");
        LinearMap(granted(proved::LinearMap::with_capacity(Global, capacity)))
    }

    /// The value of the pair whose key equals `k`, or `None` if there is no such pair.
    pub fn get(&self, k: &K) -> Option<&V> {
        self.0.get(k)
    }

    /// A mutable reference to the value of the pair whose key equals `k`, or `None` if there is no such pair.
    pub fn get_mut(&mut self, k: &K) -> Option<&mut V> {
        self.0.get_mut(k)
    }

    /// Stores the value `v` for the key `k`, and returns the value that was stored for an equal key before.
    ///
    /// If there was an equal key, that key stays, at its place in the order. Otherwise the new pair goes to the end.
    /// Panics if memory runs out.
    #[track_caller]
    pub fn insert(&mut self, k: K, v: V) -> Option<V> {
        granted(self.0.insert(k, v))
    }

    /// A mutable reference to the value of `k`. A new key is added at the end, with the value that `f` returns. For a
    /// known key `f` is not called. Panics if memory runs out.
    #[inline(always)]
    #[track_caller]
    #[doc(alias = "entry")]
    pub fn get_or_insert_with(&mut self, k: K, f: impl FnOnce() -> V) -> &mut V {
        granted(self.0.get_or_insert_with(k, f))
    }

    /// The keys, in order.
    pub fn keys(&self) -> Keys<'_, K, V> {
        self.0.keys()
    }

    /// The values, in order.
    pub fn values(&self) -> Values<'_, K, V> {
        self.0.values()
    }

    /// The pairs, in order. Their number is that of the iterator.
    #[doc(alias = "len")]
    pub fn iter(&self) -> Iter<'_, (K, V)> {
        self.into_iter()
    }
}

impl<K: Eq + Debug, V: Debug> Debug for LinearMap<K, V> {
    fn fmt(&self, f: &mut Formatter<'_>) -> fmt::Result {
        f.debug_tuple("LinearMap").field(&self.into_iter().as_slice()).finish()
    }
}

impl<K: Eq, V> Default for LinearMap<K, V> {
    fn default() -> Self {
        Self::new()
    }
}

/// Inserts the pairs one after the other. Panics if memory runs out.
impl<K: Eq, V> FromIterator<(K, V)> for LinearMap<K, V> {
    #[track_caller]
    fn from_iter<I: IntoIterator<Item = (K, V)>>(pairs: I) -> Self {
        LinearMap(granted(proved::LinearMap::try_from_iter(Global, pairs)))
    }
}

/// The value of the pair whose key equals `k`. Panics if there is no such pair.
impl<K: Eq, V> Index<&K> for LinearMap<K, V> {
    type Output = V;

    #[track_caller]
    fn index(&self, k: &K) -> &V {
        self.get(k).unwrap()
    }
}

/// Iterates over the pairs by value, in order.
impl<K: Eq, V> IntoIterator for LinearMap<K, V> {
    type Item = (K, V);

    type IntoIter = alloc::vec::IntoIter<(K, V)>;

    fn into_iter(self) -> Self::IntoIter {
        self.0.into_iter()
    }
}

/// Iterates over references to the pairs, in order.
impl<'a, K: Eq, V> IntoIterator for &'a LinearMap<K, V> {
    type Item = &'a (K, V);

    type IntoIter = Iter<'a, (K, V)>;

    fn into_iter(self) -> Self::IntoIter {
        (&self.0).into_iter()
    }
}
