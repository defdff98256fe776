// rust/erase writes this file from crates/p3_util/src/linear_map/iter.rt. Make changes there.
//! The iterators that lend the pairs, the keys or the values of a map, in its order. A contract sees each of them as
//! the list of the items that are left.

use core::iter::FusedIterator;
use core::slice;

/// The pairs of a map, in order.
#[derive(Debug)]
#[must_use = "iterators are lazy and do nothing unless consumed"]
pub struct Iter<'a, K, V> {
    pub(super) pairs: slice::Iter<'a, (K, V)>,
}

/// A clone has the same pairs left. It allocates nothing.
impl<'a, K, V> Clone for Iter<'a, K, V> {
    fn clone(&self) -> Iter<'a, K, V> {
        Iter { pairs: self.pairs.clone() }
    }
}

impl<'a, K, V> Iterator for Iter<'a, K, V> {
    type Item = &'a (K, V);

    #[inline(always)]
    fn next(&mut self) -> Option<&'a (K, V)> {
        self.pairs.next()
    }

    /// The number of pairs that are left, as the lower and as the upper bound.
    fn size_hint(&self) -> (usize, Option<usize>) {
        let pairs = self.len();
        (pairs, Some(pairs))
    }
}

impl<'a, K, V> DoubleEndedIterator for Iter<'a, K, V> {
    fn next_back(&mut self) -> Option<&'a (K, V)> {
        self.pairs.next_back()
    }
}

impl<'a, K, V> ExactSizeIterator for Iter<'a, K, V> {
    /// The number of pairs that are left.
    fn len(&self) -> usize {
        self.pairs.len()
    }
}

impl<'a, K, V> FusedIterator for Iter<'a, K, V> {}

/// The keys of a map, in order.
#[derive(Debug)]
#[must_use = "iterators are lazy and do nothing unless consumed"]
pub struct Keys<'a, K, V> {
    pub(super) pairs: slice::Iter<'a, (K, V)>,
}

/// A clone has the same keys left. It allocates nothing.
impl<'a, K, V> Clone for Keys<'a, K, V> {
    fn clone(&self) -> Keys<'a, K, V> {
        Keys { pairs: self.pairs.clone() }
    }
}

impl<'a, K, V> Iterator for Keys<'a, K, V> {
    type Item = &'a K;

    #[inline(always)]
    fn next(&mut self) -> Option<&'a K> {
        self.pairs.next().map(|pair| &pair.0)
    }

    /// The number of keys that are left, as the lower and as the upper bound.
    fn size_hint(&self) -> (usize, Option<usize>) {
        let keys = self.len();
        (keys, Some(keys))
    }
}

impl<'a, K, V> DoubleEndedIterator for Keys<'a, K, V> {
    fn next_back(&mut self) -> Option<&'a K> {
        self.pairs.next_back().map(|pair| &pair.0)
    }
}

impl<'a, K, V> ExactSizeIterator for Keys<'a, K, V> {
    /// The number of keys that are left.
    fn len(&self) -> usize {
        self.pairs.len()
    }
}

impl<'a, K, V> FusedIterator for Keys<'a, K, V> {}

/// The values of a map, in order.
#[derive(Debug)]
#[must_use = "iterators are lazy and do nothing unless consumed"]
pub struct Values<'a, K, V> {
    pub(super) pairs: slice::Iter<'a, (K, V)>,
}

/// A clone has the same values left. It allocates nothing.
impl<'a, K, V> Clone for Values<'a, K, V> {
    fn clone(&self) -> Values<'a, K, V> {
        Values { pairs: self.pairs.clone() }
    }
}

impl<'a, K, V> Iterator for Values<'a, K, V> {
    type Item = &'a V;

    #[inline(always)]
    fn next(&mut self) -> Option<&'a V> {
        self.pairs.next().map(|pair| &pair.1)
    }

    /// The number of values that are left, as the lower and as the upper bound.
    fn size_hint(&self) -> (usize, Option<usize>) {
        let values = self.len();
        (values, Some(values))
    }
}

impl<'a, K, V> DoubleEndedIterator for Values<'a, K, V> {
    fn next_back(&mut self) -> Option<&'a V> {
        self.pairs.next_back().map(|pair| &pair.1)
    }
}

impl<'a, K, V> ExactSizeIterator for Values<'a, K, V> {
    /// The number of values that are left.
    fn len(&self) -> usize {
        self.pairs.len()
    }
}

impl<'a, K, V> FusedIterator for Values<'a, K, V> {}
