// rust/erase writes this file from crates/p3_util/src/zip_eq.rt. Make changes there.
//! Two iterators of one length as one iterator of pairs.

use core::iter::FusedIterator;

/// Pairs the items of `a` and `b` in order, or returns `err` if their lengths differ.
pub fn zip_eq<A, B, Error>(a: A, b: B, err: Error) -> Result<ZipEq<A::IntoIter, B::IntoIter>, Error>
where
    A: IntoIterator,
    A::IntoIter: ExactSizeIterator,
    B: IntoIterator,
    B::IntoIter: ExactSizeIterator,
{
    let first = a.into_iter();
    let second = b.into_iter();
    if first.len() != second.len() {
        return Err(err);
    }
    Ok(ZipEq { first, second })
}

/// The iterator that [`zip_eq`] returns.
#[derive(Clone, Debug)]
#[must_use = "iterators are lazy and do nothing unless consumed"]
pub struct ZipEq<A, B> {
    first: A,
    second: B,
}

impl<A: ExactSizeIterator, B: ExactSizeIterator> ZipEq<A, B> {
    /// Calls `next` of the first iterator, and then `next` of the second one.
    #[inline(always)]
    pub(crate) fn next_of_each(&mut self) -> (Option<A::Item>, Option<B::Item>) {
        let x = self.first.next();
        let y = self.second.next();
        (x, y)
    }
}

impl<A: ExactSizeIterator, B: ExactSizeIterator> Iterator for ZipEq<A, B> {
    type Item = (A::Item, B::Item);

    fn next(&mut self) -> Option<(A::Item, B::Item)> {
        let (x, y) = self.next_of_each();
        match (x, y) {
            (Some(x), Some(y)) => Some((x, y)),
            _ => None,
        }
    }

    fn size_hint(&self) -> (usize, Option<usize>) {
        let len = self.len();
        (len, Some(len))
    }
}

impl<A: ExactSizeIterator, B: ExactSizeIterator> ExactSizeIterator for ZipEq<A, B> {
    fn len(&self) -> usize {
        self.first.len()
    }
}

impl<A: ExactSizeIterator + FusedIterator, B: ExactSizeIterator + FusedIterator> FusedIterator for ZipEq<A, B> {}
