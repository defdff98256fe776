//! Two iterators of one length as one iterator of pairs.

use core::fmt::{self, Debug, Formatter};
use core::iter::FusedIterator;

use crate::kernels::zip_eq as proved;

/// Pairs the items of `a` and `b` in order, or returns `err` if their lengths differ.
///
/// This is the proved [`kernels::zip_eq::zip_eq`](proved::zip_eq), except for the original's panic in [`ZipEq`].
///
/// ```
/// use p3_util_proved::zip_eq::zip_eq;
///
/// let pairs = zip_eq([1, 2], ["a", "b"], "lengths differ")?;
/// assert!(pairs.eq([(1, "a"), (2, "b")]));
/// assert_eq!(zip_eq([1, 2], ["a"], "lengths differ").err(), Some("lengths differ"));
/// # Ok::<(), &str>(())
/// ```
#[inline]
pub fn zip_eq<A, AIter, B, BIter, Error>(a: A, b: B, err: Error) -> Result<ZipEq<AIter, BIter>, Error>
where
    A: IntoIterator<IntoIter = AIter>,
    AIter: ExactSizeIterator,
    B: IntoIterator<IntoIter = BIter>,
    BIter: ExactSizeIterator,
{
    proved::zip_eq(a, b, err).map(ZipEq)
}

/// The iterator that [`zip_eq`] returns.
///
/// # Panics
///
/// If one of the two iterators ends before the other, so that one of them stated a false length. The proved
/// [`kernels::zip_eq::ZipEq`](proved::ZipEq) ends with the shorter one. The compiler makes faster loops of this one, since
/// a loop does not go on after the panic.
#[derive(Clone)]
#[must_use = "iterators are lazy and do nothing unless consumed"]
pub struct ZipEq<A, B>(proved::ZipEq<A, B>);

impl<A: ExactSizeIterator, B: ExactSizeIterator> Iterator for ZipEq<A, B> {
    type Item = (A::Item, B::Item);

    #[track_caller]
    fn next(&mut self) -> Option<Self::Item> {
        match self.0.next_of_each() {
            (Some(x), Some(y)) => Some((x, y)),
            (None, None) => None,
            _ => panic!("one of two iterators that stated the same length is shorter"),
        }
    }

    fn size_hint(&self) -> (usize, Option<usize>) {
        self.0.size_hint()
    }
}

impl<A: ExactSizeIterator, B: ExactSizeIterator> ExactSizeIterator for ZipEq<A, B> {}

impl<A: ExactSizeIterator + FusedIterator, B: ExactSizeIterator + FusedIterator> FusedIterator for ZipEq<A, B> {}

impl<A: Debug, B: Debug> Debug for ZipEq<A, B> {
    fn fmt(&self, f: &mut Formatter<'_>) -> fmt::Result {
        self.0.fmt(f)
    }
}
