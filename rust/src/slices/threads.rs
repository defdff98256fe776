//! Without the feature `parallel`, and on systems of 32 bits, no call is cut.

pub(super) fn reverse<F>(_: &mut [F], _: usize) -> bool {
    false
}

pub(super) fn transpose<T>(_: &[T], _: &mut [T], _: usize, _: usize) -> bool {
    false
}
