//! Instructions on the caches, which change no memory.

/// Asks the processor to read a cache line. Any address may be given.
#[inline(always)]
pub(super) fn prefetch<T>(_address: *const T) {
    // SAFETY: this instruction changes no memory and does not fail, whatever the address is.
    #[cfg(all(target_arch = "x86_64", target_feature = "sse2"))]
    unsafe {
        use core::arch::x86_64::{_MM_HINT_T0, _mm_prefetch};
        _mm_prefetch::<_MM_HINT_T0>(_address.cast());
    }
}

/// Waits until the stores past the caches are done. They are not ordered with other stores (Intel's manual, volume 2,
/// "MOVNTDQ"): without this, another thread could learn that a part is done, and then read what was there before.
pub(super) fn fence() {
    // SAFETY: it only waits.
    #[cfg(all(target_arch = "x86_64", target_feature = "sse2"))]
    unsafe {
        core::arch::x86_64::_mm_sfence()
    }
}
