//! The tests that need unsafe code.

#[cfg(target_os = "linux")]
mod guarded;
