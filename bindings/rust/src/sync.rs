//! Atomic types, fences and a mutex for a memory under test. Use them instead of those of `core` and `std`.
//!
//! With the feature `steps`, each access is a step of the bench, and `--orders c++` simulates the C++20 memory model, which is also Rust's.
//! This needs no nightly compiler. Without the feature, they are the types of `core` and `std`.
//!
//! The bench does not see plain data, nor the synchronization of other types, such as `std::sync::Mutex`, `Arc` and channels. A correct
//! memory that relies on these may therefore come out violated with `--orders c++`.

pub mod atomic;

#[cfg(feature = "steps")]
mod mutex;

#[cfg(feature = "steps")]
pub use mutex::{Mutex, MutexGuard};
pub use std::sync::{LockResult, PoisonError, TryLockError, TryLockResult};
#[cfg(not(feature = "steps"))]
pub use std::sync::{Mutex, MutexGuard};
