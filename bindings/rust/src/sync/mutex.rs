//! A mutex whose waits are steps, and whose synchronization the bench sees.

use std::ffi::c_void;
use std::fmt;
use std::ops::{Deref, DerefMut};
use std::ptr::from_ref;
use std::sync::{self, LockResult, PoisonError, TryLockError, TryLockResult};

extern "C" {
    fn tmwatch_lock_tried() -> bool;
    fn tmwatch_lock_awaited(lock: *const c_void) -> bool;
    fn tmwatch_lock_taken(lock: *const c_void);
    fn tmwatch_lock_returning(lock: *const c_void);
    fn tmwatch_lock_returned(lock: *const c_void);
}

/// Like `std::sync::Mutex`.
#[derive(Default)]
pub struct Mutex<T: ?Sized>(sync::Mutex<T>);

/// Like `std::sync::MutexGuard`.
pub struct MutexGuard<'m, T: ?Sized> {
    /// Some until it is dropped.
    guard: Option<sync::MutexGuard<'m, T>>,
    lock: &'m Mutex<T>,
}

impl<T> Mutex<T> {
    /// Like `std::sync::Mutex::new`.
    pub const fn new(value: T) -> Self {
        Mutex(sync::Mutex::new(value))
    }

    /// Like `std::sync::Mutex::into_inner`.
    pub fn into_inner(self) -> LockResult<T> {
        self.0.into_inner()
    }
}

impl<T: ?Sized> Mutex<T> {
    fn place(&self) -> *const c_void {
        from_ref(self).cast()
    }

    /// Reports that this thread took the lock, and returns its guard.
    fn taken<'m>(&'m self, guard: sync::MutexGuard<'m, T>) -> MutexGuard<'m, T> {
        // SAFETY: the bench uses the lock's place only as a name, and does not access it. The same holds for all calls below.
        unsafe { tmwatch_lock_taken(self.place()) };
        MutexGuard { guard: Some(guard), lock: self }
    }

    /// Like `std::sync::Mutex::lock`. With `--schedule steps`, it is retried whenever other threads have run.
    pub fn lock(&self) -> LockResult<MutexGuard<'_, T>> {
        // SAFETY: any thread may call them.
        let mut tries = unsafe { tmwatch_lock_tried() };
        while tries {
            match self.0.try_lock() {
                Ok(guard) => return Ok(self.taken(guard)),
                Err(TryLockError::Poisoned(it)) => return Err(PoisonError::new(self.taken(it.into_inner()))),
                Err(TryLockError::WouldBlock) => tries = unsafe { tmwatch_lock_awaited(self.place()) },
            }
        }
        match self.0.lock() {
            Ok(guard) => Ok(self.taken(guard)),
            Err(it) => Err(PoisonError::new(self.taken(it.into_inner()))),
        }
    }

    /// Like `std::sync::Mutex::try_lock`.
    pub fn try_lock(&self) -> TryLockResult<MutexGuard<'_, T>> {
        // SAFETY: any thread may call it.
        unsafe { tmwatch_lock_tried() };
        match self.0.try_lock() {
            Ok(guard) => Ok(self.taken(guard)),
            Err(TryLockError::Poisoned(it)) => Err(TryLockError::Poisoned(PoisonError::new(self.taken(it.into_inner())))),
            Err(TryLockError::WouldBlock) => Err(TryLockError::WouldBlock),
        }
    }

    /// Like `std::sync::Mutex::is_poisoned`.
    pub fn is_poisoned(&self) -> bool {
        self.0.is_poisoned()
    }

    /// Like `std::sync::Mutex::get_mut`.
    pub fn get_mut(&mut self) -> LockResult<&mut T> {
        self.0.get_mut()
    }
}

impl<T: ?Sized + fmt::Debug> fmt::Debug for Mutex<T> {
    fn fmt(&self, to: &mut fmt::Formatter<'_>) -> fmt::Result {
        self.0.fmt(to)
    }
}

impl<T: ?Sized> Drop for MutexGuard<'_, T> {
    fn drop(&mut self) {
        // SAFETY: as above.
        unsafe { tmwatch_lock_returning(self.lock.place()) };
        self.guard = None;
        // SAFETY: as above.
        unsafe { tmwatch_lock_returned(self.lock.place()) };
    }
}

impl<T: ?Sized> Deref for MutexGuard<'_, T> {
    type Target = T;

    fn deref(&self) -> &T {
        self.guard.as_ref().expect("it is held until it is dropped")
    }
}

impl<T: ?Sized> DerefMut for MutexGuard<'_, T> {
    fn deref_mut(&mut self) -> &mut T {
        self.guard.as_mut().expect("it is held until it is dropped")
    }
}

impl<T: ?Sized + fmt::Debug> fmt::Debug for MutexGuard<'_, T> {
    fn fmt(&self, to: &mut fmt::Formatter<'_>) -> fmt::Result {
        (**self).fmt(to)
    }
}
