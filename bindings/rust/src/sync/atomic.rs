//! The types and functions of `core::sync::atomic`.

#[cfg(not(feature = "steps"))]
pub use core::sync::atomic::*;

#[cfg(feature = "steps")]
pub use stepped::*;

#[cfg(feature = "steps")]
mod stepped {
    pub use core::sync::atomic::{compiler_fence, Ordering};
    use std::ffi::{c_int, c_void};
    use std::fmt;

    extern "C" {
        fn __tsan_atomic_thread_fence(order: c_int);
        fn tmwatch_step_gives_back(block: *const c_void, size: usize);
    }

    /// Returns the number of this order in C.
    const fn number(order: Ordering) -> c_int {
        match order {
            Ordering::Relaxed => 0,
            Ordering::Acquire => 2,
            Ordering::Release => 3,
            Ordering::AcqRel => 4,
            _ => 5,
        }
    }

    /// Returns the number of a load's order.
    fn of_load(order: Ordering) -> c_int {
        assert!(!matches!(order, Ordering::Release | Ordering::AcqRel), "no load releases");
        number(order)
    }

    /// Returns the number of a store's order.
    fn of_store(order: Ordering) -> c_int {
        assert!(!matches!(order, Ordering::Acquire | Ordering::AcqRel), "no store acquires");
        number(order)
    }

    /// Like `core::sync::atomic::fence`.
    #[inline(always)]
    pub fn fence(order: Ordering) {
        assert!(order != Ordering::Relaxed, "there is no relaxed fence");
        // SAFETY: any thread may call it.
        unsafe { __tsan_atomic_thread_fence(number(order)) }
    }

    /// Declares the functions of libtmwatch_steps.a for atomic accesses of one size.
    macro_rules! calls {
        ($module:ident $raw:ty: $load:ident $store:ident $swap:ident $strong:ident $weak:ident
         $add:ident $sub:ident $and:ident $or:ident $xor:ident $nand:ident) => {
            mod $module {
                use std::ffi::c_int;

                pub type Raw = $raw;

                extern "C" {
                    #[link_name = stringify!($load)]
                    pub fn load(at: *const Raw, order: c_int) -> Raw;
                    #[link_name = stringify!($store)]
                    pub fn store(at: *mut Raw, value: Raw, order: c_int);
                    #[link_name = stringify!($swap)]
                    pub fn swap(at: *mut Raw, value: Raw, order: c_int) -> Raw;
                    #[link_name = stringify!($strong)]
                    pub fn compare_exchange(at: *mut Raw, held: *mut Raw, value: Raw, order: c_int, failed: c_int) -> c_int;
                    #[link_name = stringify!($weak)]
                    pub fn compare_exchange_weak(at: *mut Raw, held: *mut Raw, value: Raw, order: c_int, failed: c_int) -> c_int;
                    #[link_name = stringify!($add)]
                    pub fn fetch_add(at: *mut Raw, value: Raw, order: c_int) -> Raw;
                    #[link_name = stringify!($sub)]
                    pub fn fetch_sub(at: *mut Raw, value: Raw, order: c_int) -> Raw;
                    #[link_name = stringify!($and)]
                    pub fn fetch_and(at: *mut Raw, value: Raw, order: c_int) -> Raw;
                    #[link_name = stringify!($or)]
                    pub fn fetch_or(at: *mut Raw, value: Raw, order: c_int) -> Raw;
                    #[link_name = stringify!($xor)]
                    pub fn fetch_xor(at: *mut Raw, value: Raw, order: c_int) -> Raw;
                    #[link_name = stringify!($nand)]
                    pub fn fetch_nand(at: *mut Raw, value: Raw, order: c_int) -> Raw;
                }
            }
        };
    }
    calls! {
        of_8 u8: __tsan_atomic8_load __tsan_atomic8_store __tsan_atomic8_exchange
        __tsan_atomic8_compare_exchange_strong __tsan_atomic8_compare_exchange_weak
        __tsan_atomic8_fetch_add __tsan_atomic8_fetch_sub __tsan_atomic8_fetch_and
        __tsan_atomic8_fetch_or __tsan_atomic8_fetch_xor __tsan_atomic8_fetch_nand
    }
    calls! {
        of_16 u16: __tsan_atomic16_load __tsan_atomic16_store __tsan_atomic16_exchange
        __tsan_atomic16_compare_exchange_strong __tsan_atomic16_compare_exchange_weak
        __tsan_atomic16_fetch_add __tsan_atomic16_fetch_sub __tsan_atomic16_fetch_and
        __tsan_atomic16_fetch_or __tsan_atomic16_fetch_xor __tsan_atomic16_fetch_nand
    }
    calls! {
        of_32 u32: __tsan_atomic32_load __tsan_atomic32_store __tsan_atomic32_exchange
        __tsan_atomic32_compare_exchange_strong __tsan_atomic32_compare_exchange_weak
        __tsan_atomic32_fetch_add __tsan_atomic32_fetch_sub __tsan_atomic32_fetch_and
        __tsan_atomic32_fetch_or __tsan_atomic32_fetch_xor __tsan_atomic32_fetch_nand
    }
    calls! {
        of_64 u64: __tsan_atomic64_load __tsan_atomic64_store __tsan_atomic64_exchange
        __tsan_atomic64_compare_exchange_strong __tsan_atomic64_compare_exchange_weak
        __tsan_atomic64_fetch_add __tsan_atomic64_fetch_sub __tsan_atomic64_fetch_and
        __tsan_atomic64_fetch_or __tsan_atomic64_fetch_xor __tsan_atomic64_fetch_nand
    }

    /// Defines methods that take a value and return the previous one.
    macro_rules! changes {
        ($name:ident, $of:ty, $module:ident, $into:expr, $from:expr, $($method:ident)*) => {$(
            #[doc = concat!("As `core::sync::atomic::", stringify!($name), "::", stringify!($method), "`.")]
            #[inline(always)]
            pub fn $method(&self, value: $of, order: Ordering) -> $of {
                // SAFETY: the place is an atomic of this size and alignment, and is valid during the call. The same holds in each method.
                ($from)(unsafe { $module::$method(self.at(), ($into)(value), number(order)) })
            }
        )*};
    }

    /// Defines the methods of all types, given the conversions from a value to bits and back. When an atomic is dropped, the bench forgets
    /// the history of its place.
    macro_rules! atomic {
        ($name:ident $(<$param:ident>)?, $of:ty, $module:ident, $into:expr, $from:expr, $($method:ident)*) => {
            #[doc = concat!("As `core::sync::atomic::", stringify!($name), "`.")]
            #[repr(transparent)]
            pub struct $name $(<$param>)? (core::sync::atomic::$name $(<$param>)?);

            impl $(<$param>)? $name $(<$param>)? {
                #[doc = concat!("As `core::sync::atomic::", stringify!($name), "::new`.")]
                pub const fn new(value: $of) -> Self {
                    Self(core::sync::atomic::$name::new(value))
                }

                fn at(&self) -> *mut $module::Raw {
                    self.0.as_ptr().cast()
                }

                fn forget(&self) {
                    // SAFETY: the bench uses the place only as a name, and does not access it.
                    unsafe { tmwatch_step_gives_back(self.at().cast_const().cast(), size_of::<$module::Raw>()) }
                }

                #[doc = concat!("As `core::sync::atomic::", stringify!($name), "::load`.")]
                #[inline(always)]
                pub fn load(&self, order: Ordering) -> $of {
                    // SAFETY: as below.
                    ($from)(unsafe { $module::load(self.at(), of_load(order)) })
                }

                #[doc = concat!("As `core::sync::atomic::", stringify!($name), "::store`.")]
                #[inline(always)]
                pub fn store(&self, value: $of, order: Ordering) {
                    // SAFETY: as below.
                    unsafe { $module::store(self.at(), ($into)(value), of_store(order)) }
                }

                #[doc = concat!("As `core::sync::atomic::", stringify!($name), "::compare_exchange`.")]
                #[inline(always)]
                pub fn compare_exchange(&self, held: $of, value: $of, order: Ordering, failed: Ordering) -> Result<$of, $of> {
                    let mut seen = ($into)(held);
                    // SAFETY: as below.
                    match unsafe { $module::compare_exchange(self.at(), &mut seen, ($into)(value), number(order), of_load(failed)) } {
                        0 => Err(($from)(seen)),
                        _ => Ok(held),
                    }
                }

                #[doc = concat!("As `core::sync::atomic::", stringify!($name), "::compare_exchange_weak`.")]
                #[inline(always)]
                pub fn compare_exchange_weak(&self, held: $of, value: $of, order: Ordering, failed: Ordering) -> Result<$of, $of> {
                    let mut seen = ($into)(held);
                    // SAFETY: as below.
                    match unsafe { $module::compare_exchange_weak(self.at(), &mut seen, ($into)(value), number(order), of_load(failed)) } {
                        0 => Err(($from)(seen)),
                        _ => Ok(held),
                    }
                }

                #[doc = concat!("As `core::sync::atomic::", stringify!($name), "::fetch_update`.")]
                #[inline(always)]
                pub fn fetch_update(
                    &self,
                    order: Ordering,
                    failed: Ordering,
                    mut update: impl FnMut($of) -> Option<$of>,
                ) -> Result<$of, $of> {
                    let mut held = self.load(failed);
                    while let Some(value) = update(held) {
                        match self.compare_exchange_weak(held, value, order, failed) {
                            Ok(held) => return Ok(held),
                            Err(seen) => held = seen,
                        }
                    }
                    Err(held)
                }

                #[doc = concat!("As `core::sync::atomic::", stringify!($name), "::get_mut`.")]
                pub fn get_mut(&mut self) -> &mut $of {
                    self.forget();
                    self.0.get_mut()
                }

                #[doc = concat!("As `core::sync::atomic::", stringify!($name), "::into_inner`.")]
                pub fn into_inner(mut self) -> $of {
                    *self.0.get_mut()
                }

                #[doc = concat!("As `core::sync::atomic::", stringify!($name), "::as_ptr`.")]
                pub const fn as_ptr(&self) -> *mut $of {
                    self.0.as_ptr()
                }

                changes!($name, $of, $module, $into, $from, swap $($method)*);
            }

            impl $(<$param>)? Drop for $name $(<$param>)? {
                fn drop(&mut self) {
                    self.forget();
                }
            }

            impl $(<$param>)? From<$of> for $name $(<$param>)? {
                fn from(value: $of) -> Self {
                    Self::new(value)
                }
            }

            impl $(<$param>)? Default for $name $(<$param>)? {
                fn default() -> Self {
                    Self(core::sync::atomic::$name::default())
                }
            }

            impl $(<$param>)? fmt::Debug for $name $(<$param>)? {
                fn fmt(&self, to: &mut fmt::Formatter<'_>) -> fmt::Result {
                    fmt::Debug::fmt(&self.0, to)
                }
            }
        };
    }

    /// Defines the types of integers.
    macro_rules! integers {
        ($($name:ident $of:ty, $module:ident;)*) => {$(
            atomic!($name, $of, $module, |it: $of| it as $module::Raw, |it: $module::Raw| it as $of,
                    fetch_add fetch_sub fetch_and fetch_or fetch_xor fetch_nand);

            impl $name {
                #[doc = concat!("As `core::sync::atomic::", stringify!($name), "::fetch_max`.")]
                #[inline(always)]
                pub fn fetch_max(&self, value: $of, order: Ordering) -> $of {
                    self.always(order, |held| held.max(value))
                }

                #[doc = concat!("As `core::sync::atomic::", stringify!($name), "::fetch_min`.")]
                #[inline(always)]
                pub fn fetch_min(&self, value: $of, order: Ordering) -> $of {
                    self.always(order, |held| held.min(value))
                }

                #[inline(always)]
                fn always(&self, order: Ordering, update: impl Fn($of) -> $of) -> $of {
                    self.fetch_update(order, Ordering::Relaxed, |held| Some(update(held))).unwrap_or_else(|held| held)
                }
            }
        )*};
    }
    integers! {
        AtomicU8 u8, of_8;
        AtomicU16 u16, of_16;
        AtomicU32 u32, of_32;
        AtomicU64 u64, of_64;
        AtomicUsize usize, of_64;
        AtomicI8 i8, of_8;
        AtomicI16 i16, of_16;
        AtomicI32 i32, of_32;
        AtomicI64 i64, of_64;
        AtomicIsize isize, of_64;
    }
    atomic!(AtomicBool, bool, of_8, u8::from, |it: u8| it != 0, fetch_and fetch_or fetch_xor);
    atomic!(AtomicPtr<T>, *mut T, of_64, |it: *mut T| it as usize as u64, |it: u64| it as usize as *mut T,);

    impl AtomicBool {
        /// Like `core::sync::atomic::AtomicBool::fetch_not`.
        #[inline(always)]
        pub fn fetch_not(&self, order: Ordering) -> bool {
            self.fetch_xor(true, order)
        }

        /// Like `core::sync::atomic::AtomicBool::fetch_nand`.
        #[inline(always)]
        pub fn fetch_nand(&self, value: bool, order: Ordering) -> bool {
            if value {
                self.fetch_xor(true, order)
            } else {
                self.swap(true, order)
            }
        }
    }
}
