//! The types of `tmwatch::sync` behave like those of `core` and `std`, with the feature `steps` and without it; and the bench judges
//! memories that use them under the C++20 memory model.

use std::fmt::Debug;
use std::sync::atomic as plain;
use tmwatch::sync::atomic::{self, fence, AtomicBool, AtomicPtr, AtomicU64, Ordering};
use tmwatch::sync::{Mutex, TryLockError};
use tmwatch::{bench, Aborted, Memory, Orders, Plan, Schedule, Status, Verdict};
use Ordering::{AcqRel, Acquire, Relaxed, Release, SeqCst};

/// The methods that both types have.
trait Integer<T> {
    fn call(&self, method: &str, value: T, order: Ordering) -> T;
    fn swap_if(&self, held: T, value: T, order: Ordering, failed: Ordering) -> Result<T, T>;
    fn update(&self, update: fn(T) -> Option<T>) -> Result<T, T>;
}

macro_rules! integer {
    ($module:ident $name:ident $of:ty) => {
        impl Integer<$of> for $module::$name {
            fn call(&self, method: &str, value: $of, order: Ordering) -> $of {
                match method {
                    "load" => self.load(order),
                    "store" => {
                        self.store(value, order);
                        value
                    }
                    "add" => self.fetch_add(value, order),
                    "sub" => self.fetch_sub(value, order),
                    "and" => self.fetch_and(value, order),
                    "or" => self.fetch_or(value, order),
                    "xor" => self.fetch_xor(value, order),
                    "nand" => self.fetch_nand(value, order),
                    "max" => self.fetch_max(value, order),
                    "min" => self.fetch_min(value, order),
                    _ => self.swap(value, order),
                }
            }

            fn swap_if(&self, held: $of, value: $of, order: Ordering, failed: Ordering) -> Result<$of, $of> {
                self.compare_exchange(held, value, order, failed)
            }

            fn update(&self, update: fn($of) -> Option<$of>) -> Result<$of, $of> {
                self.fetch_update(AcqRel, Acquire, update)
            }
        }
    };
}

/// Makes the same calls on both, and compares their return values and their values afterwards.
fn compare<T: Copy + Debug + PartialEq>(one: &dyn Integer<T>, other: &dyn Integer<T>, values: [T; 3], update: fn(T) -> Option<T>) {
    let calls =
        ["add", "sub", "swap", "and", "or", "xor", "nand", "max", "min"].map(|it| (it, [Relaxed, Acquire, Release, AcqRel, SeqCst]));
    for value in values {
        for (method, orders) in calls {
            for order in orders {
                assert_eq!(one.call(method, value, order), other.call(method, value, order), "{method}");
                assert_eq!(one.call("load", value, Acquire), other.call("load", value, SeqCst), "{method}");
            }
        }
        for held in [one.call("load", value, Relaxed), value, values[0]] {
            assert_eq!(one.swap_if(held, value, AcqRel, Acquire), other.swap_if(held, value, AcqRel, Acquire));
            assert_eq!(one.call("load", value, Relaxed), other.call("load", value, Relaxed));
        }
        assert_eq!(one.update(update), other.update(update));
        assert_eq!(one.update(|_| None), other.update(|_| None));
        assert_eq!(one.call("store", value, Release), one.call("load", value, SeqCst));
        other.call("store", value, SeqCst);
    }
}

macro_rules! integers {
    ($($name:ident $of:ty),*) => {
        $(
            integer!(plain $name $of);
            #[cfg(feature = "steps")]
            integer!(atomic $name $of);
        )*

        #[test]
        fn integers_are_those_of_core() {
            $({
                let (mut one, other) = (atomic::$name::new(5), plain::$name::new(5));
                compare::<$of>(&one, &other, [1, <$of>::MAX, <$of>::MAX / 3], |it| Some(it.wrapping_mul(7)));
                *one.get_mut() = 9;
                while one.compare_exchange_weak(9, 8, SeqCst, Relaxed).is_err() {}
                assert_eq!(one.compare_exchange_weak(9, 7, SeqCst, Relaxed), Err(8));
                assert_eq!((format!("{one:?}"), one.into_inner()), ("8".into(), 8));
                assert_eq!(format!("{:?} {:?}", atomic::$name::default(), atomic::$name::from(3)), "0 3");
            })*
        }
    };
}
integers!(
    AtomicU8 u8, AtomicU16 u16, AtomicU32 u32, AtomicU64 u64, AtomicUsize usize, AtomicI8 i8, AtomicI16 i16, AtomicI32 i32, AtomicI64 i64,
    AtomicIsize isize
);

#[test]
fn booleans_are_those_of_core() {
    let (one, other) = (AtomicBool::new(false), plain::AtomicBool::new(false));
    for value in [true, true, false, true, false, false] {
        assert_eq!(one.fetch_or(value, AcqRel), other.fetch_or(value, AcqRel));
        assert_eq!(one.fetch_xor(value, Relaxed), other.fetch_xor(value, Relaxed));
        assert_eq!(one.fetch_nand(value, SeqCst), other.fetch_nand(value, SeqCst));
        assert_eq!(one.fetch_and(value, Release), other.fetch_and(value, Release));
        assert_eq!(one.fetch_not(Acquire), other.fetch_not(Acquire));
        assert_eq!(one.swap(value, SeqCst), other.swap(value, SeqCst));
        assert_eq!(one.compare_exchange(value, !value, SeqCst, Acquire), other.compare_exchange(value, !value, SeqCst, Acquire));
        assert_eq!(one.load(Relaxed), other.load(Relaxed));
    }
}

#[test]
fn pointers_are_those_of_core() {
    let mut values = [3, 4];
    let (first, second) = (&raw mut values[0], &raw mut values[1]);
    let one = AtomicPtr::new(first);
    assert_eq!(one.swap(second, AcqRel), first);
    assert_eq!(one.compare_exchange(first, first, SeqCst, Relaxed), Err(second));
    assert_eq!(one.compare_exchange(second, first, SeqCst, Relaxed), Ok(second));
    // SAFETY: the pointer is to `values`, which lives still.
    assert_eq!(unsafe { *one.load(Acquire) }, 3);
    one.store(std::ptr::null_mut(), Release);
    assert!(one.into_inner().is_null());
}

#[test]
fn a_mutex_is_that_of_std() {
    let mut mutex = Mutex::new(3);
    *mutex.get_mut().unwrap() += 1;
    let mut guard = mutex.lock().unwrap();
    *guard += 1;
    assert!(matches!(mutex.try_lock(), Err(TryLockError::WouldBlock)));
    drop(guard);
    assert_eq!(format!("{:?}", mutex.try_lock().unwrap()), "5");
    std::thread::scope(|scope| {
        for _ in 0..4 {
            scope.spawn(|| (0..1000).for_each(|_| *mutex.lock().unwrap() += 1));
        }
    });
    let poisons = || {
        let _guard = mutex.lock().unwrap();
        panic!("it is to be poisoned");
    };
    assert!(std::thread::scope(|scope| scope.spawn(poisons).join()).is_err() && mutex.is_poisoned());
    assert_eq!(*mutex.lock().unwrap_err().into_inner(), 4005);
    assert!(matches!(mutex.try_lock(), Err(TryLockError::Poisoned(_))));
    assert_eq!(mutex.into_inner().unwrap_err().into_inner(), 4005);
}

/// One lock for all words, which nothing else orders.
struct Global<L> {
    lock: L,
    words: [AtomicU64; 8],
}

struct Locked<G> {
    _guard: G,
    before: Vec<(usize, u64)>,
}

/// A lock of a memory.
trait Lock: Sync {
    type Guard<'l>
    where
        Self: 'l;
    fn lock(&self) -> Self::Guard<'_>;
}

impl Lock for Mutex<()> {
    type Guard<'l> = tmwatch::sync::MutexGuard<'l, ()>;
    fn lock(&self) -> Self::Guard<'_> {
        self.lock().unwrap()
    }
}

/// A mutex that is only tried.
struct Tried(Mutex<()>);

impl Lock for Tried {
    type Guard<'l> = tmwatch::sync::MutexGuard<'l, ()>;
    fn lock(&self) -> Self::Guard<'_> {
        loop {
            if let Ok(guard) = self.0.try_lock() {
                return guard;
            }
        }
    }
}

/// How a word of a lock is taken or released, or its number is waited for: a method, and its memory order.
type By = (&'static str, Ordering);

/// A lock in an atomic word, which is 0 while the lock is free, or 1 if taking it decrements the word, or the number of the next thread.
struct Spin {
    taken: By,
    given: By,
    word: AtomicU64,
    tickets: AtomicU64,
}
struct SpinGuard<'l>(&'l Spin);

const SMALLER: [&str; 2] = ["and", "min"];
const WAITS: [&str; 4] = ["load", "failed exchange", "failed weak exchange", "failed update"];

impl Spin {
    fn new(taken: By, given: By) -> Self {
        Spin { taken, given, word: AtomicU64::new(SMALLER.contains(&taken.0).into()), tickets: AtomicU64::new(0) }
    }

    /// Changes the word with this method, or leaves it unchanged. Returns the previous value, if that is known.
    fn change(&self, (method, order): By, held: u64, value: u64) -> Result<u64, u64> {
        let word = &self.word;
        Ok(match method {
            "exchange" => return word.compare_exchange(held, value, order, Relaxed),
            "weak exchange" => return word.compare_exchange_weak(held, value, order, Relaxed),
            "update" => return word.fetch_update(order, Relaxed, |it| (it == held).then_some(value)),
            "add" => word.fetch_add(value.wrapping_sub(held), order),
            "sub" => word.fetch_sub(held.wrapping_sub(value), order),
            "or" => word.fetch_or(value, order),
            "and" => word.fetch_and(value, order),
            "xor" => word.fetch_xor(held ^ value, order),
            "nand" => word.fetch_nand(!value, order),
            "max" => word.fetch_max(value, order),
            "min" => word.fetch_min(value, order),
            "swap" => word.swap(value, order),
            _ => {
                word.store(value, order);
                held
            }
        })
    }

    /// Returns the word's value as this method sees it, without a change.
    fn see(&self, (method, order): By) -> u64 {
        const NEVER: u64 = u64::MAX;
        match method {
            "load" => self.word.load(order),
            "failed exchange" => self.word.compare_exchange(NEVER, 0, Relaxed, order).unwrap_err(),
            "failed weak exchange" => self.word.compare_exchange_weak(NEVER, 0, Relaxed, order).unwrap_err(),
            _ => self.word.fetch_update(Relaxed, order, |_| None).unwrap_err(),
        }
    }
}

impl Lock for Spin {
    type Guard<'l> = SpinGuard<'l>;
    fn lock(&self) -> SpinGuard<'_> {
        let (free, taken) = if SMALLER.contains(&self.taken.0) { (1, 0) } else { (0, u64::MAX) };
        if WAITS.contains(&self.taken.0) {
            let ticket = self.tickets.fetch_add(1, Relaxed);
            while self.see(self.taken) != ticket {}
        } else {
            while self.change(self.taken, free, taken) != Ok(free) {}
        }
        SpinGuard(self)
    }
}

impl Drop for SpinGuard<'_> {
    fn drop(&mut self) {
        let Spin { taken, given, word, .. } = self.0;
        let held = word.load(Relaxed);
        let free = if WAITS.contains(&taken.0) { held + 1 } else { SMALLER.contains(&taken.0).into() };
        while self.0.change(*given, held, free) != Ok(held) {}
    }
}

/// A lock for two threads, each of which announces itself and then checks whether the other one has: with a method and its order, the order
/// of a fence, and the order of the check.
#[cfg(feature = "steps")]
struct Polite {
    comes: [AtomicU64; 2],
    said: By,
    fence: Ordering,
    looked: Ordering,
}
#[cfg(feature = "steps")]
struct PoliteGuard<'l>(&'l Polite);

#[cfg(feature = "steps")]
impl Lock for Polite {
    type Guard<'l> = PoliteGuard<'l>;
    fn lock(&self) -> PoliteGuard<'_> {
        loop {
            match self.said {
                ("swap", order) => drop([self.comes[tmwatch::thread()].swap(1, order)]),
                (_, order) => self.comes[tmwatch::thread()].store(1, order),
            }
            fence(self.fence);
            if self.comes[1 - tmwatch::thread()].load(self.looked) == 0 {
                return PoliteGuard(self);
            }
            self.comes[tmwatch::thread()].store(0, Release);
        }
    }
}

#[cfg(feature = "steps")]
impl Drop for PoliteGuard<'_> {
    fn drop(&mut self) {
        self.0.comes[tmwatch::thread()].store(0, Release);
    }
}

impl<L: Lock> Memory for Global<L> {
    type Transaction<'m>
        = Locked<L::Guard<'m>>
    where
        L: 'm;

    fn begin(&self) -> Result<Locked<L::Guard<'_>>, Aborted> {
        Ok(Locked { _guard: self.lock.lock(), before: Vec::new() })
    }

    fn read<'m>(&'m self, _: &mut Self::Transaction<'m>, register: usize) -> Result<u64, Aborted> {
        Ok(self.words[register].load(Relaxed))
    }

    fn write<'m>(&'m self, it: &mut Self::Transaction<'m>, register: usize, value: u64) -> Result<(), Aborted> {
        it.before.push((register, self.words[register].load(Relaxed)));
        self.words[register].store(value, Relaxed);
        Ok(())
    }

    fn commit<'m>(&'m self, _: Self::Transaction<'m>) -> Result<(), Aborted> {
        Ok(())
    }

    fn abort<'m>(&'m self, it: Self::Transaction<'m>) {
        for (register, value) in it.before.iter().rev() {
            self.words[*register].store(*value, Relaxed);
        }
    }
}

fn judge<L: Lock>(lock: L, orders: Orders) -> Result<tmwatch::BenchResult, Status> {
    let memory = Global { lock, words: Default::default() };
    bench(&memory, &Plan { rounds: 1000, threads: 2, schedule: Schedule::Steps, orders: Some(orders), ..Plan::default() })
}

fn spin(orders: Orders) -> tmwatch::BenchResult {
    judge(Spin::new(("swap", Acquire), ("store", Relaxed)), orders).unwrap()
}

#[test]
fn orders_are_seen_with_the_feature_alone() {
    fence(SeqCst);
    let right = judge(Mutex::new(()), Orders::Cxx);
    if !cfg!(feature = "steps") {
        assert_eq!(right.unwrap_err(), Status::BadBounds);
        return;
    }
    for right in [right, judge(Tried(Mutex::new(())), Orders::Cxx)].map(Result::unwrap) {
        assert_eq!((right.result.verdict, right.stalls, right.stale_loads.as_str()), (Verdict::OpaqueSoFar, 0, ""));
    }
    assert_eq!(spin(Orders::Sequential).result.verdict, Verdict::OpaqueSoFar);
    assert_eq!(spin(Orders::X86).result.verdict, Verdict::OpaqueSoFar);
    let wrong = spin(Orders::Cxx);
    assert!(matches!(wrong.result.verdict, Verdict::Violated { .. }) && wrong.is_deterministic);
    assert!(wrong.reproducer.ends_with(" --orders c++"), "{}", wrong.reproducer);
    assert!(wrong.stale_loads.contains("stale load"), "{}", wrong.stale_loads);
}

/// A mutex that is only tried. It counts how often it was free, and how often held, while the other thread was releasing it.
#[cfg(feature = "steps")]
#[derive(Default)]
struct Returned {
    mutex: Mutex<()>,
    returns: [plain::AtomicU64; 2],
    free: plain::AtomicU64,
    held: plain::AtomicU64,
}
#[cfg(feature = "steps")]
struct ReturnedGuard<'l>(Option<tmwatch::sync::MutexGuard<'l, ()>>, &'l plain::AtomicU64);

#[cfg(feature = "steps")]
impl Lock for Returned {
    type Guard<'l> = ReturnedGuard<'l>;
    fn lock(&self) -> ReturnedGuard<'_> {
        let (own, other) = (&self.returns[tmwatch::thread()], &self.returns[1 - tmwatch::thread()]);
        loop {
            let before = other.load(SeqCst);
            let tried = self.mutex.try_lock();
            if before % 2 == 1 && other.load(SeqCst) == before {
                if tried.is_ok() { &self.free } else { &self.held }.fetch_add(1, SeqCst);
            }
            if let Ok(guard) = tried {
                return ReturnedGuard(Some(guard), own);
            }
        }
    }
}

#[cfg(feature = "steps")]
impl Drop for ReturnedGuard<'_> {
    fn drop(&mut self) {
        self.1.fetch_add(1, SeqCst);
        self.0 = None;
        self.1.fetch_add(1, SeqCst);
    }
}

#[test]
#[cfg(feature = "steps")]
fn a_mutex_is_free_at_the_step_at_which_it_is_given_back() {
    let memory = Global { lock: Returned::default(), words: Default::default() };
    bench(&memory, &Plan { rounds: 200, threads: 2, schedule: Schedule::Steps, ..Plan::default() }).unwrap();
    assert!(memory.lock.free.load(SeqCst) > 0);
    assert_eq!(memory.lock.held.load(SeqCst), 0);
}

/// Returns whether a lock orders the accesses that it guards.
#[cfg(feature = "steps")]
fn holds(taken: By, given: By) -> bool {
    let verdict = judge(Spin::new(taken, given), Orders::Cxx).unwrap().result.verdict;
    assert!(matches!(verdict, Verdict::OpaqueSoFar | Verdict::Violated { .. }), "{taken:?} {given:?} {verdict:?}");
    verdict == Verdict::OpaqueSoFar
}

#[test]
#[cfg(feature = "steps")]
fn each_method_has_the_order_that_it_is_given() {
    for method in ["swap", "exchange", "weak exchange", "update", "or", "nand", "and", "max", "min"] {
        for (order, orders) in [(Acquire, true), (AcqRel, true), (SeqCst, true), (Release, false), (Relaxed, false)] {
            assert_eq!(holds((method, order), ("store", Release)), orders, "taken by {method}, {order:?}");
        }
    }
    for method in WAITS {
        for (order, orders) in [(Acquire, true), (SeqCst, true), (Relaxed, false)] {
            assert_eq!(holds((method, order), ("store", Release)), orders, "waited for by {method}, {order:?}");
        }
    }
    for method in ["swap", "exchange", "weak exchange", "update", "add", "sub", "xor", "nand", "store"] {
        for (order, orders) in [(Release, true), (AcqRel, true), (SeqCst, true), (Acquire, false), (Relaxed, false)] {
            if method != "store" || !matches!(order, AcqRel | Acquire) {
                assert_eq!(holds(("swap", Acquire), (method, order)), orders, "returned by {method}, {order:?}");
            }
        }
    }
}

#[test]
#[cfg(feature = "steps")]
fn an_order_of_all_is_more_than_to_acquire_and_release() {
    let holds = |said, fence, looked| {
        let lock = Polite { comes: Default::default(), said, fence, looked };
        judge(lock, Orders::Cxx).unwrap().result.verdict == Verdict::OpaqueSoFar
    };
    for method in ["swap", "store"] {
        assert!(holds((method, SeqCst), Acquire, SeqCst), "{method}");
        assert!(holds((method, Relaxed), SeqCst, Acquire), "{method}, and a fence");
        assert!(!holds((method, SeqCst), Acquire, Acquire), "{method}, and a look that acquires");
        assert!(!holds((method, Release), Acquire, SeqCst), "{method} that releases");
        assert!(!holds((method, Relaxed), AcqRel, Acquire), "{method}, and a fence that acquires and releases");
    }
    assert!(!holds(("swap", AcqRel), Acquire, SeqCst), "swap that acquires and releases");
}

#[test]
fn orders_that_no_access_has_are_refused() {
    let word = AtomicU64::new(1);
    let refusal_of = |call: &dyn Fn() -> bool| {
        let ended = std::panic::catch_unwind(std::panic::AssertUnwindSafe(call)).err()?;
        Some(if cfg!(feature = "steps") { *ended.downcast::<&str>().unwrap() } else { "" })
    };
    for order in [Relaxed, Acquire, Release, AcqRel, SeqCst] {
        let load = matches!(order, Release | AcqRel).then_some("no load releases");
        let store = matches!(order, Acquire | AcqRel).then_some("no store acquires");
        let of_fence = (order == Relaxed).then_some("there is no relaxed fence");
        let calls: [(&dyn Fn() -> bool, Option<&str>); 6] = [
            (&|| word.load(order) == 1, load),
            (&|| word.compare_exchange(1, 1, SeqCst, order).is_ok(), load),
            (&|| word.compare_exchange_weak(2, 1, SeqCst, order).is_ok(), load),
            (&|| word.fetch_update(SeqCst, order, |_| None).is_ok(), load),
            (&|| [word.store(1, order)].is_empty(), store),
            (&|| [fence(order)].is_empty(), of_fence),
        ];
        for (place, (call, said)) in calls.into_iter().enumerate() {
            let said = said.map(|it| if cfg!(feature = "steps") { it } else { "" });
            assert_eq!(refusal_of(call), said, "call {place}, {order:?}");
        }
    }
}

/// A lock for all words, and atomics that threads replace before each transaction, under a lock that the bench does not see. A thread could
/// therefore still see old stores to an earlier atomic, if the bench took the new one for the same.
struct Renewed(Mutex<[u64; 8]>, std::sync::Mutex<[AtomicU64; 3]>);

struct Renewing<'m> {
    words: tmwatch::sync::MutexGuard<'m, [u64; 8]>,
    before: [u64; 8],
    is_seen: bool,
}

impl Renewed {
    /// Returns whether each atomic has its new value.
    fn is_seen(&self) -> bool {
        let Ok(mut places) = self.1.try_lock() else { return true };
        let is_seen = places.iter().all(|it| it.load(Relaxed) == 7);
        places.iter().for_each(|it| it.store(8, Relaxed));
        places.iter().for_each(|it| it.store(7, Relaxed));
        places[0] = AtomicU64::new(7);
        *places[1].get_mut() = 7;
        let last = std::mem::replace(&mut places[2], AtomicU64::new(9)).into_inner();
        *places[2].get_mut() = last;
        is_seen
    }
}

impl Memory for Renewed {
    type Transaction<'m> = Renewing<'m>;

    fn begin(&self) -> Result<Renewing<'_>, Aborted> {
        let is_seen = self.is_seen();
        let words = self.0.lock().unwrap();
        let before = *words;
        Ok(Renewing { words, before, is_seen })
    }

    fn read<'m>(&'m self, it: &mut Renewing<'m>, register: usize) -> Result<u64, Aborted> {
        Ok(it.words[register] + u64::from(!it.is_seen))
    }

    fn write<'m>(&'m self, it: &mut Renewing<'m>, register: usize, value: u64) -> Result<(), Aborted> {
        it.words[register] = value;
        Ok(())
    }

    fn commit<'m>(&'m self, _: Renewing<'m>) -> Result<(), Aborted> {
        Ok(())
    }

    fn abort<'m>(&'m self, mut it: Renewing<'m>) {
        *it.words = it.before;
    }
}

#[test]
fn what_a_place_held_before_is_not_seen() {
    let memory = Renewed(Mutex::new([0; 8]), std::sync::Mutex::new([7, 7, 7].map(AtomicU64::new)));
    let orders = Some(if cfg!(feature = "steps") { Orders::Cxx } else { Orders::Sequential });
    let result = bench(&memory, &Plan { rounds: 200, schedule: Schedule::Steps, orders, ..Plan::default() }).unwrap();
    assert_eq!((result.result.verdict, result.stalls), (Verdict::OpaqueSoFar, 0));
}
