//! The bench for a memory in Rust that retries transactions itself.

use crate::bench::{main_of_table, run_table};
use crate::{ffi, Aborted, BenchResult, Plan, Status};
use std::cell::Cell;
use std::ffi::{c_uint, c_void};
use std::marker::PhantomData;
use std::mem::size_of;
use std::ptr::{from_mut, from_ref, null_mut};

/// A transactional memory that retries transactions itself, for example in `atomically(|transaction| ..)`. All threads call it at the same
/// time.
///
/// A register is a number below the plan's `registers`. No call may block forever, or use any function of this package except
/// [`pause`](crate::pause()), [`thread`](crate::thread()) and those of the attempt that it gets. If a call panics, the process ends.
///
/// [`bench_retrying`] runs it. In this example, the loop that retries is in the memory's own `atomically`:
///
/// ```
/// use std::sync::{Mutex, MutexGuard};
/// use tmwatch::{bench_retrying, Aborted, Attempt, Plan, RetryingMemory, Verdict};
///
/// struct OneLock(Mutex<[u64; 8]>);
///
/// impl OneLock {
///     fn atomically(&self, may_begin: impl Fn() -> bool, body: impl Fn(&mut MutexGuard<'_, [u64; 8]>) -> bool) -> bool {
///         while may_begin() {
///             let mut words = self.0.lock().unwrap();
///             let before = *words;
///             if body(&mut words) {
///                 return true;
///             }
///             *words = before;
///         }
///         false
///     }
/// }
///
/// impl RetryingMemory for OneLock {
///     type Transaction<'t> = MutexGuard<'t, [u64; 8]>;
///
///     fn run(&self, attempt: &Attempt<'_, Self>) -> bool {
///         self.atomically(|| attempt.begin(), |words| attempt.run_body(words))
///     }
///
///     fn read(&self, words: &mut MutexGuard<'_, [u64; 8]>, register: usize) -> Result<u64, Aborted> {
///         Ok(words[register])
///     }
///
///     fn write(&self, words: &mut MutexGuard<'_, [u64; 8]>, register: usize, value: u64) -> Result<(), Aborted> {
///         words[register] = value;
///         Ok(())
///     }
/// }
///
/// let result = bench_retrying(&OneLock(Mutex::new([0; 8])), &Plan { rounds: 100, ..Plan::default() })?;
/// assert_eq!(result.result.verdict, Verdict::OpaqueSoFar);
/// # Ok::<(), tmwatch::Status>(())
/// ```
pub trait RetryingMemory: Sync {
    /// The state of an attempt, which the body of a transaction gets and passes to [`Attempt::run_body`].
    type Transaction<'t>
    where
        Self: 't;

    /// Runs a transaction, in one or several attempts, and returns whether it committed.
    ///
    /// Call [`Attempt::begin`] before the memory begins an attempt, and after the previous attempt is rolled back. If it returns false,
    /// begin no attempt, and return false. Within the attempt, call [`Attempt::run_body`] once. If it returns true, commit; otherwise roll
    /// back.
    ///
    /// If the memory's own loop cannot make that call before it begins an attempt, let it make one attempt only, and loop here.
    fn run(&self, attempt: &Attempt<'_, Self>) -> bool;

    /// Returns the value of the register. After [`Aborted`], no other call of the attempt follows.
    fn read<'t>(&self, transaction: &mut Self::Transaction<'t>, register: usize) -> Result<u64, Aborted>;

    /// Sets the register to `value`. After [`Aborted`], no other call of the attempt follows.
    fn write<'t>(&self, transaction: &mut Self::Transaction<'t>, register: usize, value: u64) -> Result<(), Aborted>;

    /// Adds `addend` to the register, modulo 2^64, and returns the value before.
    fn add<'t>(&self, transaction: &mut Self::Transaction<'t>, register: usize, addend: u64) -> Result<u64, Aborted> {
        let before = self.read(transaction, register)?;
        self.write(transaction, register, before.wrapping_add(addend))?;
        Ok(before)
    }
}

/// The transaction that [`RetryingMemory::run`] executes. It cannot leave that call or its thread:
///
/// ```compile_fail,E0277
/// fn elsewhere<M: tmwatch::RetryingMemory>(attempt: &tmwatch::Attempt<'_, M>) {
///     std::thread::scope(|scope| scope.spawn(|| attempt.begin()).join().unwrap());
/// }
/// ```
pub struct Attempt<'a, M: RetryingMemory + ?Sized> {
    /// The bench's pointer.
    attempt: *mut c_void,
    /// The memory's transaction within `run_body`, otherwise null.
    transaction: &'a Cell<*mut c_void>,
    /// The memory's type, and no other one, not even with another lifetime, because `run_body` accesses its transactions. Makes the attempt
    /// neither `Send` nor `Sync`.
    memory: PhantomData<*mut M>,
}

impl<M: RetryingMemory + ?Sized> Attempt<'_, M> {
    /// Returns whether the memory should begin an attempt. Records the abort of the previous attempt, if there was one.
    ///
    /// With [`Schedule::Permits`](crate::Schedule::Permits), it may wait until attempts of other threads have ended, so hold no lock that
    /// they may wait for.
    ///
    /// # Panics
    /// Panics within `run_body`.
    pub fn begin(&self) -> bool {
        self.expect_outside();
        // SAFETY: the bench's pointer is valid until `run` returns, and only this thread has it.
        unsafe { ffi::tmwatch_begin_attempt(self.attempt) }
    }

    /// Calls the memory's `read`, `write` and `add` for this attempt, and returns whether to commit it.
    ///
    /// If it returns false, one of them returned [`Aborted`], or the transaction requests an abort, so roll the attempt back. `begin` then
    /// returns whether another attempt follows.
    ///
    /// # Panics
    /// Panics within `run_body`.
    pub fn run_body<'t>(&self, transaction: &mut M::Transaction<'t>) -> bool
    where
        M: 't,
    {
        self.expect_outside();
        self.transaction.set(from_mut(transaction).cast());
        // SAFETY: as in `begin`. The calls use the transaction only until this returns, and it is borrowed until then; no panic leaves
        // them.
        let commits = unsafe { ffi::tmwatch_run_body(self.attempt) };
        self.transaction.set(null_mut());
        commits
    }

    fn expect_outside(&self) {
        assert!(self.transaction.get().is_null(), "the attempt is within its calls");
    }
}

/// Returns the memory and its transaction, to which the bench's two pointers point.
///
/// # Safety
/// The bench calls within `Attempt::run_body`. It got the first pointer from `bench_retrying::<M>`, and the second points to the slot that it
/// allocated for it; no other call has the transaction.
unsafe fn parts<'t, 's, M: RetryingMemory + 't>(memory: *mut c_void, slot: *mut c_void) -> (&'s M, &'s mut M::Transaction<'t>) {
    // SAFETY: as the caller promises. The lifetime of the transaction is unknown here, but the code that uses it is right for any lifetime.
    unsafe { (&*memory.cast::<M>().cast_const(), &mut *(*slot.cast::<Cell<*mut c_void>>()).get().cast()) }
}

unsafe extern "C" fn read<M: RetryingMemory>(memory: *mut c_void, slot: *mut c_void, register: c_uint, value: *mut u64) -> bool {
    // SAFETY: the bench calls this function as the header says.
    let (memory, transaction) = unsafe { parts::<M>(memory, slot) };
    // SAFETY: the bench's pointer points to a number of its own.
    memory.read(transaction, register as usize).map(|read| unsafe { *value = read }).is_ok()
}

unsafe extern "C" fn write<M: RetryingMemory>(memory: *mut c_void, slot: *mut c_void, register: c_uint, value: u64) -> bool {
    // SAFETY: as in `read`.
    let (memory, transaction) = unsafe { parts::<M>(memory, slot) };
    memory.write(transaction, register as usize, value).is_ok()
}

unsafe extern "C" fn add<M: RetryingMemory>(
    memory: *mut c_void,
    slot: *mut c_void,
    register: c_uint,
    addend: u64,
    before: *mut u64,
) -> bool {
    // SAFETY: as in `read`.
    let (memory, transaction) = unsafe { parts::<M>(memory, slot) };
    // SAFETY: as in `read`.
    memory.add(transaction, register as usize, addend).map(|held| unsafe { *before = held }).is_ok()
}

unsafe extern "C" fn run<M: RetryingMemory>(memory: *mut c_void, slot: *mut c_void, attempt: *mut c_void) -> bool {
    // SAFETY: the bench passes the pointer that it got from `bench_retrying::<M>`, and a slot of this thread, whose bytes are initially all
    // 0, which is null.
    let (memory, transaction) = unsafe { (&*memory.cast::<M>().cast_const(), &*slot.cast::<Cell<*mut c_void>>()) };
    memory.run(&Attempt { attempt, transaction, memory: PhantomData })
}

fn table<M: RetryingMemory>(memory: &M) -> ffi::Memory {
    ffi::Memory {
        memory: from_ref(memory).cast_mut().cast(),
        tx_size: size_of::<Cell<*mut c_void>>(),
        begin: None,
        read: Some(read::<M>),
        write: Some(write::<M>),
        add: Some(add::<M>),
        commit: None,
        abort: None,
        run: Some(run::<M>),
    }
}

/// Runs the plan on a memory that retries transactions itself, like [`bench`](crate::bench()) on other memories.
///
/// May also return [`Status::WrongAnswer`] or [`Status::WrongPhase`], if the memory's `run` is wrong.
pub fn bench_retrying<M: RetryingMemory>(memory: &M, plan: &Plan) -> Result<BenchResult, Status> {
    // SAFETY: the memory is Sync and borrowed during the call; its functions expect the pointers that the bench passes.
    unsafe { run_table(&table(memory), plan) }
}

/// Runs the bench with the options of the command line, like [`bench_main`](crate::bench_main), on a memory that retries transactions
/// itself.
pub fn bench_retrying_main<M: RetryingMemory>(memory: &M) -> ! {
    // SAFETY: as in `bench_retrying`; the process ends before the memory does.
    unsafe { main_of_table(&table(memory)) }
}
