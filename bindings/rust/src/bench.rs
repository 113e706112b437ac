//! The bench for a memory in Rust.

use crate::{ffi, Counts, Status, WatchResult};
use std::ffi::{c_char, c_int, c_uint, c_void, CStr, CString};
use std::mem::{align_of, size_of, MaybeUninit};
use std::os::unix::ffi::OsStringExt;
use std::ptr::{from_ref, null_mut};

/// The transaction is aborted and rolled back.
#[derive(Clone, Copy, Debug, PartialEq, Eq)]
pub struct Aborted;

/// A transactional memory. All threads call it at the same time, each within a transaction of its own.
///
/// If a call returns [`Aborted`], it has rolled the transaction back, and the transaction is then dropped. A register is a number below the
/// plan's `registers`. No call may block forever, or use any function of this package except [`pause`] and [`thread`]. If a call panics, the
/// process ends.
pub trait Memory: Sync {
    /// The state of a transaction, from `begin` to its end. It may contain guards of the memory's locks.
    type Transaction<'m>
    where
        Self: 'm;

    /// Begins a transaction.
    fn begin(&self) -> Result<Self::Transaction<'_>, Aborted>;

    /// Returns the value of the register.
    fn read<'m>(&'m self, transaction: &mut Self::Transaction<'m>, register: usize) -> Result<u64, Aborted>;

    /// Sets the register to `value`.
    fn write<'m>(&'m self, transaction: &mut Self::Transaction<'m>, register: usize, value: u64) -> Result<(), Aborted>;

    /// Adds `addend` to the register, modulo 2^64, and returns the value before.
    fn add<'m>(&'m self, transaction: &mut Self::Transaction<'m>, register: usize, addend: u64) -> Result<u64, Aborted> {
        let before = self.read(transaction, register)?;
        self.write(transaction, register, before.wrapping_add(addend))?;
        Ok(before)
    }

    /// Commits the transaction.
    fn commit<'m>(&'m self, transaction: Self::Transaction<'m>) -> Result<(), Aborted>;

    /// Rolls the transaction back, because it requested an abort.
    fn abort<'m>(&'m self, transaction: Self::Transaction<'m>);
}

/// Leaves a number of a plan open: it is then the default, or with [`Schedule::All`] a random one in half of the phases after the first.
pub const RANDOM: u64 = u64::MAX;

/// How the threads are scheduled.
#[derive(Clone, Copy, Debug, PartialEq, Eq)]
pub enum Schedule {
    /// In rounds: each thread runs its share of transactions, and then waits for all others.
    Rounds = 0,
    /// Freely, each attempt with one of eight permits.
    Permits = 1,
    /// In rounds, one thread at a time, which the seed chooses at each step. The bench does not see a `std::sync::Mutex`, so call [`pause`]
    /// in a loop with `try_lock`.
    Steps = 2,
    /// In phases: the first ones with `Steps`, later ones with each of these.
    All = 3,
}

/// The memory model for the atomic accesses of a memory.
#[derive(Clone, Copy, Debug, PartialEq, Eq)]
pub enum Orders {
    /// Sequentially consistent, in the order of the steps.
    Sequential = 0,
    /// With [`Schedule::Steps`]: stores are delayed, as in the store buffers of x86.
    X86 = 1,
    /// With [`Schedule::Steps`]: a load may return any value that C++20 allows. Rust's memory model is the same.
    Cxx = 2,
}

/// What to run. include/tmwatch_bench.h says more about each field. Numbers with a default in brackets may be [`RANDOM`].
#[derive(Clone, Copy, Debug, PartialEq, Eq)]
pub struct Plan {
    /// Maximum number of rounds.
    pub rounds: u64,
    /// Seed of the random transactions, pauses and steps.
    pub seed: u64,
    /// Number of threads: 1 to 8 (4).
    pub threads: u64,
    /// Number of registers: 1 to 8 (3).
    pub registers: u64,
    /// Number of registers that a transaction uses: 1 to 16 (3).
    pub accesses: u64,
    /// Maximum number of attempts of each transaction, where `threads * attempts` is at most 8. 0: as many as that allows.
    ///
    /// With [`Schedule::Permits`]: any number. 0: no maximum, so a transaction that always aborts ends only after `seconds`.
    pub attempts: u64,
    /// Percentage of the registers read that are written afterwards (50).
    pub writes: u64,
    /// Percentage of accesses that add instead (20).
    pub adds: u64,
    /// Percentage of transactions that request an abort at their end (12).
    pub aborts: u64,
    /// Longest pause before or after a call, in iterations of a loop, at most 2^20 (100).
    pub pause: u64,
    /// No round begins after this many seconds. 0: no limit of time.
    pub seconds: u64,
    /// How the threads are scheduled.
    pub schedule: Schedule,
    /// Initial values of the registers.
    pub start: [u64; 8],
    /// Whether the end of the run is returned as a trace.
    pub trace: bool,
    /// Percentage of rounds that mix one long transaction with several short ones (50).
    pub mixed_rounds: u64,
    /// With [`Schedule::Steps`]: the C function `tmwatch_breakpoint` is called before this round, for a debugger. 0: never.
    pub round: u64,
    /// The memory model for atomic accesses (sequential), if the memory uses `tmwatch::sync` with the feature `steps`, or is compiled for
    /// libtmwatch_steps.a. `None`: the default, or with [`Schedule::All`] each of them in some phases.
    pub orders: Option<Orders>,
    /// Whether plain accesses of such a memory are steps too.
    pub plain: bool,
    /// Percentage of transactions that only write (10).
    pub blind_writes: u64,
    /// With `round`: `tmwatch_breakpoint` is called before this event of the round instead. 0: before the round.
    pub event: u64,
    /// Whether a data race is wrong, like a violation.
    pub races: bool,
    /// With `round`: whether an audit, which reads all registers, precedes that round, so that a trace of it begins there.
    pub audit_first: bool,
}

impl Default for Plan {
    /// Returns TMWATCH_PLAN of the header, without a trace.
    fn default() -> Plan {
        Plan {
            rounds: 100_000,
            seed: 1,
            threads: RANDOM,
            registers: RANDOM,
            accesses: RANDOM,
            attempts: 0,
            writes: RANDOM,
            adds: RANDOM,
            aborts: RANDOM,
            pause: RANDOM,
            seconds: 0,
            schedule: Schedule::All,
            start: [0; 8],
            trace: false,
            mixed_rounds: RANDOM,
            round: 0,
            orders: None,
            plain: false,
            blind_writes: RANDOM,
            event: 0,
            races: false,
            audit_first: false,
        }
    }
}

/// The result of a run.
#[derive(Clone, Debug, PartialEq, Eq)]
pub struct BenchResult {
    /// The verdict on all recorded events.
    pub result: WatchResult,
    /// Their statistics. If `none_overlapped` is true, no two transactions overlapped, so the run tests nothing.
    pub counts: Counts,
    /// Number of rounds that were run.
    pub rounds: u64,
    /// Number of events before the trace.
    pub skipped: u64,
    /// Interleaved commits: the most commits of other threads during one attempt, at least.
    pub max_interleaved_commits: u64,
    /// Number of recorded writes and adds.
    pub stores: u64,
    /// With [`Schedule::Steps`]: number of steps, at which the scheduler could switch.
    pub steps: u64,
    /// With [`Schedule::Steps`]: number of context switches.
    pub context_switches: u64,
    /// With [`Schedule::Steps`]: number of stalls, in which a thread was blocked, so another one ran too. If there are any, the run may not
    /// be reproducible.
    pub stalls: u64,
    /// The reproducer: options for [`bench_main`] that reproduce the end of the run.
    pub reproducer: String,
    /// Whether the reproducer is deterministic, unless the memory's behaviour depends on time, addresses or chance.
    pub is_deterministic: bool,
    /// With [`Schedule::Steps`]: number of the wrong event within its round, from 1; 0 if no event is wrong.
    pub event: u64,
    /// With [`Orders::Cxx`], lines: the loads of a violated round that did not return the newest value, where they are in the program, and
    /// the stores that they missed; and untracked synchronization.
    pub stale_loads: String,
    /// With [`Orders::Cxx`], if no synchronization is untracked: the first data race, and where it is; or empty.
    pub race: String,
    /// With [`Orders::Cxx`], if nothing is wrong: a load that would violate the run if it were delayed past later stores, and where it is;
    /// or empty.
    pub delayed: String,
    /// Untracked synchronization, which the bench cannot observe: 1 stores, 2 locks, 4 waits, 8 blocks, as the header explains; or their
    /// sum.
    pub untracked: u64,
    /// The end of the run, for `tmwatch show`, if the plan requests a trace.
    pub trace: Option<String>,
}

/// The bytes that the bench has for a thread. They are initially all 0, which means that no transaction is live.
struct Slot<T> {
    is_live: bool,
    transaction: MaybeUninit<T>,
}

impl<T> Slot<T> {
    fn set(&mut self, transaction: T) {
        self.transaction.write(transaction);
        self.is_live = true;
    }

    fn live(&mut self) -> &mut T {
        assert!(self.is_live, "no transaction is live");
        // SAFETY: `set` wrote it, and `take` has not moved it out since.
        unsafe { self.transaction.assume_init_mut() }
    }

    fn take(&mut self) -> T {
        assert!(self.is_live, "no transaction is live");
        self.is_live = false;
        // SAFETY: as in `live`; because of `is_live` it is moved out once.
        unsafe { self.transaction.assume_init_read() }
    }

    /// Drops the transaction if the call aborted it.
    fn keep<R>(&mut self, answer: Result<R, Aborted>) -> Option<R> {
        if answer.is_err() {
            drop(self.take());
        }
        answer.ok()
    }
}

type Live<'m, M> = Slot<<M as Memory>::Transaction<'m>>;

/// Returns the memory and the thread's slot, to which the bench's two pointers point.
///
/// # Safety
/// The bench got the first pointer from `table::<M>`, and the second points to the slot that it allocated for it; the memory outlives 'm;
/// no other call has the slot.
unsafe fn parts<'m, 's, M: Memory>(memory: *mut c_void, slot: *mut c_void) -> (&'m M, &'s mut Live<'m, M>) {
    // SAFETY: as the caller promises; bytes that are all 0 are a valid slot.
    unsafe { (&*memory.cast::<M>().cast_const(), &mut *slot.cast::<Live<'m, M>>()) }
}

unsafe extern "C" fn begin<M: Memory>(memory: *mut c_void, slot: *mut c_void) -> bool {
    // SAFETY: the bench calls this function as the header says.
    let (memory, slot) = unsafe { parts::<M>(memory, slot) };
    memory.begin().map(|transaction| slot.set(transaction)).is_ok()
}

unsafe extern "C" fn read<M: Memory>(memory: *mut c_void, slot: *mut c_void, register: c_uint, value: *mut u64) -> bool {
    // SAFETY: as in `begin`.
    let (memory, slot) = unsafe { parts::<M>(memory, slot) };
    let answer = memory.read(slot.live(), register as usize);
    // SAFETY: the bench's pointer points to a number of its own.
    slot.keep(answer).map(|read| unsafe { *value = read }).is_some()
}

unsafe extern "C" fn write<M: Memory>(memory: *mut c_void, slot: *mut c_void, register: c_uint, value: u64) -> bool {
    // SAFETY: as in `begin`.
    let (memory, slot) = unsafe { parts::<M>(memory, slot) };
    let answer = memory.write(slot.live(), register as usize, value);
    slot.keep(answer).is_some()
}

unsafe extern "C" fn add<M: Memory>(memory: *mut c_void, slot: *mut c_void, register: c_uint, addend: u64, before: *mut u64) -> bool {
    // SAFETY: as in `begin`.
    let (memory, slot) = unsafe { parts::<M>(memory, slot) };
    let answer = memory.add(slot.live(), register as usize, addend);
    // SAFETY: as in `read`.
    slot.keep(answer).map(|held| unsafe { *before = held }).is_some()
}

unsafe extern "C" fn commit<M: Memory>(memory: *mut c_void, slot: *mut c_void) -> bool {
    // SAFETY: as in `begin`.
    let (memory, slot) = unsafe { parts::<M>(memory, slot) };
    memory.commit(slot.take()).is_ok()
}

unsafe extern "C" fn abort<M: Memory>(memory: *mut c_void, slot: *mut c_void) {
    // SAFETY: as in `begin`.
    let (memory, slot) = unsafe { parts::<M>(memory, slot) };
    memory.abort(slot.take())
}

fn table<M: Memory>(memory: &M) -> ffi::Memory {
    assert!(align_of::<Live<'_, M>>() <= 16, "the bench aligns a transaction as malloc does");
    ffi::Memory {
        memory: from_ref(memory).cast_mut().cast(),
        tx_size: size_of::<Live<'_, M>>(),
        begin: Some(begin::<M>),
        read: Some(read::<M>),
        write: Some(write::<M>),
        add: Some(add::<M>),
        commit: Some(commit::<M>),
        abort: Some(abort::<M>),
        run: None,
    }
}

/// A stream of the C library that writes into memory.
struct Stream {
    stream: *mut c_void,
    bytes: *mut c_char,
    size: usize,
}

impl Stream {
    /// Opens a stream. It is boxed because the C library stores the addresses of `bytes` and `size`.
    fn open() -> Result<*mut Stream, Status> {
        let it = Box::into_raw(Box::new(Stream { stream: null_mut(), bytes: null_mut(), size: 0 }));
        // SAFETY: the fields live until `close`, and only the C library writes them.
        unsafe { (*it).stream = ffi::open_memstream(&raw mut (*it).bytes, &raw mut (*it).size) };
        // SAFETY: as above.
        if unsafe { (*it).stream.is_null() } {
            // SAFETY: it comes from `Box::into_raw`, and nothing else refers to it.
            drop(unsafe { Box::from_raw(it) });
            return Err(Status::NoMemory);
        }
        Ok(it)
    }

    /// Closes the stream, and returns the text that was written to it.
    ///
    /// # Safety
    /// `open` returned `it`, and it is closed only once.
    unsafe fn close(it: *mut Stream) -> Result<String, Status> {
        // SAFETY: the stream is open, as the caller promises.
        let is_written = unsafe { ffi::ferror((*it).stream) == 0 };
        // SAFETY: as above; nothing uses it afterwards.
        let is_closed = unsafe { ffi::fclose((*it).stream) == 0 };
        // SAFETY: the stream is closed, so nothing else refers to the box.
        let it = unsafe { Box::from_raw(it) };
        if it.bytes.is_null() {
            return Err(Status::NoMemory);
        }
        // SAFETY: the C library left a text there that it allocated, and that ends with a 0.
        let text = unsafe { CStr::from_ptr(it.bytes) }.to_string_lossy().into_owned();
        // SAFETY: the bytes come from the C library's malloc, and nothing refers to them any more.
        unsafe { ffi::free(it.bytes.cast()) };
        if !is_written || !is_closed {
            return Err(Status::NoMemory);
        }
        Ok(text)
    }
}

/// Runs the plan on the memory, and returns the result; or the reason why it could not run, or not until the end.
///
/// # Panics
/// Panics if the memory's transaction needs an alignment of more than 16 bytes.
pub fn bench<M: Memory>(memory: &M, plan: &Plan) -> Result<BenchResult, Status> {
    // SAFETY: the memory is Sync and borrowed during the call; its functions expect the pointers that the bench passes.
    unsafe { run_table(&table(memory), plan) }
}

/// Runs the plan on the memory of this table.
///
/// # Safety
/// Until this returns, threads of the bench may call the functions of the table as the header says.
pub(crate) unsafe fn run_table(table: &ffi::Memory, plan: &Plan) -> Result<BenchResult, Status> {
    let stream = if plan.trace { Some(Stream::open()?) } else { None };
    // SAFETY: the stream is open.
    let trace = stream.map_or(null_mut(), |it| unsafe { (*it).stream });
    let mut result = MaybeUninit::uninit();
    // SAFETY: all pointers are valid during the call, which ends its threads; the rest is as the caller promises.
    let status = unsafe { ffi::tmwatch_bench(table, &plan.to_c(trace), result.as_mut_ptr()) };
    // SAFETY: it was opened above, and the bench returned.
    let trace = stream.map(|it| unsafe { Stream::close(it) }).transpose();
    Status::check(status)?;
    // SAFETY: the status says that it was written.
    let result: ffi::BenchResult = unsafe { result.assume_init() };
    let reproducer = words_of(&result.reproducer)?;
    // SAFETY: the bench ends these bytes with a 0.
    let [stale_loads, race, delayed] = unsafe {
        [result.stale_loads.as_ptr(), result.race.as_ptr(), result.delayed.as_ptr()]
            .map(|it| CStr::from_ptr(it).to_string_lossy().into_owned())
    };
    // (no option sets initial values)
    let is_deterministic = result.is_deterministic && plan.start == [0; 8];
    let ffi::BenchResult {
        result,
        counts,
        rounds,
        skipped,
        max_interleaved_commits,
        stores,
        steps,
        context_switches,
        stalls,
        event,
        untracked,
        ..
    } = result;
    let (result, trace) = (result.into(), trace?);
    Ok(BenchResult {
        result,
        counts,
        rounds,
        skipped,
        max_interleaved_commits,
        stores,
        steps,
        context_switches,
        stalls,
        reproducer,
        is_deterministic,
        event,
        stale_loads,
        race,
        delayed,
        untracked,
        trace,
    })
}

impl Plan {
    fn to_c(self, trace: *mut c_void) -> ffi::Plan {
        let Plan { rounds, seed, threads, registers, accesses, attempts, writes, adds, aborts, pause, seconds, start, .. } = self;
        ffi::Plan {
            rounds,
            seed,
            threads,
            registers,
            accesses,
            attempts,
            writes,
            adds,
            aborts,
            pause,
            seconds,
            schedule: self.schedule as u64,
            start,
            trace,
            mixed_rounds: self.mixed_rounds,
            round: self.round,
            orders: self.orders.map_or(RANDOM, |orders| orders as u64),
            plain: u64::from(self.plain),
            // No time limit, because a bench that gives up leaves threads that still use the memory.
            timeout: 0,
            progress: null_mut(),
            blind_writes: self.blind_writes,
            event: self.event,
            phases_file: null_mut(),
            steps_file: null_mut(),
            races: u64::from(self.races),
            small: 0,
            keep_going: 0,
            crashes: 0,
            audit_first: u64::from(self.audit_first),
        }
    }
}

/// Returns a plan as options.
fn words_of(plan: &ffi::Plan) -> Result<String, Status> {
    let stream = Stream::open()?;
    // SAFETY: the stream is open.
    unsafe { ffi::tmwatch_bench_print_options((*stream).stream, plan) };
    // SAFETY: it was opened above.
    unsafe { Stream::close(stream) }
}

/// Runs the bench with the options of the command line, like a program in C, prints the result, and ends the program.
///
/// # Panics
/// Panics as [`bench()`] does.
pub fn bench_main<M: Memory>(memory: &M) -> ! {
    // SAFETY: as in `bench`; the process ends before the memory does.
    unsafe { main_of_table(&table(memory)) }
}

/// Runs the bench on the memory of this table, with the options of the command line.
///
/// # Safety
/// As `run_table`, until the process ends.
pub(crate) unsafe fn main_of_table(table: &ffi::Memory) -> ! {
    let words: Vec<CString> = std::env::args_os().filter_map(|word| CString::new(word.into_vec()).ok()).collect();
    let mut pointers: Vec<*mut c_char> = words.iter().map(|word| word.as_ptr().cast_mut()).collect();
    let count = c_int::try_from(pointers.len()).unwrap_or(c_int::MAX);
    pointers.push(null_mut());
    // SAFETY: the arguments are valid during the call, which only reads them; the rest is as the caller promises.
    std::process::exit(unsafe { ffi::tmwatch_bench_main(table, count, pointers.as_mut_ptr()) })
}

/// A step: call it in the memory wherever other threads may run between two of its steps. In a thread of a bench, it pauses as before and
/// after a call, and the scheduler may switch to another thread. In any other thread it does nothing.
pub fn pause() {
    // SAFETY: it has no arguments, and any thread may call it.
    unsafe { ffi::tmwatch_pause() }
}

/// Returns the number of this thread among those of its bench, from 0; 0 in any other thread.
pub fn thread() -> usize {
    // SAFETY: as in `pause`.
    unsafe { ffi::tmwatch_thread() as usize }
}

#[cfg(test)]
mod tests {
    use super::*;

    extern "C" {
        fn fopen(name: *const c_char, mode: *const c_char) -> *mut c_void;
        fn fputs(text: *const c_char, stream: *mut c_void) -> c_int;
        fn fflush(stream: *mut c_void) -> c_int;
    }

    #[test]
    fn a_transaction_is_taken_once() {
        let mut slot = Slot { is_live: false, transaction: MaybeUninit::uninit() };
        let mut refuses = |call: fn(&mut Slot<Box<u64>>) -> u64, value| {
            if let Some(value) = value {
                slot.set(Box::new(value));
            }
            let ended = std::panic::catch_unwind(std::panic::AssertUnwindSafe(|| call(&mut slot)));
            ended.map_err(|it| *it.downcast::<&str>().unwrap())
        };
        for value in [None, Some(1), None] {
            let held = value.ok_or("no transaction is live");
            assert_eq!(refuses(|it| **it.live(), value), held);
            assert_eq!(refuses(|it| *it.take(), None), held);
        }
    }

    #[test]
    fn what_was_not_written_is_no_text() {
        let written = |full: bool, flush: bool| {
            let it = Stream::open()?;
            // SAFETY: each stream is open, and closed once.
            unsafe {
                if full {
                    assert_eq!(ffi::fclose((*it).stream), 0);
                    (*it).stream = fopen(c"/dev/full".as_ptr(), c"w".as_ptr());
                }
                assert!(fputs(c"opacity".as_ptr(), (*it).stream) >= 0);
                assert_eq!(flush && fflush((*it).stream) != 0, full && flush);
                Stream::close(it)
            }
        };
        assert_eq!(written(false, true), Ok("opacity".into()));
        assert_eq!(written(true, true), Err(Status::NoMemory));
        assert_eq!(written(true, false), Err(Status::NoMemory));
    }
}
