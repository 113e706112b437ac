//! Memories on the bench that retry transactions themselves: correct ones, a broken one, and ones that misuse their attempt.

use std::cell::Cell;
use std::sync::atomic::{AtomicBool, AtomicU64, Ordering::SeqCst};
use std::sync::{Mutex, MutexGuard};
use tmwatch::{bench_retrying, pause, Aborted, Attempt, Plan, RetryingMemory, Schedule, Status, Verdict};

/// Buffers the writes of a transaction until it commits; its version is odd while they are stored. If `looks`, each read checks that the
/// version is still the one at which the attempt began.
struct Versioned {
    version: AtomicU64,
    words: [AtomicU64; 8],
    looks: bool,
}

struct Tx<'t> {
    memory: &'t Versioned,
    version: u64,
    writes: [Option<u64>; 8],
}

impl Versioned {
    fn new(looks: bool, start: [u64; 8]) -> Versioned {
        Versioned { version: AtomicU64::new(0), words: start.map(AtomicU64::new), looks }
    }

    fn begin(&self) -> Tx<'_> {
        loop {
            let version = self.version.load(SeqCst);
            if version % 2 == 0 {
                return Tx { memory: self, version, writes: [None; 8] };
            }
            std::thread::yield_now();
        }
    }

    /// Retries the body until it returns Ok and commits, or no further attempt may begin. Returns whether it committed.
    fn atomically(&self, may_begin: impl Fn() -> bool, mut body: impl FnMut(&mut Tx<'_>) -> Result<(), Aborted>) -> bool {
        while may_begin() {
            let mut tx = self.begin();
            if body(&mut tx).and_then(|()| tx.commit()).is_ok() {
                return true;
            }
        }
        false
    }
}

impl Tx<'_> {
    fn read(&self, register: usize) -> Result<u64, Aborted> {
        let value = self.memory.words[register].load(SeqCst);
        pause();
        if self.memory.looks && self.memory.version.load(SeqCst) != self.version {
            return Err(Aborted);
        }
        Ok(self.writes[register].unwrap_or(value))
    }

    fn commit(self) -> Result<(), Aborted> {
        if self.writes.iter().all(Option::is_none) {
            return Ok(());
        }
        let version = &self.memory.version;
        version.compare_exchange(self.version, self.version + 1, SeqCst, SeqCst).map_err(|_| Aborted)?;
        for (word, value) in self.memory.words.iter().zip(self.writes) {
            pause();
            value.inspect(|it| word.store(*it, SeqCst));
        }
        version.store(self.version + 2, SeqCst);
        Ok(())
    }
}

impl RetryingMemory for Versioned {
    type Transaction<'t> = Tx<'t>;

    fn run(&self, attempt: &Attempt<'_, Self>) -> bool {
        self.atomically(|| attempt.begin(), |tx| if attempt.run_body(tx) { Ok(()) } else { Err(Aborted) })
    }

    fn read(&self, tx: &mut Tx<'_>, register: usize) -> Result<u64, Aborted> {
        tx.read(register)
    }

    fn write(&self, tx: &mut Tx<'_>, register: usize, value: u64) -> Result<(), Aborted> {
        tx.writes[register] = Some(value);
        Ok(())
    }
}

/// One lock. Every other third write of an attempt aborts it.
struct OneLock {
    words: Mutex<[u64; 8]>,
    refuses: AtomicBool,
}

struct Locked<'t> {
    words: MutexGuard<'t, [u64; 8]>,
    writes: u64,
}

impl RetryingMemory for OneLock {
    type Transaction<'t> = Locked<'t>;

    fn run(&self, attempt: &Attempt<'_, Self>) -> bool {
        while attempt.begin() {
            let mut it = Locked { words: self.words.lock().unwrap(), writes: 0 };
            let before = *it.words;
            if attempt.run_body(&mut it) {
                return true;
            }
            *it.words = before;
        }
        false
    }

    fn read(&self, it: &mut Locked<'_>, register: usize) -> Result<u64, Aborted> {
        pause();
        Ok(it.words[register])
    }

    fn write(&self, it: &mut Locked<'_>, register: usize, value: u64) -> Result<(), Aborted> {
        it.writes += 1;
        it.words[register] = value;
        if it.writes == 3 && self.refuses.fetch_xor(true, SeqCst) {
            return Err(Aborted);
        }
        Ok(())
    }

    fn add(&self, it: &mut Locked<'_>, register: usize, addend: u64) -> Result<u64, Aborted> {
        let before = it.words[register];
        it.words[register] = before.wrapping_add(addend);
        Ok(before)
    }
}

#[test]
fn a_right_memory_is_opaque_so_far() {
    for (seed, schedule) in [(1, Schedule::Rounds), (2, Schedule::Steps), (1, Schedule::Permits), (2, Schedule::Permits)] {
        let start = [7, 8, 9, 0, 0, 0, 0, 0];
        let plan = Plan { rounds: 2000, seed, schedule, registers: 3, start, trace: true, ..Plan::default() };
        for result in [
            bench_retrying(&Versioned::new(true, start), &plan).unwrap(),
            bench_retrying(&OneLock { words: Mutex::new(start), refuses: AtomicBool::new(true) }, &plan).unwrap(),
        ] {
            assert_eq!((result.result.verdict, result.stalls), (Verdict::OpaqueSoFar, 0));
            assert_eq!(result.rounds, 2000);
            let trace = result.trace.unwrap();
            assert!([" R ", " W ", " N ", " X\n", " A\n"].iter().all(|event| trace.contains(event)));
            assert!(result.counts.committed > 1000 && result.counts.forced_aborts > 100, "{:?}", result.counts);
            assert!(result.counts.concurrent > 100, "{:?}", result.counts);
        }
    }
}

#[test]
fn a_memory_that_does_not_look_is_violated() {
    for (seed, schedule) in [(1, Schedule::Rounds), (2, Schedule::Steps), (1, Schedule::Permits), (2, Schedule::All)] {
        let result = bench_retrying(&Versioned::new(false, [0; 8]), &Plan { seed, schedule, ..Plan::default() }).unwrap();
        assert!(matches!(result.result.verdict, Verdict::Violated { .. }), "{:?}", result.result);
    }
}

/// Requests its calls before an attempt has begun, and gets none.
#[derive(Default)]
struct Idle(AtomicU64);

impl RetryingMemory for Idle {
    type Transaction<'t> = ();

    fn run(&self, attempt: &Attempt<'_, Self>) -> bool {
        self.0.fetch_add(u64::from(attempt.run_body(&mut ())), SeqCst);
        false
    }

    fn read(&self, _: &mut (), _: usize) -> Result<u64, Aborted> {
        unreachable!("no attempt has begun")
    }

    fn write(&self, _: &mut (), _: usize, _: u64) -> Result<(), Aborted> {
        unreachable!("no attempt has begun")
    }
}

#[test]
fn no_calls_are_made_before_an_attempt_begins() {
    let memory = Idle::default();
    let result = bench_retrying(&memory, &Plan { rounds: 100, ..Plan::default() }).unwrap();
    assert_eq!((result.result.events, memory.0.load(SeqCst)), (0, 0));
}

/// A transaction that contains its attempt, and misuses it within a call: it requests the calls again, or begins another attempt.
struct Nested {
    calls: bool,
}

struct Nesting<'t> {
    attempt: &'t Attempt<'t, Nested>,
    done: Cell<bool>,
}

impl RetryingMemory for Nested {
    type Transaction<'t> = Nesting<'t>;

    fn run(&self, attempt: &Attempt<'_, Self>) -> bool {
        attempt.begin() && attempt.run_body(&mut Nesting { attempt, done: Cell::new(false) })
    }

    fn read(&self, it: &mut Nesting<'_>, _: usize) -> Result<u64, Aborted> {
        let mut inner = Nesting { attempt: it.attempt, done: Cell::new(false) };
        it.done.set(if self.calls { it.attempt.run_body(&mut inner) } else { it.attempt.begin() });
        Ok(0)
    }

    fn write(&self, _: &mut Nesting<'_>, _: usize, _: u64) -> Result<(), Aborted> {
        Ok(())
    }
}

/// Runs this test again in processes of their own, which must end at the panic.
#[test]
fn an_attempt_within_its_calls_ends_the_process() {
    if let Some(word) = std::env::var_os("TMWATCH_NESTS") {
        let _ = bench_retrying(&Nested { calls: word == "calls" }, &Plan { adds: 0, ..Plan::default() });
        return;
    }
    for word in ["begins", "calls"] {
        let mut again = std::process::Command::new(std::env::current_exe().unwrap());
        again.args(["--exact", "an_attempt_within_its_calls_ends_the_process", "--nocapture"]);
        let output = again.env("TMWATCH_NESTS", word).output().unwrap();
        assert!(String::from_utf8_lossy(&output.stderr).contains("the attempt is within its calls"), "{word}");
        assert_eq!(output.status.code(), None, "it has to end by a signal");
    }
}

/// Implementations of `run` that violate its contract.
enum Wrong {
    CallsNone,
    CommitsAll,
    CallsTwice,
}

impl RetryingMemory for Wrong {
    type Transaction<'t> = ();

    fn run(&self, attempt: &Attempt<'_, Self>) -> bool {
        let calls = match self {
            _ if !attempt.begin() => return false,
            Wrong::CallsNone => 0,
            Wrong::CommitsAll => 1,
            Wrong::CallsTwice => 2,
        };
        for _ in 0..calls {
            attempt.run_body(&mut ());
        }
        true
    }

    fn read(&self, _: &mut (), _: usize) -> Result<u64, Aborted> {
        Ok(0)
    }

    fn write(&self, _: &mut (), _: usize, _: u64) -> Result<(), Aborted> {
        Ok(())
    }
}

#[test]
fn a_run_that_breaks_its_promise_is_told() {
    let plan = Plan { threads: 1, aborts: 100, ..Plan::default() };
    let status = |wrong| bench_retrying(&wrong, &plan).unwrap_err();
    assert_eq!(status(Wrong::CallsNone), Status::WrongAnswer);
    assert_eq!(status(Wrong::CommitsAll), Status::WrongAnswer);
    assert_eq!(status(Wrong::CallsTwice), Status::WrongPhase);
}

/// Adds with a read and then a write that aborts.
struct Refusing;

impl RetryingMemory for Refusing {
    type Transaction<'t> = ();

    fn run(&self, attempt: &Attempt<'_, Self>) -> bool {
        while attempt.begin() {
            if attempt.run_body(&mut ()) {
                return true;
            }
        }
        false
    }

    fn read(&self, _: &mut (), _: usize) -> Result<u64, Aborted> {
        Ok(0)
    }

    fn write(&self, _: &mut (), _: usize, _: u64) -> Result<(), Aborted> {
        Err(Aborted)
    }
}

#[test]
fn an_add_aborts_if_its_write_does() {
    let plan = Plan { rounds: 60, adds: 100, blind_writes: 0, schedule: Schedule::Steps, ..Plan::default() };
    assert_eq!(bench_retrying(&Refusing, &plan).unwrap_err(), Status::NoProgress);
}
