//! A correct memory and a broken one on the bench.

use std::sync::atomic::{AtomicBool, AtomicI64, AtomicU64, Ordering::SeqCst};
use std::sync::{Mutex, MutexGuard};
use tmwatch::{bench, pause, thread, Aborted, Memory, Orders, Plan, Schedule, Status, Verdict};

/// Number of transactions that were created and not yet dropped.
static LIVE: AtomicI64 = AtomicI64::new(0);

/// One lock, which a transaction holds from its beginning to its end.
#[derive(Default)]
struct OneLock {
    words: Mutex<[u64; 8]>,
    refuses: AtomicBool,
}

/// The words, and their values before the transaction.
struct Locked<'m> {
    words: MutexGuard<'m, [u64; 8]>,
    before: [u64; 8],
    reads: u64,
    writes: u64,
}

impl Drop for Locked<'_> {
    fn drop(&mut self) {
        LIVE.fetch_sub(1, SeqCst);
    }
}

impl Memory for OneLock {
    type Transaction<'m> = Locked<'m>;

    fn begin(&self) -> Result<Locked<'_>, Aborted> {
        if self.refuses.fetch_xor(true, SeqCst) {
            return Err(Aborted);
        }
        let words = self.words.lock().unwrap();
        LIVE.fetch_add(1, SeqCst);
        Ok(Locked { before: *words, words, reads: 0, writes: 0 })
    }

    /// Aborts at a sixth read.
    fn read<'m>(&'m self, it: &mut Locked<'m>, register: usize) -> Result<u64, Aborted> {
        pause();
        it.reads += 1;
        if it.reads == 6 {
            *it.words = it.before;
            return Err(Aborted);
        }
        Ok(it.words[register])
    }

    /// Aborts at a third write.
    fn write<'m>(&'m self, it: &mut Locked<'m>, register: usize, value: u64) -> Result<(), Aborted> {
        pause();
        it.writes += 1;
        if it.writes == 3 {
            *it.words = it.before;
            return Err(Aborted);
        }
        it.words[register] = value;
        Ok(())
    }

    fn commit<'m>(&'m self, _: Locked<'m>) -> Result<(), Aborted> {
        Ok(())
    }

    fn abort<'m>(&'m self, mut it: Locked<'m>) {
        *it.words = it.before;
    }
}

/// No lock at all, and no rollback.
#[derive(Default)]
struct Racing([AtomicU64; 8]);

impl Memory for Racing {
    type Transaction<'m> = ();

    fn begin(&self) -> Result<(), Aborted> {
        Ok(())
    }

    fn read(&self, _: &mut (), register: usize) -> Result<u64, Aborted> {
        pause();
        Ok(self.0[register].load(SeqCst))
    }

    fn write(&self, _: &mut (), register: usize, value: u64) -> Result<(), Aborted> {
        self.0[register].store(value, SeqCst);
        pause();
        Ok(())
    }

    fn commit(&self, _: ()) -> Result<(), Aborted> {
        Ok(())
    }

    fn abort(&self, _: ()) {}
}

#[test]
fn one_lock_is_opaque_so_far() {
    let start = [7, 8, 9, 0, 0, 0, 0, 0];
    let memory = OneLock { words: Mutex::new(start), ..OneLock::default() };
    for seed in 1..4 {
        let start = *memory.words.lock().unwrap();
        let plan = Plan { rounds: 2000, registers: 3, seed, schedule: Schedule::Rounds, start, trace: true, ..Plan::default() };
        let result = bench(&memory, &plan).unwrap();
        assert_eq!(result.result.verdict, Verdict::OpaqueSoFar);
        assert_eq!(result.rounds, 2000);
        let trace = result.trace.unwrap();
        assert!([" R ", " W ", " N ", " X\n", " A\n"].iter().all(|event| trace.contains(event)));
        assert!(result.counts.committed > 1000 && result.counts.forced_aborts > 100, "{:?}", result.counts);
        assert!(result.counts.concurrent > 100 && !result.counts.none_overlapped, "{:?}", result.counts);
        assert_eq!(LIVE.load(SeqCst), 0);
    }
}

#[test]
fn a_memory_without_a_lock_is_violated() {
    for seed in 1..4 {
        let plan = Plan { seed, registers: 3, trace: true, ..Plan::default() };
        let result = bench(&Racing::default(), &plan).unwrap();
        let Verdict::Violated { at } = result.result.verdict else { panic!("{:?}", result.result) };
        let trace = result.trace.unwrap();
        assert!(trace.starts_with("opacity-trace 2 3 "));
        assert_eq!(trace.lines().count() as u64, 1 + at - result.skipped);
    }
}

/// A memory in which each call panics.
struct Panicking;

impl Memory for Panicking {
    type Transaction<'m> = ();

    fn begin(&self) -> Result<(), Aborted> {
        panic!("no memory is here")
    }

    fn read(&self, _: &mut (), _: usize) -> Result<u64, Aborted> {
        Err(Aborted)
    }

    fn write(&self, _: &mut (), _: usize, _: u64) -> Result<(), Aborted> {
        Err(Aborted)
    }

    fn commit(&self, _: ()) -> Result<(), Aborted> {
        Err(Aborted)
    }

    fn abort(&self, _: ()) {}
}

/// Runs this test again in a process of its own, which must end at the panic.
#[test]
fn a_panic_ends_the_process() {
    if std::env::var_os("TMWATCH_PANICS").is_some() {
        let _ = bench(&Panicking, &Plan::default());
        return;
    }
    let mut again = std::process::Command::new(std::env::current_exe().unwrap());
    again.args(["--exact", "a_panic_ends_the_process", "--nocapture"]);
    let output = again.env("TMWATCH_PANICS", "1").output().unwrap();
    assert!(String::from_utf8_lossy(&output.stderr).contains("no memory is here"));
    assert_eq!(output.status.code(), None, "it has to end by a signal");
}

#[test]
fn wrong_plans_are_refused() {
    let refused = |change: fn(&mut Plan)| {
        let mut plan = Plan { rounds: 1, trace: true, ..Plan::default() };
        change(&mut plan);
        bench(&OneLock::default(), &plan).unwrap_err()
    };
    assert_eq!(refused(|plan| plan.threads = 9), Status::BadSize);
    assert_eq!(refused(|plan| plan.registers = 0), Status::BadRegisters);
    assert_eq!(refused(|plan| plan.start[3] = 1), Status::BadStart);
    assert_eq!(refused(|plan| plan.accesses = 17), Status::BadBounds);
}

/// A sequence number of commits, which is odd while one stores. If `is_broken`, reads are not validated against it.
struct Sequence {
    now: AtomicU64,
    words: [AtomicU64; 8],
    is_broken: bool,
}

impl Sequence {
    fn new(is_broken: bool) -> Sequence {
        Sequence { now: AtomicU64::new(0), words: Default::default(), is_broken }
    }
}

/// The sequence number at the beginning, and the values to be written.
type Written = (u64, [Option<u64>; 8]);

impl Memory for Sequence {
    type Transaction<'m> = Written;

    fn begin(&self) -> Result<Written, Aborted> {
        assert!(thread() < 8);
        let now = self.now.load(SeqCst);
        if now % 2 == 1 {
            return Err(Aborted);
        }
        Ok((now, [None; 8]))
    }

    fn read(&self, it: &mut Written, register: usize) -> Result<u64, Aborted> {
        pause();
        let value = it.1[register].unwrap_or_else(|| self.words[register].load(SeqCst));
        pause();
        let is_good = self.is_broken || self.now.load(SeqCst) == it.0;
        is_good.then_some(value).ok_or(Aborted)
    }

    fn write(&self, it: &mut Written, register: usize, value: u64) -> Result<(), Aborted> {
        it.1[register] = Some(value);
        Ok(())
    }

    fn commit(&self, it: Written) -> Result<(), Aborted> {
        if it.1 == [None; 8] {
            return Ok(());
        }
        self.now.compare_exchange(it.0, it.0 + 1, SeqCst, SeqCst).map_err(|_| Aborted)?;
        for (word, value) in self.words.iter().zip(it.1) {
            pause();
            if let Some(value) = value {
                word.store(value, SeqCst);
            }
        }
        self.now.store(it.0 + 2, SeqCst);
        Ok(())
    }

    fn abort(&self, _: Written) {}
}

#[test]
fn steps_give_the_same_run_by_the_same_seed() {
    let run = |seed, is_broken| {
        let plan = Plan { rounds: 1000, seed, schedule: Schedule::Steps, trace: true, ..Plan::default() };
        bench(&Sequence::new(is_broken), &plan).unwrap()
    };
    let (one, other) = (run(1, false), run(2, false));
    assert_eq!(one.result.verdict, Verdict::OpaqueSoFar);
    assert_eq!((one.stalls, other.stalls), (0, 0));
    assert!(
        one.max_interleaved_commits > 2 && one.stores > 1000 && one.context_switches > 1000 && one.steps > one.context_switches,
        "{one:?}"
    );
    assert_eq!(run(1, false), one);
    assert_ne!(other.trace, one.trace);
    let broken = run(1, true);
    let Verdict::Violated { .. } = broken.result.verdict else { panic!("{:?}", broken.result) };
    assert!(broken.is_deterministic);
    assert_eq!(broken.reproducer, format!("--schedule steps --seed 1 --round {}", broken.rounds));
    let plan = Plan { rounds: broken.rounds, schedule: Schedule::Steps, round: broken.rounds, trace: true, ..Plan::default() };
    assert_eq!(bench(&Sequence::new(true), &plan).unwrap().trace, broken.trace);
}

#[test]
fn seeds_and_schedules_are_passed_on() {
    let trace = |schedule, seed| {
        let plan = Plan { rounds: 1, threads: 1, seed, schedule, trace: true, ..Plan::default() };
        let result = bench(&Sequence::new(false), &plan).unwrap();
        assert_eq!(result.steps > 0, schedule == Schedule::Steps || schedule == Schedule::All);
        result.trace.unwrap()
    };
    for schedule in [Schedule::Rounds, Schedule::Permits, Schedule::Steps, Schedule::All] {
        assert_ne!(trace(schedule, 1), trace(schedule, 2));
    }
}

#[test]
fn a_plan_out_of_range_is_refused() {
    let refused = |plan| bench(&Sequence::new(false), &plan).unwrap_err();
    assert_eq!(refused(Plan { threads: 9, ..Plan::default() }), Status::BadSize);
    assert_eq!(refused(Plan { rounds: 0, ..Plan::default() }), Status::BadBounds);
    assert_eq!(refused(Plan { mixed_rounds: 101, ..Plan::default() }), Status::BadBounds);
    assert_eq!(refused(Plan { orders: Some(Orders::X86), ..Plan::default() }), Status::BadBounds);
    assert_eq!(refused(Plan { round: 20001, ..Plan::default() }), Status::BadBounds);
    // One by permits is never out of range; in rounds, eight attempts are.
    assert_eq!(refused(Plan { attempts: 8, ..Plan::default() }), Status::BadBounds);
    assert!(bench(&Sequence::new(false), &Plan { rounds: 5, attempts: 8, schedule: Schedule::Permits, ..Plan::default() }).is_ok());
}

/// Transactions with the greatest alignment that the bench guarantees, and with a greater one.
#[derive(Default)]
#[repr(align(16))]
struct Narrow;
#[derive(Default)]
#[repr(align(32))]
struct Wide;

struct Aligned<T>(std::marker::PhantomData<fn() -> T>);

impl<T: Default + 'static> Memory for Aligned<T> {
    type Transaction<'m> = T;

    fn begin(&self) -> Result<T, Aborted> {
        Ok(T::default())
    }

    fn read(&self, _: &mut T, _: usize) -> Result<u64, Aborted> {
        Ok(0)
    }

    fn write(&self, _: &mut T, _: usize, _: u64) -> Result<(), Aborted> {
        Ok(())
    }

    fn commit(&self, _: T) -> Result<(), Aborted> {
        Ok(())
    }

    fn abort(&self, _: T) {}
}

#[test]
fn an_aligned_transaction_is_taken() {
    assert!(bench(&Aligned::<Narrow>(Default::default()), &Plan { rounds: 1, ..Plan::default() }).is_ok());
}

#[test]
#[should_panic(expected = "the bench aligns a transaction as malloc does")]
fn a_wide_transaction_is_refused() {
    let _ = bench(&Aligned::<Wide>(Default::default()), &Plan { rounds: 1, ..Plan::default() });
}

/// A lock that is only tried. Thread 1 does not release it after some commits.
#[derive(Default)]
struct Leaking {
    is_locked: AtomicBool,
    words: [AtomicU64; 8],
    commits: AtomicU64,
}

impl Memory for Leaking {
    type Transaction<'m> = [u64; 8];

    fn begin(&self) -> Result<[u64; 8], Aborted> {
        pause();
        let is_taken = self.is_locked.swap(true, SeqCst);
        (!is_taken).then(|| std::array::from_fn(|k| self.words[k].load(SeqCst))).ok_or(Aborted)
    }

    fn read(&self, _: &mut [u64; 8], register: usize) -> Result<u64, Aborted> {
        pause();
        Ok(self.words[register].load(SeqCst))
    }

    fn write(&self, _: &mut [u64; 8], register: usize, value: u64) -> Result<(), Aborted> {
        self.words[register].store(value, SeqCst);
        Ok(())
    }

    fn commit(&self, _: [u64; 8]) -> Result<(), Aborted> {
        let keeps = thread() == 1 && self.commits.fetch_add(1, SeqCst) > 20;
        self.is_locked.store(keeps, SeqCst);
        Ok(())
    }

    fn abort(&self, before: [u64; 8]) {
        self.words.iter().zip(before).for_each(|(word, value)| word.store(value, SeqCst));
        self.is_locked.store(false, SeqCst);
    }
}

#[test]
fn a_memory_that_loses_progress_is_told_so() {
    for schedule in [Schedule::Rounds, Schedule::Permits, Schedule::Steps, Schedule::All] {
        let began = std::time::Instant::now();
        let plan = Plan { schedule, ..Plan::default() };
        assert_eq!(bench(&Leaking::default(), &plan).unwrap_err(), Status::NoProgress);
        assert!(began.elapsed().as_secs() < 30);
    }
}

#[test]
fn a_mutex_of_the_standard_library_is_seen() {
    let plan = Plan { rounds: 500, schedule: Schedule::Steps, ..Plan::default() };
    let result = bench(&OneLock::default(), &plan).unwrap();
    assert_eq!((result.result.verdict, result.stalls), (Verdict::OpaqueSoFar, 0));
}

/// All registers are 0. Each read pauses if the flag is set.
struct Zeros(bool);

impl Memory for Zeros {
    type Transaction<'m> = ();

    fn begin(&self) -> Result<(), Aborted> {
        Ok(())
    }

    fn read(&self, _: &mut (), _: usize) -> Result<u64, Aborted> {
        if self.0 {
            pause();
        }
        Ok(0)
    }

    fn write(&self, _: &mut (), _: usize, _: u64) -> Result<(), Aborted> {
        Ok(())
    }

    fn commit(&self, _: ()) -> Result<(), Aborted> {
        Ok(())
    }

    fn abort(&self, _: ()) {}
}

#[test]
fn a_pause_is_a_step() {
    let steps = |pauses| {
        let plan = Plan { rounds: 50, writes: 0, adds: 0, schedule: Schedule::Steps, ..Plan::default() };
        bench(&Zeros(pauses), &plan).unwrap().steps
    };
    assert!(steps(true) > steps(false));
}

#[test]
fn each_number_is_passed_on() {
    let numbers = Plan {
        writes: 77,
        adds: 11,
        aborts: 9,
        mixed_rounds: 33,
        blind_writes: 5,
        accesses: 2,
        pause: 7,
        plain: true,
        seed: 6,
        ..Plan::default()
    };
    let result = bench(&Racing::default(), &Plan { threads: 3, registers: 2, attempts: 1, ..numbers }).unwrap();
    let words = "--threads 3 --registers 2 --accesses 2 --writes 77 --adds 11 --aborts 9 --pause 7 --mixed-rounds 33 --blind-writes 5 --attempts 1 --plain";
    assert_eq!(result.reproducer, format!("--seed 6 --round {} {words}", result.rounds));
    assert!(result.is_deterministic && result.event > 0 && result.trace.is_none());
    // There are no words for a start.
    let start = [7, 0, 0, 0, 0, 0, 0, 0];
    let memory = Racing(std::array::from_fn(|k| AtomicU64::new(start[k])));
    assert!(!bench(&memory, &Plan { start, registers: 2, ..Plan::default() }).unwrap().is_deterministic);
}

/// Adds with a read and then a write that aborts.
#[derive(Default)]
struct Refusing(OneLock);

impl Memory for Refusing {
    type Transaction<'m> = Locked<'m>;

    fn begin(&self) -> Result<Locked<'_>, Aborted> {
        self.0.begin()
    }

    fn read<'m>(&'m self, it: &mut Locked<'m>, register: usize) -> Result<u64, Aborted> {
        Ok(it.words[register])
    }

    fn write<'m>(&'m self, it: &mut Locked<'m>, _: usize, _: u64) -> Result<(), Aborted> {
        *it.words = it.before;
        Err(Aborted)
    }

    fn commit<'m>(&'m self, _: Locked<'m>) -> Result<(), Aborted> {
        Ok(())
    }

    fn abort<'m>(&'m self, _: Locked<'m>) {}
}

#[test]
fn an_add_aborts_if_its_write_does() {
    let plan = Plan { rounds: 60, threads: 2, adds: 100, blind_writes: 0, schedule: Schedule::Steps, trace: true, ..Plan::default() };
    let Err(status) = bench(&Refusing::default(), &plan) else { panic!("no register can be added to") };
    assert_eq!(status, Status::NoProgress);
}
