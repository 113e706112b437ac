//! With each schedule, a memory that makes no progress, in one of three ways, is reported as such. A correct one that is rolled back at
//! random is not, nor one that takes long.

use std::sync::atomic::{AtomicBool, AtomicU64, Ordering::SeqCst};
use std::time::{Duration, Instant};
use tmwatch::{bench, pause, thread, Aborted, Memory, Plan, Schedule, Status, Verdict};

const SCHEDULES: [Schedule; 4] = [Schedule::Rounds, Schedule::Permits, Schedule::Steps, Schedule::All];

/// What a rolled-back transaction fails to release, or another fault of the memory.
#[derive(Clone, Copy, Default, PartialEq)]
enum Fault {
    #[default]
    None,
    KeepsLocks,
    KeepsMarks,
    /// A transaction stores only eight bits of the clock.
    Wraps,
    /// Not a fault: half of the commits are rolled back at random.
    Chance,
}

/// A word has a version, a lock, and a mark for each thread that reads it.
#[derive(Default)]
struct Word {
    value: AtomicU64,
    version: AtomicU64,
    is_locked: AtomicBool,
    is_read: [AtomicBool; 8],
}

/// A transaction holds locks and marks until its end, writes in place, and reads nothing that is newer than its beginning.
#[derive(Default)]
struct Marked {
    fault: Fault,
    words: [Word; 8],
    clock: AtomicU64,
    draws: AtomicU64,
}

#[derive(Default)]
struct Transaction {
    began: u64,
    reads: [bool; 8],
    before: [Option<u64>; 8],
}

impl Marked {
    fn give_back(&self, it: &Transaction, gives_locks: bool, gives_marks: bool) {
        for (register, word) in self.words.iter().enumerate() {
            if it.before[register].is_some() && gives_locks {
                word.is_locked.store(false, SeqCst);
            }
            if it.reads[register] && gives_marks {
                word.is_read[thread()].store(false, SeqCst);
            }
        }
    }

    fn roll_back<T>(&self, it: &Transaction) -> Result<T, Aborted> {
        for (word, before) in self.words.iter().zip(it.before) {
            if let Some(value) = before {
                word.value.store(value, SeqCst);
            }
        }
        self.give_back(it, self.fault != Fault::KeepsLocks, self.fault != Fault::KeepsMarks);
        Err(Aborted)
    }
}

impl Memory for Marked {
    type Transaction<'m> = Transaction;

    fn begin(&self) -> Result<Transaction, Aborted> {
        let now = self.clock.load(SeqCst);
        Ok(Transaction { began: if self.fault == Fault::Wraps { now % 256 } else { now }, ..Transaction::default() })
    }

    fn read(&self, it: &mut Transaction, register: usize) -> Result<u64, Aborted> {
        let word = &self.words[register];
        it.reads[register] = true;
        word.is_read[thread()].store(true, SeqCst);
        pause();
        let is_held = word.is_locked.load(SeqCst) && it.before[register].is_none();
        if is_held || word.version.load(SeqCst) > it.began {
            return self.roll_back(it);
        }
        Ok(word.value.load(SeqCst))
    }

    fn write(&self, it: &mut Transaction, register: usize, value: u64) -> Result<(), Aborted> {
        let word = &self.words[register];
        if it.before[register].is_none() {
            if word.is_locked.swap(true, SeqCst) {
                return self.roll_back(it);
            }
            it.before[register] = Some(word.value.load(SeqCst));
        }
        pause();
        if (0..8).any(|other| other != thread() && word.is_read[other].load(SeqCst)) {
            return self.roll_back(it);
        }
        word.value.store(value, SeqCst);
        Ok(())
    }

    fn commit(&self, it: Transaction) -> Result<(), Aborted> {
        let draw = self.draws.fetch_add(1, SeqCst).wrapping_mul(0x9E37_79B9_7F4A_7C15);
        if self.fault == Fault::Chance && draw >> 63 == 0 {
            return self.roll_back(&it);
        }
        let now = self.clock.fetch_add(1, SeqCst) + 1;
        for (word, _) in self.words.iter().zip(it.before).filter(|(_, before)| before.is_some()) {
            word.version.store(now, SeqCst);
        }
        self.give_back(&it, true, true);
        Ok(())
    }

    fn abort(&self, it: Transaction) {
        let _ = self.roll_back::<()>(&it);
    }
}

#[test]
fn a_memory_that_loses_progress_is_told_so() {
    for fault in [Fault::KeepsLocks, Fault::KeepsMarks, Fault::Wraps] {
        for schedule in SCHEDULES {
            let began = Instant::now();
            let plan = Plan { schedule, ..Plan::default() };
            assert_eq!(bench(&Marked { fault, ..Marked::default() }, &plan).unwrap_err(), Status::NoProgress);
            assert!(began.elapsed().as_secs() < 30);
        }
    }
}

#[test]
fn a_memory_that_is_rolled_back_by_chance_is_right() {
    for fault in [Fault::None, Fault::Chance] {
        for schedule in SCHEDULES {
            let plan = Plan { schedule, rounds: 2000, ..Plan::default() };
            let result = bench(&Marked { fault, ..Marked::default() }, &plan).unwrap();
            assert_eq!((result.result.verdict, result.rounds), (Verdict::OpaqueSoFar, 2000));
        }
    }
}

/// All registers are 0. The first read takes longer than `bench_main` waits.
#[derive(Default)]
struct Slow(AtomicBool);

impl Memory for Slow {
    type Transaction<'m> = ();

    fn begin(&self) -> Result<(), Aborted> {
        Ok(())
    }

    fn read(&self, _: &mut (), _: usize) -> Result<u64, Aborted> {
        if !self.0.swap(true, SeqCst) {
            std::thread::sleep(Duration::from_secs(6));
        }
        Ok(0)
    }

    fn write(&self, _: &mut (), _: usize, _: u64) -> Result<(), Aborted> {
        Ok(())
    }

    fn commit(&self, _: ()) -> Result<(), Aborted> {
        Ok(())
    }

    fn abort(&self, _: ()) {}
}

#[test]
fn a_slow_memory_is_not_given_up() {
    let plan = Plan { schedule: Schedule::Steps, threads: 1, rounds: 1, writes: 0, adds: 0, ..Plan::default() };
    let result = bench(&Slow::default(), &plan).unwrap();
    assert_eq!((result.result.verdict, result.rounds), (Verdict::OpaqueSoFar, 1));
}
