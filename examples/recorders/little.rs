//! Runs rounds of transactions on a little memory, and writes the trace of the run.
//!
//!     little FAULT ROUNDS SEED
//!
//! FAULT is what is left out of the memory: none, reads or commit.

mod recorder;

use recorder::{write_trace, Kind, Recorder};
use std::io::{self, BufWriter};
use std::sync::atomic::{AtomicU64, Ordering::SeqCst};
use std::sync::Barrier;
use std::thread;

const THREADS: usize = 4;
/// A round has at most THREADS * ATTEMPTS = 8 transactions, as an attempt is one.
const ATTEMPTS: u64 = 2;
const REGISTERS: usize = 3;
const STEPS: usize = 3;

#[derive(Clone, Copy, PartialEq)]
enum Fault {
    None,
    Reads,
    Commit,
}

/// One sequence lock, odd while a commit stores. A transaction aborts as soon as the sequence is no longer its snapshot.
struct Memory {
    fault: Fault,
    sequence: AtomicU64,
    registers: [AtomicU64; REGISTERS],
}

/// A transaction: its snapshot, and the writes that are kept until it commits.
struct Tx {
    snapshot: u64,
    writes: Vec<(usize, u64)>,
}

struct Aborted;

impl Memory {
    fn begin(&self) -> Tx {
        let mut snapshot = self.sequence.load(SeqCst);
        while snapshot % 2 == 1 {
            thread::yield_now();
            snapshot = self.sequence.load(SeqCst);
        }
        Tx { snapshot, writes: Vec::new() }
    }

    fn read(&self, tx: &Tx, register: usize) -> Result<u64, Aborted> {
        if let Some((_, value)) = tx.writes.iter().rev().find(|(written, _)| *written == register) {
            return Ok(*value);
        }
        let value = self.registers[register].load(SeqCst);
        let is_valid = self.fault == Fault::Reads || self.sequence.load(SeqCst) == tx.snapshot;
        is_valid.then_some(value).ok_or(Aborted)
    }

    fn commit(&self, tx: Tx) -> Result<(), Aborted> {
        let snapshot = if self.fault == Fault::Commit { self.begin().snapshot } else { tx.snapshot };
        self.sequence.compare_exchange(snapshot, snapshot + 1, SeqCst, SeqCst).map_err(|_| Aborted)?;
        for (register, value) in tx.writes {
            self.registers[register].store(value, SeqCst);
        }
        self.sequence.store(snapshot + 2, SeqCst);
        Ok(())
    }
}

/// What a transaction does: reads each of these registers in order, and then writes it where that is said, and asks to commit or abort.
struct Script {
    steps: [(usize, bool); STEPS],
    aborts: bool,
}

/// Draws numbers (Steele, Lea and Flood, OOPSLA 2014).
struct Draws(u64);

impl Draws {
    fn draw(&mut self, below: u64) -> u64 {
        self.0 = self.0.wrapping_add(0x9E3779B97F4A7C15);
        let word = (self.0 ^ self.0 >> 30).wrapping_mul(0xBF58476D1CE4E5B9);
        let word = (word ^ word >> 27).wrapping_mul(0x94D049BB133111EB);
        (word ^ word >> 31) % below
    }

    fn script(&mut self) -> Script {
        Script { steps: [(); STEPS].map(|()| (self.draw(REGISTERS as u64) as usize, self.draw(2) == 0)), aborts: self.draw(8) == 0 }
    }

    /// Waits a little, one time in two, and lets others run, one time in 64, so that transactions overlap also on few processors.
    fn pause(&mut self) {
        for _ in 0..self.draw(2) * self.draw(100) {
            std::hint::spin_loop();
        }
        if self.draw(64) == 0 {
            thread::yield_now();
        }
    }
}

/// An attempt: each call is recorded, and then the memory is asked, also to begin.
fn attempt(memory: &Memory, recorder: &mut Recorder, draws: &mut Draws, script: &Script, fresh: u64) -> Result<(), Aborted> {
    recorder.record(Kind::Read(script.steps[0].0));
    let mut tx = memory.begin();
    for (number, (register, writes)) in script.steps.into_iter().enumerate() {
        if number > 0 {
            recorder.record(Kind::Read(register));
        }
        draws.pause();
        recorder.record(Kind::Value(memory.read(&tx, register)?));
        draws.pause();
        if writes {
            recorder.record(Kind::Write(register, fresh));
            tx.writes.push((register, fresh));
            recorder.record(Kind::Done);
        }
    }
    if script.aborts {
        recorder.record(Kind::AbortRequest);
        return Err(Aborted);
    }
    recorder.record(Kind::CommitRequest);
    memory.commit(tx)?;
    recorder.record(Kind::Commit);
    Ok(())
}

/// A transaction, in at most ATTEMPTS attempts. Each writes a value of its own, from `first` on.
fn transaction(memory: &Memory, recorder: &mut Recorder, draws: &mut Draws, script: &Script, first: u64) {
    for fresh in first..first + ATTEMPTS {
        if attempt(memory, recorder, draws, script, fresh).is_ok() {
            return;
        }
        recorder.record(Kind::Abort);
        if script.aborts {
            return;
        }
    }
}

/// A thread's part of the run. In a round it makes one transaction, and then waits at the barrier.
fn work(memory: &Memory, barrier: &Barrier, recorder: &mut Recorder, rounds: u64, seed: u64) {
    let mut draws = Draws(seed * THREADS as u64 + recorder.thread as u64);
    for round in 0..rounds {
        let script = draws.script();
        let first = (round * THREADS as u64 + recorder.thread as u64) * ATTEMPTS + 1;
        barrier.wait();
        transaction(memory, recorder, &mut draws, &script, first);
        barrier.wait();
    }
}

fn main() -> io::Result<()> {
    let words: Vec<_> = std::env::args().skip(1).collect();
    let [fault, rounds, seed] = words.as_slice() else { panic!("little FAULT ROUNDS SEED") };
    let fault = match fault.as_str() {
        "none" => Fault::None,
        "reads" => Fault::Reads,
        "commit" => Fault::Commit,
        _ => panic!("{fault} is unknown"),
    };
    let (rounds, seed) = (rounds.parse().expect("a number of rounds"), seed.parse().expect("a seed"));
    let memory = Memory { fault, sequence: AtomicU64::new(0), registers: Default::default() };
    let (barrier, places) = (Barrier::new(THREADS), AtomicU64::new(0));
    let mut recorders: Vec<_> = (0..THREADS).map(|thread| Recorder { thread, places: &places, events: Vec::new() }).collect();
    thread::scope(|scope| {
        for recorder in &mut recorders {
            scope.spawn(|| work(&memory, &barrier, recorder, rounds, seed));
        }
    });
    write_trace(REGISTERS, &recorders, &mut BufWriter::new(io::stdout().lock()))
}
