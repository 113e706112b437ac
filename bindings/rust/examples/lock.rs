//! Two-phase locking on the bench, with a mutex for each register.
//!
//!     TMWATCH_LIB=../../built/lib cargo run --release --example lock -- --rounds 20000
//!
//! The options, the output and the exit status are those of a memory in C. `--help` lists the options.

use std::sync::{Mutex, MutexGuard};
use tmwatch::{bench_main, pause, Aborted, Memory};

/// A register whose lock is held, and its value before the transaction.
struct Held<'m> {
    word: MutexGuard<'m, u64>,
    before: u64,
}

/// The registers that a transaction used. When it is dropped, their locks are released.
type Locked<'m> = [Option<Held<'m>>; 8];

#[derive(Default)]
struct Locks([Mutex<u64>; 8]);

impl Locks {
    /// Returns the register, and takes its lock if necessary. Rolls back if another transaction holds the lock.
    fn take<'t, 'm>(&'m self, it: &'t mut Locked<'m>, register: usize) -> Result<&'t mut u64, Aborted> {
        if it[register].is_none() {
            let Ok(word) = self.0[register].try_lock() else {
                undo(it);
                return Err(Aborted);
            };
            it[register] = Some(Held { before: *word, word });
        }
        let held = it[register].as_mut().expect("its lock is held");
        Ok(&mut held.word)
    }
}

fn undo(it: &mut Locked<'_>) {
    for held in it.iter_mut().flatten() {
        *held.word = held.before;
        pause();
    }
}

impl Memory for Locks {
    type Transaction<'m> = Locked<'m>;

    fn begin(&self) -> Result<Locked<'_>, Aborted> {
        Ok(Locked::default())
    }

    fn read<'m>(&'m self, it: &mut Locked<'m>, register: usize) -> Result<u64, Aborted> {
        let value = *self.take(it, register)?;
        pause();
        Ok(value)
    }

    fn write<'m>(&'m self, it: &mut Locked<'m>, register: usize, value: u64) -> Result<(), Aborted> {
        *self.take(it, register)? = value;
        pause();
        Ok(())
    }

    fn commit<'m>(&'m self, _: Locked<'m>) -> Result<(), Aborted> {
        Ok(())
    }

    fn abort<'m>(&'m self, mut it: Locked<'m>) {
        undo(&mut it);
    }
}

fn main() {
    bench_main(&Locks::default())
}
