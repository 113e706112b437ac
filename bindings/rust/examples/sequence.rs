//! One sequence lock over all words (Boehm, MSPC 2012) on the bench, with the weakest memory orders that are correct.
//!
//!     TMWATCH_LIB=../../built/lib cargo run --release --example sequence --features steps -- --orders c++
//!
//! If you remove a fence, or make an order `Relaxed`, the bench finds a violation and names the lines. Without the feature, the types are
//! those of `core`.

use tmwatch::sync::atomic::Ordering::{AcqRel, Acquire, Relaxed, Release};
use tmwatch::sync::atomic::{fence, AtomicU64};
use tmwatch::{bench_main, Aborted, Memory};

/// `sequence` is odd while a commit stores.
#[derive(Default)]
struct Sequence {
    sequence: AtomicU64,
    words: [AtomicU64; 8],
}

struct Transaction {
    snapshot: u64,
    written: [Option<u64>; 8],
}

impl Memory for Sequence {
    type Transaction<'m> = Transaction;

    fn begin(&self) -> Result<Transaction, Aborted> {
        loop {
            let snapshot = self.sequence.load(Acquire);
            if snapshot % 2 == 0 {
                return Ok(Transaction { snapshot, written: [None; 8] });
            }
        }
    }

    fn read(&self, it: &mut Transaction, register: usize) -> Result<u64, Aborted> {
        let value = it.written[register].unwrap_or_else(|| self.words[register].load(Relaxed));
        fence(Acquire);
        if self.sequence.load(Relaxed) == it.snapshot {
            Ok(value)
        } else {
            Err(Aborted)
        }
    }

    fn write(&self, it: &mut Transaction, register: usize, value: u64) -> Result<(), Aborted> {
        it.written[register] = Some(value);
        Ok(())
    }

    fn commit(&self, it: Transaction) -> Result<(), Aborted> {
        if it.written.iter().all(Option::is_none) {
            return Ok(());
        }
        if self.sequence.compare_exchange(it.snapshot, it.snapshot + 1, AcqRel, Relaxed).is_err() {
            return Err(Aborted);
        }
        fence(Release);
        for (word, written) in self.words.iter().zip(it.written) {
            if let Some(value) = written {
                word.store(value, Relaxed);
            }
        }
        self.sequence.store(it.snapshot + 2, Release);
        Ok(())
    }

    fn abort(&self, _: Transaction) {}
}

fn main() {
    bench_main(&Sequence::default())
}
