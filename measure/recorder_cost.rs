//! The cost of recording an event with examples/recorders/recorder.rs: nanoseconds, with one thread and with four, the median of 51
//! measurements.

#[allow(dead_code)]
#[path = "../examples/recorders/recorder.rs"]
mod recorder;

use recorder::{Kind, Recorder};
use std::sync::atomic::AtomicU64;
use std::sync::Barrier;
use std::thread;
use std::time::Instant;

const EVENTS: u64 = 1 << 16;
const TIMES: usize = 51;

/// The nanoseconds of an event, where this many threads share the events.
fn measure(threads: u64) -> f64 {
    let (places, barrier) = (AtomicU64::new(0), Barrier::new(threads as usize + 1));
    thread::scope(|scope| {
        for thread in 0..threads as usize {
            let (places, barrier) = (&places, &barrier);
            scope.spawn(move || {
                let mut recorder = Recorder { thread, places, events: Vec::new() };
                barrier.wait();
                for value in 0..EVENTS / threads {
                    recorder.record(Kind::Value(value));
                }
                barrier.wait();
            });
        }
        let began = Instant::now();
        barrier.wait();
        barrier.wait();
        began.elapsed().as_nanos() as f64 / EVENTS as f64
    })
}

fn main() {
    for threads in [1, 4] {
        let mut taken: Vec<_> = (0..TIMES).map(|_| measure(threads)).collect();
        taken.sort_by(f64::total_cmp);
        println!("Rust  {threads} {:8.1} {:4}", taken[TIMES / 2], size_of::<(u64, Kind)>());
    }
}
