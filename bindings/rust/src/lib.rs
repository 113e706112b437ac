//! An online opacity monitor for transactional memories, and a bench that tests a memory with it.
//!
//! Each thread records its calls to the memory, and the answers, with a [`Recorder`]. Meanwhile one thread lets a [`Watch`] judge the
//! recorded events. The watch reports whether the run is opaque so far, or otherwise which prefix is the first that is not opaque.
//! [`bench()`] runs random transactions on a [`Memory`] and records them. [`bench_retrying`] does the same for a [`RetryingMemory`], which
//! retries transactions itself.
//!
//! include/tmwatch.h numbers the duties of a program. The types of this package fulfil them, except for four:
//!
//! - Duty 5: malloc, realloc and free of C belong to one allocator.
//! - Duty 6: no function is called in a signal handler, or in a forked child of a process that has threads. Only unsafe code can do that.
//! - Duty 7: the stack has room for a call.
//! - Duty 8: events are recorded at the right moments. Otherwise the verdict is about another run.
//!
//! Any way to move a [`Recorder`] from one thread to another in safe code fulfils duty 2.
#![deny(unsafe_op_in_unsafe_fn)]
#![warn(missing_docs)]

mod bench;
mod ffi;
mod results;
mod retrying;
pub mod sync;
mod watch;

pub use bench::{bench, bench_main, pause, thread, Aborted, BenchResult, Memory, Orders, Plan, Schedule, RANDOM};
pub use results::{Counts, Status, Verdict, WatchResult, Why};
pub use retrying::{bench_retrying, bench_retrying_main, Attempt, RetryingMemory};
pub use watch::{Event, Recorder, Settings, Watch};
