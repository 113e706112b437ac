//! A watch and its recorders.

use crate::{ffi, Counts, Status, WatchResult};
use std::cell::UnsafeCell;
use std::marker::PhantomData;
use std::sync::atomic::{AtomicU8, Ordering::SeqCst};
use std::sync::Arc;

const MOST_RECORDERS: usize = 8;

/// The memory to watch, and the limits of the run.
#[repr(C)]
#[derive(Clone, Copy, Debug, PartialEq, Eq)]
pub struct Settings {
    /// Number of registers of the memory: 1 to 8.
    pub registers: u64,
    /// Their initial values; 0 for those that the memory does not have.
    pub start: [u64; 8],
    /// Maximum number of transactions from one quiescent point, at which no transaction is open, to the next: 1 to 8.
    pub window: u64,
    /// Maximum number of register states that are possible at a quiescent point: 1 to 64.
    pub states: u64,
    /// Maximum number of events that are recorded but not yet judged: from the number of recorders to 4,096.
    pub cells: u64,
    /// Maximum number of events in the run: from the number of recorders to 2^40.
    pub limit: u64,
}

impl Settings {
    /// Returns the settings with all limits at their maximum, for a memory with this number of registers, which are initially 0.
    pub fn new(registers: u64) -> Settings {
        Settings { registers, start: [0; 8], window: 8, states: 64, cells: 4096, limit: 1 << 40 }
    }
}

/// An event of a recorder's thread. Record a call before you call the memory, and the answer after the memory has returned.
#[derive(Clone, Copy, Debug, PartialEq, Eq, Hash)]
#[allow(missing_docs)]
pub enum Event {
    /// The call of a read.
    Read { register: u64 },
    /// The answer to a read or an add: the value that the register had.
    Value(u64),
    /// The call of a write.
    Write { register: u64, value: u64 },
    /// The answer to a write.
    Stored,
    /// The call of an add, modulo 2^64.
    Add { register: u64, value: u64 },
    /// The commit request.
    Commit,
    /// The answer to it: the transaction is committed.
    Committed,
    /// The abort request.
    Abort,
    /// The answer to any call in which the transaction was aborted.
    Aborted,
}

impl Event {
    /// Returns the letter, register and value of the event in a trace.
    fn parts(self) -> (u8, u64, u64) {
        match self {
            Event::Read { register } => (b'R', register, 0),
            Event::Value(value) => (b'V', 0, value),
            Event::Write { register, value } => (b'W', register, value),
            Event::Stored => (b'K', 0, 0),
            Event::Add { register, value } => (b'N', register, value),
            Event::Commit => (b'T', 0, 0),
            Event::Committed => (b'C', 0, 0),
            Event::Abort => (b'X', 0, 0),
            Event::Aborted => (b'A', 0, 0),
        }
    }
}

/// States of a recorder's handle: its `Recorder` uses it; the recorder is dropped, and the `Watch` uses it; or the watch is dropped, and
/// only the `Recorder` uses it.
const HELD: u8 = 0;
const BACK: u8 = 1;
const ALONE: u8 = 2;

/// The recorders' handles. They never move, and are adjacent, because tmwatch_close takes an array of them.
struct Handles {
    handles: [UnsafeCell<ffi::Recorder>; MOST_RECORDERS],
    users: [AtomicU8; MOST_RECORDERS],
    count: usize,
}

// SAFETY: only one thread at a time uses a handle, namely the one that `users` names. A sequentially consistent swap passes it on.
unsafe impl Sync for Handles {}
// SAFETY: a handle may be used by another thread than the one that opened it. In whatever way a `Recorder` moves, its calls in the first
// thread happen before those in the next one; the start of a thread, its end, or a lock guarantee no more than that. All steps on the ring
// are sequentially consistent. Their single order is consistent with happens-before between two calls, for example because of a move (C11,
// 7.17.3; C++20, [atomics.order], which is Rust's model). Therefore a channel suffices too, or an atomic that releases and acquires.
unsafe impl Send for Handles {}

impl Handles {
    fn first(&self) -> *mut ffi::Recorder {
        UnsafeCell::raw_get(self.handles.as_ptr())
    }

    fn are_back(&self) -> bool {
        self.users[..self.count].iter().all(|user| user.load(SeqCst) == BACK)
    }

    /// Passes the handle to the other side. If that was dropped before, frees everything that the handle holds.
    fn leave(&self, number: usize, to: u8) {
        if self.users[number].swap(to, SeqCst) != HELD {
            // SAFETY: the other side was dropped before, so nothing else uses this handle any more.
            unsafe { ffi::tmwatch_discard_recorder(self.handles[number].get()) }
        }
    }
}

/// Judges the events of its recorders. It stays in the thread that opened it:
///
/// ```compile_fail,E0277
/// let (watch, _recorders) = tmwatch::Watch::open(&tmwatch::Settings::new(1), 1).unwrap();
/// std::thread::spawn(move || watch.report());
/// ```
///
/// If a watch is dropped, events that are not judged yet are lost. Its recorders then record until they return [`Status::Full`] or
/// [`Status::Spent`].
pub struct Watch {
    /// Boxed, because the handle must not move.
    watch: Box<UnsafeCell<ffi::Watch>>,
    handles: Arc<Handles>,
    /// The watch is neither `Send` nor `Sync`.
    here: PhantomData<*mut ()>,
}

impl Watch {
    /// Opens a watch with `count` recorders, 1 to 8, one for each thread. `count` is checked first.
    pub fn open(settings: &Settings, count: usize) -> Result<(Watch, Vec<Recorder>), Status> {
        if count == 0 || count > MOST_RECORDERS {
            return Err(Status::BadSize);
        }
        let handles = Arc::new(Handles {
            handles: [const { UnsafeCell::new(ffi::Recorder::EMPTY) }; MOST_RECORDERS],
            users: [const { AtomicU8::new(HELD) }; MOST_RECORDERS],
            count,
        });
        let watch = Watch { watch: Box::new(UnsafeCell::new(ffi::Watch::EMPTY)), handles, here: PhantomData };
        // SAFETY: all handles are empty, nothing else refers to them, and there are at least `count`.
        Status::check(unsafe { ffi::tmwatch_open(watch.watch.get(), watch.handles.first(), count, settings) })?;
        let recorders = (0..count).map(|number| Recorder { handles: watch.handles.clone(), number }).collect();
        Ok((watch, recorders))
    }

    /// Judges up to `most` events, and returns their number. Does not allocate.
    pub fn pump(&self, most: u64) -> Result<u64, Status> {
        let mut judged = 0;
        // SAFETY: only this thread has the watch, and it is not within another call.
        Status::check(unsafe { ffi::tmwatch_pump(self.watch.get(), most, &mut judged) })?;
        Ok(judged)
    }

    /// Returns the verdict on the events that were judged so far.
    pub fn report(&self) -> Result<WatchResult, Status> {
        let mut result = ffi::WatchResult::default();
        // SAFETY: as in `pump`.
        Status::check(unsafe { ffi::tmwatch_report(self.watch.get(), &mut result) })?;
        Ok(result.into())
    }

    /// Returns statistics of the events that were judged so far.
    pub fn summary(&self) -> Result<Counts, Status> {
        let mut counts = Counts::default();
        // SAFETY: as in `pump`.
        Status::check(unsafe { ffi::tmwatch_summary(self.watch.get(), &mut counts) })?;
        Ok(counts)
    }

    /// Judges the remaining events, closes the watch and its recorders, and returns the verdict on all events that were ever recorded. Drop
    /// all recorders before; otherwise it returns [`Status::MissingRecorder`] and changes nothing. After [`Status::NoMemory`], you may call it again.
    pub fn close(&self) -> Result<WatchResult, Status> {
        if !self.handles.are_back() {
            return Err(Status::MissingRecorder);
        }
        let (first, count) = (self.handles.first(), self.handles.count);
        let mut result = ffi::WatchResult::default();
        // SAFETY: as in `pump`; all recorders are dropped, so nothing else uses their handles, which are this watch's.
        Status::check(unsafe { ffi::tmwatch_close(self.watch.get(), first, count, &mut result) })?;
        Ok(result.into())
    }
}

impl Drop for Watch {
    fn drop(&mut self) {
        // SAFETY: as in `pump`. If the watch is closed, or was never opened, its handle is empty, and this does nothing.
        unsafe { ffi::tmwatch_discard(self.watch.get()) }
        for number in 0..self.handles.count {
            self.handles.leave(number, ALONE);
        }
    }
}

/// Records the events of one thread. It can move to that thread, but cannot be cloned:
///
/// ```compile_fail,E0599
/// let (_watch, recorders) = tmwatch::Watch::open(&tmwatch::Settings::new(1), 1).unwrap();
/// let copy = recorders[0].clone();
/// ```
///
/// It can move like any other value, for example through a channel, and also after it has recorded events. These precede the events that it
/// records next. A transaction belongs to one thread, so move the recorder only between two transactions.
pub struct Recorder {
    handles: Arc<Handles>,
    number: usize,
}

impl Recorder {
    /// Returns the number that the recorder's thread has in a trace.
    pub fn number(&self) -> usize {
        self.number
    }

    /// Records an event, and returns its place, from 0, in the log of all threads. Never waits. After [`Status::Full`], record the same
    /// event again before the thread continues; otherwise the verdict is about another run.
    pub fn record(&mut self, event: Event) -> Result<u64, Status> {
        let (letter, register, value) = event.parts();
        let mut place = 0;
        // SAFETY: until this recorder is dropped, the handle belongs to it, and the recorder is borrowed exclusively.
        Status::check(unsafe { ffi::tmwatch_record(self.handle(), letter.into(), register, value, &mut place) })?;
        Ok(place)
    }

    /// Returns `Ok` if there is room for this number of events. Then no record of this recorder returns [`Status::Full`] or
    /// [`Status::Spent`] until all recorders of the watch together have recorded that many more events.
    pub fn room(&mut self, events: u64) -> Result<(), Status> {
        // SAFETY: as in `record`.
        Status::check(unsafe { ffi::tmwatch_room(self.handle(), events) })
    }

    fn handle(&mut self) -> *mut ffi::Recorder {
        self.handles.handles[self.number].get()
    }
}

impl Drop for Recorder {
    fn drop(&mut self) {
        self.handles.leave(self.number, BACK);
    }
}
