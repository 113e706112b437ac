//! Records what threads call and are answered, and writes it as the trace that `tmwatch judge` reads. Threads and registers have the
//! numbers 0 to 7. A call is recorded before the memory is asked, and an answer after the memory has answered.

use std::fmt;
use std::io::{self, Write};
use std::sync::atomic::{AtomicU64, Ordering::SeqCst};

pub enum Kind {
    Read(usize),
    Value(u64),
    Write(usize, u64),
    Done,
    CommitRequest,
    Commit,
    AbortRequest,
    Abort,
}

impl fmt::Display for Kind {
    fn fmt(&self, f: &mut fmt::Formatter) -> fmt::Result {
        match self {
            Kind::Read(register) => write!(f, "R {register}"),
            Kind::Value(value) => write!(f, "V {value}"),
            Kind::Write(register, value) => write!(f, "W {register} {value}"),
            Kind::Done => f.write_str("K"),
            Kind::CommitRequest => f.write_str("T"),
            Kind::Commit => f.write_str("C"),
            Kind::AbortRequest => f.write_str("X"),
            Kind::Abort => f.write_str("A"),
        }
    }
}

/// The events of one thread, each with its place in the one order of all threads' events.
pub struct Recorder<'a> {
    pub thread: usize,
    pub places: &'a AtomicU64,
    pub events: Vec<(u64, Kind)>,
}

impl Recorder<'_> {
    /// What a thread does before it takes a place happens before what another does after it has taken a later one.
    pub fn record(&mut self, kind: Kind) {
        self.events.push((self.places.fetch_add(1, SeqCst), kind));
    }
}

/// Writes all that was recorded, in the order of the places.
pub fn write_trace(registers: usize, recorders: &[Recorder], out: &mut impl Write) -> io::Result<()> {
    writeln!(out, "opacity-trace 1 {registers}")?;
    let mut events: Vec<_> = recorders.iter().flat_map(|one| one.events.iter().map(move |event| (one.thread, event))).collect();
    events.sort_unstable_by_key(|(_, (place, _))| *place);
    events.iter().try_for_each(|(thread, (_, kind))| writeln!(out, "{thread} {kind}"))
}
