//! The values that the library returns.

use crate::ffi;
use std::fmt;

/// Why a call failed. The headers say which function fails with which status, and when.
#[derive(Clone, Copy, Debug, PartialEq, Eq, Hash)]
#[repr(u32)]
pub enum Status {
    /// The watch was closed.
    NoHandle = 1,
    /// Not expected: a handle that should be empty is in use.
    HandleInUse = 2,
    /// The number of registers is not 1 to 8.
    BadRegisters = 3,
    /// A register that the memory does not have has another initial value than 0.
    BadStart = 4,
    /// Another number of the settings or the plan is out of its range.
    BadBounds = 5,
    /// The number of recorders is not 1 to 8, or there are fewer cells than recorders, or more than 4,096.
    BadSize = 6,
    /// The limit is below the number of recorders, or above 2^40.
    BadLimit = 7,
    /// Out of memory.
    NoMemory = 8,
    /// The ring has no room. Try again after the watch has judged more events.
    Full = 9,
    /// The watch's limit is reached, so no later call succeeds either.
    Spent = 10,
    /// Not expected: no kind of event has this letter.
    BadKind = 11,
    /// The memory has no such register.
    BadRegister = 12,
    /// A recorder of the watch is still alive.
    MissingRecorder = 13,
    /// Not expected: the watch was being closed, and is no longer open.
    Closing = 14,
    /// A memory's `run` called [`Attempt::run_body`](crate::Attempt::run_body) twice in one attempt.
    WrongPhase = 15,
    /// Not expected: the event that should be a transaction's next call is not a call.
    NotACall = 16,
    /// A memory's `run` returned true although [`Attempt::run_body`](crate::Attempt::run_body) had not.
    WrongAnswer = 17,
    /// The memory makes no progress: a transaction that ran by itself was rolled back again and again. Standard error reports which one.
    NoProgress = 33,
}

const STATUSES: [(Status, &str); 18] = [
    (Status::NoHandle, "the watch has been closed"),
    (Status::HandleInUse, "a handle is not empty"),
    (Status::BadRegisters, "not 1 to 8 registers"),
    (Status::BadStart, "a register that the memory doesn't have begins at another value than 0"),
    (Status::BadBounds, "a bound is out of its range"),
    (Status::BadSize, "not 1 to 8 recorders, or not from as many cells to 4,096"),
    (Status::BadLimit, "the limit is below the number of recorders, or above 2^40"),
    (Status::NoMemory, "out of memory"),
    (Status::Full, "the ring has no room"),
    (Status::Spent, "the watch's limit is reached"),
    (Status::BadKind, "no such kind of event"),
    (Status::BadRegister, "no such register"),
    (Status::MissingRecorder, "a recorder of the watch is still alive"),
    (Status::Closing, "the watch was being closed"),
    (Status::WrongPhase, "a memory's `run` called `run_body` twice in one attempt"),
    (Status::NotACall, "what is to be a transaction's next call is none"),
    (Status::WrongAnswer, "a memory's `run` returned true, although `run_body` had not"),
    (Status::NoProgress, "a transaction that ran alone was rolled back again and again"),
];

impl Status {
    /// Returns the status with this number as an error, or `Ok` for 0.
    pub(crate) fn check(number: u32) -> Result<(), Status> {
        match number {
            0 => Ok(()),
            _ => Err(STATUSES.iter().find(|(status, _)| *status as u32 == number).expect("a status of the library").0),
        }
    }
}

impl fmt::Display for Status {
    fn fmt(&self, to: &mut fmt::Formatter<'_>) -> fmt::Result {
        let text = STATUSES.iter().find(|(status, _)| status == self).map_or("", |(_, text)| text);
        to.write_str(text)
    }
}

impl std::error::Error for Status {}

/// Why a verdict is undecided.
#[derive(Clone, Copy, Debug, PartialEq, Eq, Hash)]
pub enum Why {
    /// More than `window` transactions since the last quiescent point, at which no transaction is open.
    Transactions,
    /// More than `states` possible register states at a quiescent point.
    States,
    /// On the bench: the run is violated under the memory model of x86 or C++20, but synchronization that the bench cannot observe may
    /// forbid that run.
    Untracked,
}

/// The verdict on the judged events. `at` is the length of a prefix.
#[derive(Clone, Copy, Debug, PartialEq, Eq, Hash)]
#[allow(missing_docs)]
pub enum Verdict {
    /// Every prefix is opaque.
    OpaqueSoFar,
    /// The prefix of this length is the first that is not opaque.
    Violated { at: u64 },
    /// At this length the run exceeded a limit, and nothing was wrong before.
    Undecided { at: u64, why: Why },
    /// The event at this length cannot occur in any run, so the recorder is wrong.
    Malformed { at: u64 },
}

/// The number of judged events, and the verdict on them.
#[derive(Clone, Copy, Debug, PartialEq, Eq, Hash)]
#[allow(missing_docs)]
pub struct WatchResult {
    pub events: u64,
    pub verdict: Verdict,
}

impl From<ffi::WatchResult> for WatchResult {
    fn from(result: ffi::WatchResult) -> WatchResult {
        let at = result.at;
        let why = match result.why {
            1 => Why::Transactions,
            2 => Why::States,
            _ => Why::Untracked,
        };
        let verdict = match result.verdict {
            0 => Verdict::OpaqueSoFar,
            1 => Verdict::Violated { at },
            2 => Verdict::Undecided { at, why },
            _ => Verdict::Malformed { at },
        };
        WatchResult { events: result.events, verdict }
    }
}

/// Statistics of the judged events.
#[repr(C)]
#[derive(Clone, Copy, Debug, Default, PartialEq, Eq, Hash)]
pub struct Counts {
    /// Transactions that aborted.
    pub aborted: u64,
    /// Transactions that committed.
    pub committed: u64,
    /// Quiescent points, without the one before the first event.
    pub cuts: u64,
    /// Open transactions, including commit-pending ones.
    pub live: u64,
    /// Transactions that overlap one of another thread.
    pub concurrent: u64,
    /// All transactions.
    pub transactions: u64,
    /// Forced aborts: transactions that aborted without a request.
    pub forced_aborts: u64,
    /// The most transactions from one quiescent point to the next, or to the end.
    pub max_window: u64,
    /// Two or more threads ran, but no two transactions overlapped, so an opaque run tests nothing.
    pub none_overlapped: bool,
}

#[cfg(test)]
mod tests {
    use super::*;

    #[test]
    fn each_verdict_is_told() {
        let result = |verdict, why| WatchResult::from(ffi::WatchResult { events: 9, at: 7, verdict, why }).verdict;
        assert_eq!(result(0, 0), Verdict::OpaqueSoFar);
        assert_eq!(result(1, 0), Verdict::Violated { at: 7 });
        assert_eq!(result(2, 1), Verdict::Undecided { at: 7, why: Why::Transactions });
        assert_eq!(result(2, 2), Verdict::Undecided { at: 7, why: Why::States });
        assert_eq!(result(2, 3), Verdict::Undecided { at: 7, why: Why::Untracked });
        assert_eq!(result(3, 0), Verdict::Malformed { at: 7 });
    }

    #[test]
    fn each_status_says_what_it_is() {
        let texts = [
            "the watch has been closed",
            "a handle is not empty",
            "not 1 to 8 registers",
            "a register that the memory doesn't have begins at another value than 0",
            "a bound is out of its range",
            "not 1 to 8 recorders, or not from as many cells to 4,096",
            "the limit is below the number of recorders, or above 2^40",
            "out of memory",
            "the ring has no room",
            "the watch's limit is reached",
            "no such kind of event",
            "no such register",
            "a recorder of the watch is still alive",
            "the watch was being closed",
            "a memory's `run` called `run_body` twice in one attempt",
            "what is to be a transaction's next call is none",
            "a memory's `run` returned true, although `run_body` had not",
            "a transaction that ran alone was rolled back again and again",
        ];
        let numbers = (1..=17).chain([33]);
        assert_eq!(numbers.map(|number| Status::check(number).unwrap_err().to_string()).collect::<Vec<_>>(), texts);
        assert_eq!(Status::check(0), Ok(()));
    }
}
