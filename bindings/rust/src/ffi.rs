//! The declarations of include/tmwatch.h and include/tmwatch_bench.h. The test below compares each layout with these headers.

use crate::{Counts, Settings};
use std::ffi::{c_char, c_int, c_uint, c_void};
use std::ptr::null_mut;

/// A `tmwatch`. Only the library accesses its fields.
#[repr(C)]
pub struct Watch {
    at: *mut c_void,
    full: bool,
}

impl Watch {
    pub const EMPTY: Watch = Watch { at: null_mut(), full: false };
}

/// A `tmwatch_recorder`. Only the library accesses its fields.
#[repr(C)]
pub struct Recorder {
    at: *mut c_void,
    full: bool,
    number: u8,
}

impl Recorder {
    pub const EMPTY: Recorder = Recorder { at: null_mut(), full: false, number: 0 };
}

#[repr(C)]
#[derive(Clone, Copy, Default)]
pub struct WatchResult {
    pub events: u64,
    pub at: u64,
    pub verdict: u32,
    pub why: u32,
}

#[repr(C)]
pub struct Memory {
    pub memory: *mut c_void,
    pub tx_size: usize,
    pub begin: Option<unsafe extern "C" fn(*mut c_void, *mut c_void) -> bool>,
    pub read: Option<unsafe extern "C" fn(*mut c_void, *mut c_void, c_uint, *mut u64) -> bool>,
    pub write: Option<unsafe extern "C" fn(*mut c_void, *mut c_void, c_uint, u64) -> bool>,
    pub add: Option<unsafe extern "C" fn(*mut c_void, *mut c_void, c_uint, u64, *mut u64) -> bool>,
    pub commit: Option<unsafe extern "C" fn(*mut c_void, *mut c_void) -> bool>,
    pub abort: Option<unsafe extern "C" fn(*mut c_void, *mut c_void)>,
    pub run: Option<unsafe extern "C" fn(*mut c_void, *mut c_void, *mut c_void) -> bool>,
}

#[repr(C)]
pub struct Plan {
    pub rounds: u64,
    pub seed: u64,
    pub threads: u64,
    pub registers: u64,
    pub accesses: u64,
    pub attempts: u64,
    pub writes: u64,
    pub adds: u64,
    pub aborts: u64,
    pub pause: u64,
    pub seconds: u64,
    pub schedule: u64,
    pub start: [u64; 8],
    pub trace: *mut c_void,
    pub mixed_rounds: u64,
    pub round: u64,
    pub orders: u64,
    pub plain: u64,
    pub timeout: u64,
    pub progress: *mut c_void,
    pub blind_writes: u64,
    pub event: u64,
    pub phases_file: *mut c_void,
    pub steps_file: *mut c_void,
    pub races: u64,
    pub small: u64,
    pub keep_going: u64,
    pub crashes: u64,
    pub audit_first: u64,
}

/// Sizes in bytes of the texts in `BenchResult`.
pub const MAX_STALE_LOADS: usize = 4096;
pub const MAX_RACE: usize = 1024;

#[repr(C)]
pub struct BenchResult {
    pub result: WatchResult,
    pub counts: Counts,
    pub rounds: u64,
    pub skipped: u64,
    pub max_interleaved_commits: u64,
    pub stores: u64,
    pub steps: u64,
    pub context_switches: u64,
    pub stalls: u64,
    pub waits: u64,
    pub crashes: u64,
    pub reproducer: Plan,
    pub is_deterministic: bool,
    pub event: u64,
    pub solo_rollbacks: u64,
    pub phase: Plan,
    pub untracked: u64,
    pub race: [c_char; MAX_RACE],
    pub stale_loads: [c_char; MAX_STALE_LOADS],
    pub delayed: [c_char; MAX_RACE],
}

extern "C" {
    pub fn tmwatch_open(watch: *mut Watch, recorders: *mut Recorder, count: usize, settings: *const Settings) -> u32;
    pub fn tmwatch_record(recorder: *mut Recorder, letter: u32, register: u64, value: u64, place: *mut u64) -> u32;
    pub fn tmwatch_room(recorder: *mut Recorder, events: u64) -> u32;
    pub fn tmwatch_pump(watch: *mut Watch, most: u64, judged: *mut u64) -> u32;
    pub fn tmwatch_report(watch: *mut Watch, result: *mut WatchResult) -> u32;
    pub fn tmwatch_summary(watch: *mut Watch, counts: *mut Counts) -> u32;
    pub fn tmwatch_close(watch: *mut Watch, recorders: *mut Recorder, count: usize, result: *mut WatchResult) -> u32;
    pub fn tmwatch_discard(watch: *mut Watch);
    pub fn tmwatch_discard_recorder(recorder: *mut Recorder);
    pub fn tmwatch_bench(memory: *const Memory, plan: *const Plan, result: *mut BenchResult) -> u32;
    pub fn tmwatch_begin_attempt(attempt: *mut c_void) -> bool;
    pub fn tmwatch_run_body(attempt: *mut c_void) -> bool;
    pub fn tmwatch_bench_print_options(file: *mut c_void, plan: *const Plan);
    pub fn tmwatch_bench_main(memory: *const Memory, count: c_int, words: *mut *mut c_char) -> c_int;
    pub fn tmwatch_pause();
    pub fn tmwatch_thread() -> c_uint;
    // Functions of the C library for a stream that writes into memory.
    pub fn open_memstream(bytes: *mut *mut c_char, size: *mut usize) -> *mut c_void;
    pub fn ferror(stream: *mut c_void) -> c_int;
    pub fn fclose(stream: *mut c_void) -> c_int;
    pub fn free(block: *mut c_void);
}

#[cfg(test)]
mod tests {
    use super::*;
    use crate::Status;
    use std::fmt::Write;
    use std::mem::{offset_of, size_of};
    use std::process::Command;

    /// Adds a check that the type's size, and each field's offset and size, are the same in C.
    macro_rules! layout {
        ($to:ident, $rust:ty, $c:literal, $($field:ident)*) => {
            writeln!($to, "_Static_assert(sizeof({}) == {}, \"{0}\");", $c, size_of::<$rust>()).unwrap();
            $(
                let size = size_of_field(|it: &$rust| &it.$field as *const _);
                let (name, at) = (stringify!($field), offset_of!($rust, $field));
                writeln!($to, "_Static_assert(offsetof({}, {name}) == {at}, \"{0}, {name}\");", $c).unwrap();
                writeln!($to, "_Static_assert(sizeof((({} *)0)->{name}) == {size}, \"{0}, {name}\");", $c).unwrap();
            )*
        };
    }

    fn size_of_field<T, F>(_: impl Fn(&T) -> *const F) -> usize {
        size_of::<F>()
    }

    fn checks() -> String {
        let mut to = String::from("#include \"tmwatch_bench.h\"\n");
        layout!(to, Watch, "tmwatch", at full);
        layout!(to, Recorder, "tmwatch_recorder", at full number);
        layout!(to, Settings, "tmwatch_settings", registers start window states cells limit);
        layout!(to, WatchResult, "tmwatch_result", events at verdict why);
        layout!(to, Counts, "tmwatch_counts", aborted committed cuts live concurrent transactions forced_aborts max_window none_overlapped);
        layout!(to, Memory, "tmwatch_memory", memory tx_size begin read write add commit abort run);
        layout!(
            to, Plan, "tmwatch_plan", rounds seed threads registers accesses attempts writes adds aborts pause seconds schedule start trace
            mixed_rounds round orders plain timeout progress blind_writes event phases_file steps_file races small keep_going crashes audit_first
        );
        layout!(
            to, BenchResult, "tmwatch_bench_result", result counts rounds skipped max_interleaved_commits stores steps context_switches stalls waits crashes reproducer is_deterministic event
            solo_rollbacks phase untracked race stale_loads delayed
        );
        to
    }

    /// Adds a check of each status's number.
    fn statuses(to: &mut String) {
        let names =
            "NO_HANDLE HANDLE_IN_USE BAD_REGISTERS BAD_START BAD_BOUNDS BAD_SIZE BAD_LIMIT NO_MEMORY FULL SPENT BAD_KIND BAD_REGISTER \
                     MISSING_RECORDER CLOSING WRONG_PHASE NOT_A_CALL WRONG_ANSWER";
        for (name, number) in names.split(' ').zip(1..).chain([("NO_PROGRESS", Status::NoProgress as u32)]) {
            let status = Status::check(number).unwrap_err();
            assert_eq!(status as u32, number);
            assert_eq!(format!("{status:?}").to_uppercase(), name.replace('_', ""));
            writeln!(to, "_Static_assert(TMWATCH_{name} == {number}, \"{name}\");").unwrap();
        }
    }

    /// Adds statements that return 1 unless the headers' default settings and plan are those of Rust.
    fn defaults(to: &mut String) {
        let (plan, settings) = (crate::Plan::default(), Settings::new(3));
        let mut same = |it: &str, number: u64| writeln!(to, "    if ({it} != {number}u) return 1;").unwrap();
        for (name, number) in [
            ("rounds", plan.rounds),
            ("seed", plan.seed),
            ("threads", plan.threads),
            ("registers", plan.registers),
            ("accesses", plan.accesses),
            ("attempts", plan.attempts),
            ("writes", plan.writes),
            ("adds", plan.adds),
            ("aborts", plan.aborts),
            ("pause", plan.pause),
            ("seconds", plan.seconds),
            ("schedule", plan.schedule as u64),
            ("mixed_rounds", plan.mixed_rounds),
            ("round", plan.round),
            ("orders", plan.orders.map_or(crate::RANDOM, |orders| orders as u64)),
            ("plain", u64::from(plan.plain)),
            ("blind_writes", plan.blind_writes),
            ("event", plan.event),
            ("races", u64::from(plan.races)),
            ("audit_first", u64::from(plan.audit_first)),
        ] {
            same(&format!("plan.{name}"), number);
        }
        for i in 0..8 {
            same(&format!("plan.start[{i}]"), plan.start[i]);
            same(&format!("settings.start[{i}]"), settings.start[i]);
        }
        same("settings.registers", settings.registers);
        same("settings.window", settings.window);
        same("settings.states", settings.states);
        same("settings.cells", settings.cells);
        same("settings.limit", settings.limit);
    }

    #[test]
    fn layouts_statuses_and_defaults_are_those_of_the_headers() {
        let folder = std::env::temp_dir().join(format!("tmwatch-layout-{}", std::process::id()));
        std::fs::create_dir_all(&folder).unwrap();
        let (source, program) = (folder.join("layout.c"), folder.join("layout"));
        let mut text = checks();
        statuses(&mut text);
        text += "int main(void)\n{\n    tmwatch_plan plan = TMWATCH_PLAN;\n    tmwatch_settings settings = TMWATCH_SETTINGS(3);\n";
        defaults(&mut text);
        text += "    return 0;\n}\n";
        std::fs::write(&source, text).unwrap();
        let cc = std::env::var("CC").unwrap_or("cc".into());
        let mut compile = Command::new(cc);
        compile.arg("-std=c11").arg(concat!("-I", env!("TMWATCH_INCLUDE")));
        assert!(compile.arg("-o").arg(&program).arg(&source).status().unwrap().success());
        assert!(Command::new(&program).status().unwrap().success());
        std::fs::remove_dir_all(&folder).unwrap();
    }
}
