//! A watch and its recorders in threads.

use std::sync::mpsc;
use std::thread;
use tmwatch::{Event, Recorder, Settings, Status, Verdict, Watch, WatchResult, Why};

const READ: Event = Event::Read { register: 0 };

/// Records a transaction that adds 1.
fn add_one(recorder: &mut Recorder, register: u64, before: u64) {
    let add = Event::Add { register, value: 1 };
    for event in [add, Event::Value(before), Event::Commit, Event::Committed] {
        while recorder.record(event) == Err(Status::Full) {
            thread::yield_now();
        }
    }
}

#[test]
fn a_right_run_is_opaque_so_far() {
    let (watch, recorders) = Watch::open(&Settings { cells: 8, ..Settings::new(1) }, 2).unwrap();
    let word = std::sync::Arc::new(std::sync::Mutex::new(0));
    let threads: Vec<_> = recorders
        .into_iter()
        .map(|mut recorder| {
            let word = word.clone();
            thread::spawn(move || {
                for _ in 0..1000 {
                    let mut held = word.lock().unwrap();
                    add_one(&mut recorder, 0, *held);
                    *held += 1;
                }
            })
        })
        .collect();
    while !threads.iter().all(|it| it.is_finished()) {
        watch.pump(64).unwrap();
    }
    threads.into_iter().for_each(|it| it.join().unwrap());
    while watch.pump(64).unwrap() > 0 {}
    let counts = watch.summary().unwrap();
    assert_eq!((counts.committed, counts.transactions, counts.live), (2000, 2000, 0));
    assert!(counts.none_overlapped);
    let result = WatchResult { events: 8000, verdict: Verdict::OpaqueSoFar };
    assert_eq!(watch.report(), Ok(result));
    assert_eq!(watch.close(), Ok(result));
    assert_eq!(watch.close(), Err(Status::NoHandle));
    assert_eq!(watch.pump(1), Err(Status::NoHandle));
    assert_eq!(watch.report(), Err(Status::NoHandle));
}

#[test]
fn a_dirty_read_is_violated() {
    let (watch, mut recorders) = Watch::open(&Settings::new(1), 2).unwrap();
    assert_eq!(recorders[0].record(Event::Write { register: 0, value: 1 }), Ok(0));
    assert_eq!(recorders[0].record(Event::Stored), Ok(1));
    assert_eq!(recorders[1].record(READ), Ok(2));
    assert_eq!(recorders[1].record(Event::Value(1)), Ok(3));
    assert_eq!((recorders[0].number(), recorders[1].number()), (0, 1));
    recorders.pop();
    assert_eq!(watch.close(), Err(Status::MissingRecorder));
    drop(recorders);
    assert_eq!(watch.close(), Ok(WatchResult { events: 4, verdict: Verdict::Violated { at: 4 } }));
}

/// Two transactions with an event of each kind, and registers that are initially 3 and 4, so that a wrong letter, register or value is
/// noticed.
#[test]
fn each_event_is_recorded_as_what_it_is() {
    let start = [3, 4, 0, 0, 0, 0, 0, 0];
    let (watch, mut recorders) = Watch::open(&Settings { start, ..Settings::new(2) }, 1).unwrap();
    let events = [
        Event::Write { register: 1, value: 5 },
        Event::Stored,
        Event::Add { register: 1, value: 2 },
        Event::Value(5),
        Event::Read { register: 1 },
        Event::Value(7),
        Event::Read { register: 0 },
        Event::Value(3),
        Event::Commit,
        Event::Committed,
        Event::Read { register: 1 },
        Event::Value(7),
        Event::Abort,
        Event::Aborted,
    ];
    for (place, event) in events.into_iter().enumerate() {
        assert_eq!(recorders[0].record(event), Ok(place as u64));
    }
    assert_eq!(watch.pump(99), Ok(14));
    let counts = watch.summary().unwrap();
    assert_eq!((counts.committed, counts.aborted, counts.forced_aborts, counts.cuts, counts.live), (1, 1, 0, 2, 0));
    recorders.clear();
    assert_eq!(watch.close(), Ok(WatchResult { events: 14, verdict: Verdict::OpaqueSoFar }));
}

#[test]
fn what_fits_no_run_is_malformed() {
    let (watch, mut recorders) = Watch::open(&Settings::new(1), 1).unwrap();
    recorders[0].record(Event::Stored).unwrap();
    assert_eq!(watch.pump(9), Ok(1));
    assert_eq!(watch.report(), Ok(WatchResult { events: 1, verdict: Verdict::Malformed { at: 1 } }));
}

#[test]
fn a_bound_that_is_passed_is_told() {
    let (watch, mut recorders) = Watch::open(&Settings { window: 1, ..Settings::new(1) }, 2).unwrap();
    recorders[0].record(READ).unwrap();
    recorders[1].record(READ).unwrap();
    assert_eq!(watch.pump(9), Ok(2));
    let verdict = Verdict::Undecided { at: 2, why: Why::Transactions };
    assert_eq!(watch.report(), Ok(WatchResult { events: 2, verdict }));
}

#[test]
fn what_is_refused_is_told() {
    let opened = |settings: Settings, count| Watch::open(&settings, count).err();
    assert_eq!(opened(Settings::new(0), 1), Some(Status::BadRegisters));
    assert_eq!(opened(Settings { start: [1; 8], ..Settings::new(1) }, 1), Some(Status::BadStart));
    assert_eq!(opened(Settings { states: 65, ..Settings::new(1) }, 1), Some(Status::BadBounds));
    assert_eq!(opened(Settings { limit: 0, ..Settings::new(1) }, 1), Some(Status::BadLimit));
    for count in [0, 9, usize::MAX] {
        assert_eq!(opened(Settings::new(1), count), Some(Status::BadSize));
    }
    let (watch, mut recorders) = Watch::open(&Settings { cells: 2, limit: 3, ..Settings::new(1) }, 1).unwrap();
    assert_eq!(recorders[0].record(Event::Read { register: 1 }), Err(Status::BadRegister));
    assert_eq!(recorders[0].room(3), Err(Status::Full));
    assert_eq!(recorders[0].room(2), Ok(()));
    assert_eq!((recorders[0].record(READ), recorders[0].record(Event::Value(0))), (Ok(0), Ok(1)));
    assert_eq!(recorders[0].record(Event::Commit), Err(Status::Full));
    assert_eq!(watch.pump(1), Ok(1));
    assert_eq!(recorders[0].record(Event::Commit), Ok(2));
    assert_eq!(watch.pump(9), Ok(2));
    assert_eq!(recorders[0].record(Event::Committed), Err(Status::Spent));
    assert_eq!(Status::Spent.to_string(), "the watch's limit is reached");
}

/// Two recorders move around three threads through channels, each with the value of its register, and add to it between two moves.
#[test]
fn a_recorder_goes_by_channels_from_thread_to_thread() {
    let (watch, recorders) = Watch::open(&Settings { cells: 16, ..Settings::new(2) }, 2).unwrap();
    let (senders, receivers): (Vec<_>, Vec<_>) = (0..3).map(|_| mpsc::channel::<(Recorder, u64)>()).unzip();
    for (sender, recorder) in senders.iter().zip(recorders) {
        sender.send((recorder, 0)).unwrap();
    }
    let goes_round = |(place, receiver): (usize, mpsc::Receiver<(Recorder, u64)>)| {
        let next = senders[(place + 1) % 3].clone();
        thread::spawn(move || {
            for (mut recorder, held) in receiver.into_iter().take(2000) {
                let register = recorder.number() as u64;
                add_one(&mut recorder, register, held);
                // The next thread may have ended: then the recorder is dropped.
                let _ = next.send((recorder, held + 1));
            }
        })
    };
    let threads: Vec<_> = receivers.into_iter().enumerate().map(goes_round).collect();
    drop(senders);
    while !threads.iter().all(|it| it.is_finished()) {
        watch.pump(64).unwrap();
    }
    threads.into_iter().for_each(|it| it.join().unwrap());
    let WatchResult { events, verdict } = watch.close().unwrap();
    assert_eq!(verdict, Verdict::OpaqueSoFar);
    assert!(events % 4 == 0 && events >= 4 * 2000, "{events}");
}

/// A recorder may outlive its watch, in whichever order the two are dropped.
#[test]
fn a_watch_may_be_dropped_first() {
    for round in 0..200 {
        let (watch, recorders) = Watch::open(&Settings { cells: 4, ..Settings::new(1) }, 2).unwrap();
        let threads: Vec<_> =
            recorders.into_iter().map(|mut recorder| thread::spawn(move || while recorder.record(READ).is_ok() {})).collect();
        if round % 2 == 0 {
            threads.into_iter().for_each(|it| it.join().unwrap());
            drop(watch);
        } else {
            drop(watch);
            threads.into_iter().for_each(|it| it.join().unwrap());
        }
    }
}
