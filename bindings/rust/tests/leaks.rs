//! The package frees all memory that it allocates: for a watch and recorders that are dropped in either order, a bench that is refused, and
//! one that runs. This is the only test in its program, so that no memory of other tests is counted.

use tmwatch::{bench, Aborted, Event, Memory, Plan, Schedule, Settings, Status, Watch};

/// The fields of the C library's `struct mallinfo2`.
#[repr(C)]
struct Heap {
    arena: usize,
    ordblks: usize,
    smblks: usize,
    hblks: usize,
    hblkhd: usize,
    usmblks: usize,
    fsmblks: usize,
    uordblks: usize,
    fordblks: usize,
    keepcost: usize,
}

extern "C" {
    fn mallinfo2() -> Heap;
}

/// Returns the number of allocated bytes.
fn taken() -> usize {
    // SAFETY: it takes nothing.
    let heap = unsafe { mallinfo2() };
    heap.uordblks + heap.hblkhd
}

/// Runs the closure a hundred times, and returns by how many bytes the allocated memory has grown.
fn growth(mut does: impl FnMut()) -> usize {
    does();
    let before = taken();
    (0..100).for_each(|_| does());
    taken().saturating_sub(before)
}

/// All registers are 0.
struct Zeros;

impl Memory for Zeros {
    type Transaction<'m> = ();

    fn begin(&self) -> Result<(), Aborted> {
        Ok(())
    }

    fn read(&self, _: &mut (), _: usize) -> Result<u64, Aborted> {
        Ok(0)
    }

    fn write(&self, _: &mut (), _: usize, _: u64) -> Result<(), Aborted> {
        Ok(())
    }

    fn commit(&self, _: ()) -> Result<(), Aborted> {
        Ok(())
    }

    fn abort(&self, _: ()) {}
}

/// Less than the ring of one watch, and less than a hundred streams.
const FEW: usize = 16 * 1024;

#[test]
fn all_is_given_back() {
    let open = || Watch::open(&Settings::new(2), 2).unwrap();
    let watch_first = growth(|| {
        let (watch, mut recorders) = open();
        drop(watch);
        recorders[0].record(Event::Read { register: 1 }).unwrap();
    });
    let recorders_first = growth(|| {
        let (watch, recorders) = open();
        drop(recorders);
        drop(watch);
    });
    let refused = growth(|| {
        let plan = Plan { threads: 9, trace: true, ..Plan::default() };
        assert_eq!(bench(&Zeros, &plan).unwrap_err(), Status::BadSize);
    });
    let traced = growth(|| {
        let plan = Plan { rounds: 20, writes: 0, adds: 0, blind_writes: 0, schedule: Schedule::Steps, trace: true, ..Plan::default() };
        assert!(bench(&Zeros, &plan).unwrap().trace.unwrap().len() > 1000);
    });
    let all = [watch_first, recorders_first, refused, traced];
    assert!(all.iter().all(|it| *it < FEW), "{all:?}");
}
