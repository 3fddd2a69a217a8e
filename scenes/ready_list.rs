//! The ready list, and the place of the task's waker, without a task.
use crate::Host;
use crate::outer::Bed;
use crate::tally::Tally;
use crate::tasks::join_threads;
use anyhow::{Result, ensure};
use futures_buffered_core::ready_core::{Taken, Woke};
use futures_buffered_core::ready_shared::SharedReady;
use futures_buffered_table::ready_table::{PollSeat, ReadyList, WakeSeat};
use std::alloc::Global;
use std::sync::Arc;
use std::thread::{self, JoinHandle, yield_now};

/// Threads wake the slots of a source, in turn, each so often. Whoever takes sleeps where nothing is marked, and gets
/// to know of the last wake of each slot.
pub fn wakes(rt: &impl Host, slots: usize, threads: usize, wakes: usize) -> Result<()> {
    let alloc = rt.alloc();
    let mut source: SharedReady<Bed> = SharedReady::new(alloc, slots)?;
    let bed = Bed::new(alloc)?;
    let mut tally = Tally::new(alloc, slots)?;
    let mut started: Vec<JoinHandle<()>> = Vec::new(alloc);
    for thread in 0..threads {
        let slot = thread % slots;
        let _ = started.push(tally.start(rt, &source, slot, slot, wakes)?);
    }
    take_until_known(rt, &mut source, &bed, &mut tally)?;
    join_threads(rt, started);
    Ok(())
}

fn take_until_known(
    rt: &impl Host,
    source: &mut SharedReady<Bed>,
    bed: &Bed,
    tally: &mut Tally,
) -> Result<()> {
    for _ in rt.forever() {
        source.set_outer(bed.waker()?);
        let paused = tally.take_all(source, 0);
        if tally.knows_all() {
            break;
        }
        if !paused {
            bed.sleep(rt);
        }
        yield_now();
    }
    Ok(())
}

/// One outer waker is kept, and another is put in its place while wakes are under way: the other is woken.
pub fn outer_wakers(rt: &impl Host, wakes: usize) -> Result<()> {
    let alloc = rt.alloc();
    let mut source: SharedReady<Bed> = SharedReady::new(alloc, 1)?;
    let (before, bed) = (Bed::new(alloc)?, Bed::new(alloc)?);
    let mut tally = Tally::new(alloc, 1)?;
    source.set_outer(before.waker()?);
    tally.take_all(&mut source, 0);
    let thread = tally.start(rt, &source, 0, 0, wakes)?;
    take_until_known(rt, &mut source, &bed, &mut tally)?;
    thread.join(rt);
    Ok(())
}

// Wakes both slots, from this one on, and returns the seat with how many of the wakes were fresh.
fn wake_both(list: &ReadyList, mut seat: WakeSeat, first: usize) -> (WakeSeat, usize) {
    let mut fresh = 0usize;
    for slot in [first, 1 - first] {
        fresh = fresh + usize::from(list.wake(&mut seat, slot) == Woke::Fresh);
    }
    (seat, fresh)
}

// Makes so many takings, of which none may say Empty while a mark is there for sure, and returns how many slots they
// named.
fn take_often(list: &ReadyList, poll: &mut PollSeat, takings: usize) -> usize {
    let mut named = 0usize;
    for _ in 0..takings {
        named = named + usize::from(matches!(list.take(poll), Taken::Slot(_)));
    }
    named
}

/// Three seats over two slots: two threads wake both slots, in opposite orders, and the poller takes so often
/// meanwhile. Afterwards as many slots are named as there were fresh wakes, and then none: no mark is lost, and none is
/// there twice.
pub fn seats(rt: &impl Host, takings: usize) -> Result<()> {
    let alloc: Global = rt.alloc();
    let (list, mut poll, seat) = ReadyList::new(alloc, 2)?;
    let (one, other) = seat.split(&list);
    let list = Arc::new(alloc, list)?;
    let (first, second) = (Arc::try_clone(&list)?, Arc::try_clone(&list)?);
    let one = thread::spawn(rt, move || wake_both(&first, one, 0))?;
    let other = thread::spawn(rt, move || wake_both(&second, other, 1))?;
    let meanwhile = take_often(&list, &mut poll, takings);
    let (_one, fresh) = one.join(rt);
    let (_other, fresh_too) = other.join(rt);
    let afterwards = take_often(&list, &mut poll, 3);
    ensure!(
        meanwhile + afterwards == fresh + fresh_too,
        "{fresh} and {fresh_too} wakes were fresh, and {meanwhile} and {afterwards} slots were named"
    );
    ensure!(
        list.take(&mut poll) == Taken::Empty,
        "a slot is named twice"
    );
    Ok(())
}
