//! Workloads without a set: of the list, of the kit, and of a source beside threads.
ghost use Rattle.std.specs.Prelude.{◌≡◌, ◌<◌};

use crate::report::{Host, Workload, tenths};
use futures::task::{Context, Poll, Source as TaskSource, Waker};
use futures_buffered_core::ready_core::NewFault;
use futures_buffered_core::ready_shared::{OuterWaker, SharedReady, SharedWaker};
use futures_buffered_core::ready_source::{NewSource, ReadySource, SlotWaker};
use futures_buffered_core::ready_table::{PollSeat, ReadyList, WakeSeat};
use std::alloc::{AllocError, Global};
use std::thread::Threads;
use std::time::Instant;
use std::{io, thread};

/// Adds at the end. An item that finds no room is dropped here, so that a caller's `?` has none to drop.
pub fn keep<T: Drop>(row: &mut Vec<T>, item: T) -> Result<(), AllocError> {
    row.push(item)?;
    Ok(())
}

/// A list and its seats. Each call wakes a slot that is not marked and takes it, slot after slot; or wakes one that is
/// marked.
#[derive(Drop)]
pub struct Listed {
    list: ReadyList,
    seat: WakeSeat,
    poll: PollSeat,
    slot: usize,
    takes: bool,
    ghost fits: { (seat.list ≡ list.list) × (poll.list ≡ list.list) × (slot < list.capacity) },
}

impl Listed {
    pub fn new(alloc: Global, slots: usize, takes: bool) -> Result<Listed, NewFault> {
        let (list, poll, seat) = ReadyList::new(alloc, slots)?;
        if slots == 0 {
            return Err(NewFault::TooLarge);
        }
        Ok(Listed {
            list,
            seat,
            poll,
            slot: 0,
            takes,
        })
    }
}

impl Workload for Listed {
    fn run(&mut self, _cx: &mut Context<'_>) {
        self.list.wake(&mut self.seat, self.slot);
        if self.takes {
            self.list.take(&mut self.poll);
            let next = self.slot.wrapping_add(1);
            self.slot = if next < self.list.capacity() { next } else { 0 };
        }
    }
}

/// The kit alone. Each call leaves the task's waker in a place of its own, takes it out, and wakes the task.
#[derive(Drop)]
pub struct TaskAlone;

impl Workload for TaskAlone {
    fn run(&mut self, cx: &mut Context<'_>) {
        let mut slot: Option<Waker> = None;
        let _: Poll<()> = cx.register(&TaskSource::new(), &mut slot);
        if let Some(waker) = slot.take() {
            waker.wake();
        }
    }
}

/// Nobody.
#[derive(Drop)]
pub struct Nobody;

impl OuterWaker for Nobody {
    fn wake_outer(self) {}
}

type Source = SharedReady<Nobody>;

const ROUNDS: u64 = 400;

fn wake_all(wakers: &[SharedWaker<Nobody>]) {
    for _ in 0..ROUNDS {
        for waker in wakers {
            waker.wake();
        }
    }
}

fn take_often(source: &mut Source, takings: u64) {
    for _ in 0..takings {
        source.take();
    }
}

fn add_wakers(
    wakers: &mut Vec<SharedWaker<Nobody>>,
    source: &mut Source,
) -> Result<(), AllocError> {
    for slot in 0..source.capacity() {
        if slot < source.capacity() {
            keep(wakers, source.try_waker(slot)?)?;
        }
    }
    Ok(())
}

fn two(rt: &impl Threads, wakers: &[SharedWaker<Nobody>]) {
    thread::join(rt, || wake_all(wakers), || wake_all(wakers));
}

fn two_or_four(rt: &(impl Threads + Sync), wakers: &[SharedWaker<Nobody>], are_four: bool) {
    if are_four {
        thread::join(rt, || two(rt, wakers), || two(rt, wakers));
    } else {
        two(rt, wakers);
    }
}

/// The time of one taking, in tenths of a nanosecond, where two or four threads wake the slots one after another, and
/// this one takes as often as each of them wakes.
pub fn taking(rt: &(impl Host + Threads + Sync), slots: usize, are_four: bool) -> io::Result<u128> {
    let mut source = Source::new(rt.alloc(), slots).map_err(|_fault| AllocError)?;
    let mut wakers = Vec::new(rt.alloc());
    add_wakers(&mut wakers, &mut source)?;
    let takings = (source.capacity() as u64).saturating_mul(ROUNDS);
    let start = Instant::now(rt)?;
    thread::join(
        rt,
        || two_or_four(rt, wakers.as_slice(), are_four),
        || take_often(&mut source, takings),
    );
    Ok(tenths(start.elapsed(rt)?, takings))
}
