//! How often each slot was woken, and of how many of these wakes its poller knows.
use crate::Host;
use anyhow::Result;
use futures_buffered_core::ready_core::Taken;
use futures_buffered_core::ready_shared::{OuterWaker, SharedReady};
use futures_buffered_core::ready_source::SlotWaker;
use std::alloc::Global;
use std::sync::Arc;
use std::sync::atomic::AtomicU64;
use std::sync::atomic::Ordering::SeqCst;
use std::thread::{self, JoinHandle};

/// Of one slot: the wakes so far, those at its last naming, and those that there will be.
#[derive(Drop)]
struct Slot {
    woken: Arc<AtomicU64>,
    known: u64,
    wanted: u64,
}

#[derive(Drop)]
pub struct Tally {
    slots: Vec<Slot>,
}

/// Counts a wake and makes it, so often.
pub fn wake_often<W: SlotWaker>(woken: &AtomicU64, waker: &W, wakes: usize) {
    for _ in 0..wakes {
        woken.fetch_add(1, SeqCst);
        waker.wake();
    }
}

impl Tally {
    pub fn new(alloc: Global, count: usize) -> Result<Tally> {
        let mut slots = Vec::new(alloc);
        for _ in 0..count {
            slots.push(Slot {
                woken: Arc::new(alloc, AtomicU64::new(0))?,
                known: 0,
                wanted: 0,
            })?;
        }
        Ok(Tally { slots })
    }

    /// So many more wakes of this slot will come. Returns what counts them.
    pub fn expect(&mut self, slot: usize, wakes: usize) -> Result<Arc<AtomicU64>> {
        self.slots[slot].wanted = self.slots[slot].wanted.wrapping_add(wakes as u64);
        Ok(Arc::try_clone(&self.slots[slot].woken)?)
    }

    /// Starts a thread that wakes this slot of a source so often. The slot has this place here.
    pub fn start<O: OuterWaker + Send + 'static>(
        &mut self,
        rt: &impl Host,
        source: &SharedReady<O>,
        slot: usize,
        place: usize,
        wakes: usize,
    ) -> Result<JoinHandle<()>> {
        let waker = source.try_waker(slot)?;
        let woken = self.expect(place, wakes)?;
        Ok(thread::spawn(rt, move || wake_often(&woken, &waker, wakes))?)
    }

    /// Whether each slot was named since its last wake.
    pub fn knows_all(&self) -> bool {
        self.slots.iter().all(|slot| slot.known == slot.wanted)
    }

    /// Takes until nothing is named, where the source's first slot is the one after `before`. Returns whether it
    /// paused.
    pub fn take_all<O: OuterWaker>(&mut self, source: &mut SharedReady<O>, before: usize) -> bool {
        for _ in 0..u64::MAX {
            match source.take() {
                Taken::Slot(slot) => {
                    let named = &mut self.slots[before + slot];
                    named.known = named.woken.load(SeqCst);
                }
                Taken::Empty => return false,
                Taken::Pause => return true,
            }
        }
        false
    }
}
