//! What holds futures that are soon ready: sets and queues of this library, also in flight, and those of the kit. Their
//! workloads.
use crate::items::{Items, KitQueue};
use crate::report::Workload;
use futures::stream::FuturesUnordered as KitSet;
use futures::task::{Context, Poll};
use futures::{Future, Stream, future, stream};
use futures_buffered::in_flight::{self, Kept};
use futures_buffered_core::ready_shared::SharedReady;
use futures_buffered_joins::join::join_all;
use futures_buffered_ordered::futures_ordered::FuturesOrdered;
use futures_buffered_ordered::futures_ordered_bounded::FuturesOrderedBounded;
use futures_buffered_unordered::futures_unordered::FuturesUnordered;
use futures_buffered_unordered::futures_unordered_bounded::FuturesUnorderedBounded;
use futures_buffered_unordered::slot_future::{SlotFuture, SlotWaker};
use std::alloc::Global;
use std::marker::PhantomData;

/// Wakes itself at so many polls, and is ready at the next.
#[derive(Drop)]
pub struct Yields {
    pub left: u64,
}

impl<W: SlotWaker> SlotFuture<W> for Yields {
    type Output = ();

    fn poll(&mut self, waker: &W) -> Poll<()> {
        if self.left == 0 {
            return Poll::Ready(());
        }
        self.left -= 1;
        waker.wake();
        Poll::Pending
    }
}

impl Future for Yields {
    type Output = ();

    fn poll(&mut self, cx: &mut Context<'_>) -> Poll<()> {
        if self.left == 0 {
            return Poll::Ready(());
        }
        self.left -= 1;
        cx.yield_now()
    }
}

pub type Set<F> = FuturesUnorderedBounded<F, SharedReady>;

pub type GrowingSet<F> = FuturesUnordered<F, SharedReady>;

pub type Queue<F> = FuturesOrderedBounded<F, SharedReady>;

pub type GrowingQueue<F> = FuturesOrdered<F, SharedReady>;

pub type Flights<F> = Kept<in_flight::FuturesUnorderedBounded<F>>;

pub type FlightQueue = Kept<in_flight::FuturesOrderedBounded<Yields>>;

pub fn flights<F: Future<Output: Drop>>(alloc: Global, slots: usize) -> Option<Flights<F>> {
    Some(Kept::new(in_flight::FuturesUnorderedBounded::new(alloc, slots).ok()?))
}

fn flight_queue(alloc: Global, slots: usize) -> Option<FlightQueue> {
    Some(Kept::new(in_flight::FuturesOrderedBounded::new(alloc, slots.max(1)).ok()?))
}

/// A set or a queue of futures.
pub trait Holder<F>: Drop {
    /// One with so many slots, if it has a number of them.
    fn made(alloc: Global, slots: usize) -> Option<Self>;

    /// Adds a future: at the back, where there is one.
    fn add(&mut self, future: F);

    /// One poll. Says whether an output came of what holds a future at least.
    fn gives(&mut self, cx: &mut Context<'_>) -> bool;
}

// Writes `Holder` for each of these types of futures: how one is made with so many slots, and what adds a future.
macro_rules! holders {
    ($($holder:ty, $future:ty: |$alloc:ident, $slots:ident| $made:expr, $add:ident;)*) => {$(
        impl Holder<$future> for $holder {
            fn made($alloc: Global, $slots: usize) -> Option<Self> {
                $made
            }

            fn add(&mut self, future: $future) {
                let _ = self.$add(future);
            }

            fn gives(&mut self, cx: &mut Context<'_>) -> bool {
                self.poll_next(cx).is_ready()
            }
        }
    )*};
}

pub(crate) use holders;

holders! {
    Set<Yields>, Yields: |alloc, slots| Set::new(alloc, slots).ok(), try_push;
    GrowingSet<Yields>, Yields: |alloc, slots| GrowingSet::with_capacity(alloc, slots).ok(), push;
    Queue<Yields>, Yields: |alloc, slots| Queue::new(alloc, slots).ok(), try_push_back;
    GrowingQueue<Yields>, Yields: |alloc, slots| GrowingQueue::with_capacity(alloc, slots).ok(), push_back;
    KitSet<Yields>, Yields: |alloc, _slots| KitSet::new(alloc).ok(), push;
    KitQueue, Yields: |alloc, _slots| Some(Items::new(stream::FuturesOrdered::new(alloc).ok()?)), push_back;
    Flights<Yields>, Yields: |alloc, slots| flights(alloc, slots), try_push;
    FlightQueue, Yields: |alloc, slots| flight_queue(alloc, slots), try_push_back;
}

// Adds so many futures, each of which wakes itself so often.
fn fill<H: Holder<Yields>>(holder: &mut H, count: usize, yields: u64) {
    for _ in 0..count {
        holder.add(Yields { left: yields });
    }
}

/// Polls so often.
pub fn poll_often<F, H: Holder<F>>(holder: &mut H, times: usize, cx: &mut Context<'_>) {
    for _ in 0..times {
        let _ = holder.gives(cx);
    }
}

/// Futures that wake themselves so often. Each call takes one output and adds one future.
#[derive(Drop)]
pub struct Refilled<H> {
    holder: H,
    yields: u64,
}

impl<H: Holder<Yields>> Refilled<H> {
    pub fn new(alloc: Global, slots: usize, held: usize, yields: u64) -> Option<Refilled<H>> {
        let mut holder = H::made(alloc, slots)?;
        fill(&mut holder, held, yields);
        Some(Refilled { holder, yields })
    }
}

impl<H: Holder<Yields>> Workload for Refilled<H> {
    fn run(&mut self, cx: &mut Context<'_>) {
        if self.holder.gives(cx) {
            self.holder.add(Yields { left: self.yields });
        }
    }
}

/// What is filled and drained. A round adds so many futures, of which the first wakes itself once and the others are
/// ready, and polls so often.
#[derive(Drop)]
pub struct Drained<H>(H, usize);

impl<H: Holder<Yields>> Drained<H> {
    pub fn new(alloc: Global, held: usize) -> Option<Drained<H>> {
        Some(Drained(H::made(alloc, held)?, held))
    }
}

impl<H: Holder<Yields>> Workload for Drained<H> {
    fn calls(&self) -> usize {
        self.1
    }

    fn run(&mut self, cx: &mut Context<'_>) {
        fill(&mut self.0, 1, 1);
        fill(&mut self.0, self.1.saturating_sub(1), 0);
        poll_often(&mut self.0, self.1, cx);
    }
}

/// A set. A round makes it with so many slots, adds so many ready futures, takes their outputs, and drops it.
#[derive(Drop)]
pub struct Whole<H> {
    alloc: Global,
    slots: usize,
    count: usize,
    of: PhantomData<H>,
}

impl<H> Whole<H> {
    pub fn new(alloc: Global, slots: usize, count: usize) -> Option<Whole<H>> {
        Some(Whole {
            alloc,
            slots,
            count,
            of: PhantomData,
        })
    }
}

impl<H: Holder<Yields>> Workload for Whole<H> {
    fn calls(&self) -> usize {
        self.count
    }

    fn run(&mut self, cx: &mut Context<'_>) {
        if let Some(mut set) = H::made(self.alloc, self.slots) {
            fill(&mut set, self.count, 0);
            poll_often(&mut set, self.count, cx);
        }
    }
}

/// A growing set of so many ready futures.
pub fn ready_set(alloc: Global, count: usize) -> GrowingSet<Yields> {
    let mut set = FuturesUnordered::new(alloc);
    fill(&mut set, count, 0);
    set
}

/// Whose join is made: that of this library, of slots or in flight, or the kit's.
#[derive(Clone, Copy)]
pub enum Join {
    OfSlots,
    InFlight,
    Kit,
}

// Polls a join, if it could be made.
macro_rules! poll_once {
    ($made:expr, $cx:expr) => {
        if let Ok(mut join) = $made {
            let _ = join.poll($cx);
        }
    };
}

/// A join. A round makes it of so many ready futures, and polls it once.
#[derive(Drop)]
pub struct Joined(pub Global, pub Join, pub usize);

impl Workload for Joined {
    fn calls(&self) -> usize {
        self.2
    }

    fn run(&mut self, cx: &mut Context<'_>) {
        let (alloc, futures) = (self.0, (0..self.2).map(|_| Yields { left: 0 }));
        match self.1 {
            Join::OfSlots => poll_once!(join_all(alloc, futures), cx),
            Join::InFlight => poll_once!(in_flight::join_all(alloc, futures), cx),
            Join::Kit => {
                if let Ok(futures) = futures.collect(alloc) {
                    poll_once!(future::join_all(alloc, futures), cx)
                }
            }
        }
    }
}
