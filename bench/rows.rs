//! The rows that the program prints.
ghost use Rattle.std.specs.Prelude.{◌<◌};

use crate::blocking::{all_in_one, handed_over, one_by_one};
use crate::channels::{Channels, FlightMerge, KitMerge, SlotMerge};
use crate::holders::{
    Drained, FlightQueue, Flights, GrowingQueue, GrowingSet, Holder, Join, Joined, Queue, Refilled,
    Set, Whole, Yields,
};
use crate::items::{Feed, ForEach, Items, KitQueue, Ready, Sent};
use crate::one_shots::{KitOneShot, OneShot, OneShots};
use crate::report::{Host, RUNS, Report};
use crate::sources::{Listed, TaskAlone, taking};
use crate::waiting::{InSlot, InTask, Woken};
use futures::StreamExt;
use futures::stream::FuturesUnordered as KitSet;
use futures::task::Waker;
use futures_buffered::buffer_unordered::BufferUnordered;
use futures_buffered::buffered_ordered::BufferedOrdered;
use futures_buffered::in_flight::BufferedStreamExt;
use futures_buffered_core::ready_shared::{SharedReady, SharedWaker};
use futures_buffered_unordered::merge_bounded::MergeBounded;
use std::io;
use std::sync::Wait;
use std::thread::Threads;

const SIZES: [usize; 4] = [16, 256, 4_096, 65_536];

// How many slots the first group of a growing set has, and how many futures it holds: in four groups, and in eight.
const GROUPS: [(usize, usize); 2] = [(18, 256), (17, 4_096)];

const JOINS: [(&str, Join); 3] = [
    ("join_all", Join::OfSlots),
    ("in flight join_all", Join::InFlight),
    ("kit join_all", Join::Kit),
];

const PENDING: &str = "a wake and a pending poll, held";

type Growing = Woken<GrowingSet<InSlot>, SharedWaker>;

// The row of polls of a stream, if that could be made.
macro_rules! polled {
    ($report:expr, $of:expr, $name:expr, $count:expr, $made:expr) => {
        if let Ok(stream) = $made {
            $report.timed($of, $name, $count, Some(Items::new(stream)))?;
        }
    };
}

impl<R: Host> Report<'_, R> {
    fn list(&mut self) -> io::Result<()> {
        let alloc = self.rt.alloc();
        for slots in SIZES {
            let made = Listed::new(alloc, slots, true).ok();
            self.timed("list", "a Fresh wake and its taking, slots", slots, made)?;
        }
        let made = Listed::new(alloc, 16, false).ok();
        self.timed("list", "an Already wake, slots", 16, made)?;
        let name = "a registration and a wake of the task, times";
        self.timed("the kit alone", name, 1, Some(TaskAlone))
    }

    // With no yield the futures are ready; with one they wake themselves first.
    fn refilled<H: Holder<Yields>>(
        &mut self,
        of: &str,
        name: &str,
        slots: usize,
        held: usize,
        yields: u64,
    ) -> io::Result<()> {
        let made = Refilled::<H>::new(self.rt.alloc(), slots, held, yields);
        self.timed(of, name, held, made)
    }

    fn refilled_sets(&mut self, yields: u64, name: &str) -> io::Result<()> {
        self.refilled::<Set<Yields>>("set", name, 256, 256, yields)?;
        self.refilled::<Flights<Yields>>("in flight", name, 256, 256, yields)?;
        self.refilled::<KitSet<Yields>>("kit set", name, 256, 256, yields)
    }

    // The same in a set that grew to four groups, and to eight.
    fn refilled_groups(&mut self, yields: u64, name: &str) -> io::Result<()> {
        for (first, held) in GROUPS {
            self.refilled::<GrowingSet<Yields>>("growing set", name, first, held, yields)?;
        }
        Ok(())
    }

    // A future that ends is woken at random, or one that stays pending in turn.
    fn woken_sets(&mut self, ends: bool, name: &str) -> io::Result<()> {
        let alloc = self.rt.alloc();
        let made = Woken::<Set<InSlot>, SharedWaker>::new(alloc, 256, 256, 256, ends);
        self.timed("set", name, 256, made)?;
        let made = Woken::<Flights<InTask>, Waker>::new(alloc, 256, 256, 256, ends);
        self.timed("in flight", name, 256, made)?;
        let made = Woken::<KitSet<InTask>, Waker>::new(alloc, 256, 256, 256, ends);
        self.timed("kit set", name, 256, made)
    }

    fn pending_polls(&mut self) -> io::Result<()> {
        let alloc = self.rt.alloc();
        for held in [16, 4_096, 65_536] {
            let made = Woken::<Set<InSlot>, SharedWaker>::new(alloc, held, held, held, false);
            self.timed("set", PENDING, held, made)?;
        }
        for (first, held) in GROUPS {
            let made = Growing::new(alloc, first, held, held, false);
            self.timed("growing set", PENDING, held, made)?;
        }
        Ok(())
    }

    // The future that was pushed last is woken, which stands in the last group.
    fn last_groups(&mut self) -> io::Result<()> {
        let alloc = self.rt.alloc();
        let name = "a wake in the last group and a pending poll, groups";
        for (groups, first, held) in [(1, 16, 16), (11, 33, 65_536)] {
            let made = Growing::new(alloc, first, held, 1, false);
            self.timed("growing set", name, groups, made)?;
        }
        Ok(())
    }

    fn one_shots(&mut self) -> io::Result<()> {
        let alloc = self.rt.alloc();
        let of_kit = "a one-shot of the kit, held";
        let of_own = "a one-shot of this library, held";
        for slots in [16, 256, 4_096] {
            let made = OneShots::<KitSet<KitOneShot>, KitOneShot>::new(alloc, slots);
            self.timed("kit set", of_kit, slots, made)?;
            let made = OneShots::<Flights<KitOneShot>, KitOneShot>::new(alloc, slots);
            self.timed("in flight", of_kit, slots, made)?;
            let made = OneShots::<Set<OneShot>, OneShot>::new(alloc, slots);
            self.timed("shared set", of_own, slots, made)?;
        }
        Ok(())
    }

    // So many values through each of 16 channels, before the merge is polled.
    fn channels(&mut self) -> io::Result<()> {
        let alloc = self.rt.alloc();
        let of_kit = "an item of a channel of the kit, at once";
        let of_own = "an item of a channel of this library, at once";
        for burst in [1, 16] {
            let made = Channels::<KitMerge>::new(alloc, 16, burst);
            self.timed("kit merge", of_kit, burst, made)?;
            let made = Channels::<FlightMerge>::new(alloc, 16, burst);
            self.timed("in_flight merge", of_kit, burst, made)?;
            let made = Channels::<SlotMerge>::new(alloc, 16, burst);
            self.timed("merge", of_own, burst, made)?;
        }
        Ok(())
    }

    fn queue<Q: Holder<Yields>>(&mut self, of: &str, held: usize) -> io::Result<()> {
        let replaced = "a ready front, replaced at the back, held";
        self.refilled::<Q>(of, replaced, held, held, 0)?;
        let made = Drained::<Q>::new(self.rt.alloc(), held);
        self.timed(of, "added at the back, kept and yielded, held", held, made)
    }

    fn queues(&mut self) -> io::Result<()> {
        for held in SIZES {
            self.queue::<Queue<Yields>>("ordered queue", held)?;
            self.queue::<GrowingQueue<Yields>>("growing ordered queue", held)?;
        }
        for held in [16, 4_096] {
            self.queue::<FlightQueue>("in flight ordered", held)?;
            self.queue::<KitQueue>("kit ordered", held)?;
        }
        Ok(())
    }

    fn adaptors(&mut self) -> io::Result<()> {
        let (alloc, name) = (self.rt.alloc(), "an output of a ready future, at most held");
        for n in SIZES {
            let made = BufferedOrdered::<Ready, SharedReady>::over(&(), alloc, Ready, n.max(1));
            polled!(self, "buffered_ordered", name, n, made);
        }
        let made = BufferUnordered::<Ready, SharedReady>::over(&(), alloc, Ready, 100);
        polled!(self, "buffered_unordered", name, 100, made);
        let (of, name) = ("for_each_concurrent", "an item, at most held");
        self.timed(of, name, 100, Some(ForEach(alloc)))
    }

    // Adaptors of the kit and of this library, of a stream of the kit's futures.
    fn kits_futures(&mut self, n: usize) -> io::Result<()>
        requires { 0 < n }
    {
        let (alloc, name) = (self.rt.alloc(), "a ready one-shot of the kit, at most held");
        let made = Sent(alloc).buffered(alloc, n);
        polled!(self, "kit buffered", name, n, made);
        let made = Sent(alloc).buffered_ordered(alloc, n);
        polled!(self, "in_flight buffered_ordered", name, n, made);
        let made = Sent(alloc).buffer_unordered(alloc, n);
        polled!(self, "kit buffer_unordered", name, n, made);
        let made = Sent(alloc).buffered_unordered(alloc, n);
        polled!(self, "in_flight buffered_unordered", name, n, made);
        Ok(())
    }

    // Sets and joins of a few futures, and what making them costs.
    fn small(&mut self) -> io::Result<()> {
        let (alloc, name) = (self.rt.alloc(), "made, one ready future, dropped, slots");
        for slots in [1, 16] {
            let made = Whole::<Set<Yields>>::new(alloc, slots, 1);
            self.timed("set", name, slots, made)?;
            let made = Whole::<Flights<Yields>>::new(alloc, slots, 1);
            self.timed("in flight", name, slots, made)?;
        }
        let made = Whole::<GrowingSet<Yields>>::new(alloc, 0, 1);
        self.timed("growing set", name, 0, made)?;
        let made = Whole::<KitSet<Yields>>::new(alloc, 0, 1);
        self.timed("kit set", name, 0, made)?;
        self.joins(&[1, 4, 16])
    }

    fn joins(&mut self, counts: &[usize]) -> io::Result<()> {
        let (alloc, name) = (self.rt.alloc(), "made, polled and ready, a future of");
        for &count in counts {
            for (of, join) in JOINS {
                self.timed(of, name, count, Some(Joined(alloc, join, count)))?;
            }
        }
        Ok(())
    }

    fn whole(&mut self) -> io::Result<()> {
        let alloc = self.rt.alloc();
        let (of, name) = ("growing set", "made, pushed into and drained, a future of");
        for count in [1_000, 10_000, 100_000, 1_000_000] {
            let made = Whole::<GrowingSet<Yields>>::new(alloc, 0, count);
            self.timed(of, name, count, made)?;
        }
        self.joins(&[1_000, 100_000, 1_000_000])?;
        let made = MergeBounded::<Feed, SharedReady>::from_iter(alloc, (0..100).map(|_| Feed));
        let name = "an item of one of the streams, of";
        polled!(self, "merge", name, 100, made);
        Ok(())
    }
}

// The rows of several threads, and of `block_on`.
impl<R: Host + Threads + Wait + Sync> Report<'_, R> {
    // Two or four wakers beside one poller.
    fn taking(&mut self, slots: usize, are_four: bool, name: &str) -> io::Result<()> {
        let mut least = u128::MAX;
        for _ in 0..RUNS {
            least = least.min(taking(self.rt, slots, are_four)?);
        }
        self.line("source", name, slots, least)
    }

    fn blocking(&mut self) -> io::Result<()> {
        let (mut next, mut all, mut handed) = (u128::MAX, u128::MAX, u128::MAX);
        for _ in 0..RUNS {
            next = next.min(one_by_one(self.rt)?);
            all = all.min(all_in_one(self.rt)?);
            handed = handed.min(handed_over(self.rt)?);
        }
        let of = "block_on";
        let name = "each output waited for by one of its own, outputs";
        self.line(of, name, 1_000, next)?;
        self.line(of, "for_each over all, outputs", 1_000, all)?;
        let name = "asked of another thread, sent and given, one-shots";
        self.line(of, name, 1, handed)
    }

    /// All rows, one after another.
    pub fn rows(&mut self) -> io::Result<()> {
        self.list()?;
        self.refilled_sets(0, "a ready future, replaced, held")?;
        self.refilled_sets(1, "a future that wakes itself once, replaced, held")?;
        self.refilled_groups(0, "a ready future, replaced, held")?;
        self.refilled_groups(1, "a future that wakes itself once, replaced, held")?;
        self.woken_sets(true, "a random wake, its output, replaced, held")?;
        self.woken_sets(false, PENDING)?;
        self.pending_polls()?;
        self.last_groups()?;
        self.one_shots()?;
        self.channels()?;
        self.queues()?;
        self.adaptors()?;
        self.kits_futures(32)?;
        self.kits_futures(256)?;
        self.small()?;
        self.whole()?;
        for slots in [16, 256, 4_096] {
            self.taking(slots, false, "a taking beside two wakers, slots")?;
            self.taking(slots, true, "a taking beside four wakers, slots")?;
        }
        self.blocking()
    }
}
