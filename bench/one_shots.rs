//! One-shots, from channel to output: those of the kit in the kit's own set and in flight, and those of this library in
//! a set over the shared source.
use crate::holders::{Flights, Holder, Set, flights, holders, poll_often};
use crate::report::Workload;
use futures::Stream;
use futures::channel::oneshot as kit;
use futures::stream::FuturesUnordered as KitSet;
use futures::task::Context;
use futures_buffered_held::oneshot;
use std::alloc::Global;

pub type OneShot = oneshot::Receiver<u64>;

pub type KitOneShot = kit::Receiver<u64>;

/// The receiver of a one-shot.
pub trait Channel: Drop {
    type Sender: Drop;

    fn open(alloc: Global) -> Option<(Self::Sender, Self)>;

    fn send(sender: Self::Sender);
}

macro_rules! one_shots {
    ($($channel:ident),*) => {$(
        impl Channel for $channel::Receiver<u64> {
            type Sender = $channel::Sender<u64>;

            fn open(alloc: Global) -> Option<(Self::Sender, Self)> {
                $channel::channel(alloc).ok()
            }

            fn send(sender: Self::Sender) {
                let _ = sender.send(1);
            }
        }
    )*};
}

one_shots!(kit, oneshot);

holders! {
    Set<OneShot>, OneShot: |alloc, slots| Set::new(alloc, slots).ok(), try_push;
    Flights<KitOneShot>, KitOneShot: |alloc, slots| flights(alloc, slots), try_push;
    KitSet<KitOneShot>, KitOneShot: |alloc, _slots| KitSet::new(alloc).ok(), push;
}

/// A set of one-shots. A round makes as many as there are slots, lets each be polled, sends to all, and takes their
/// outputs.
#[derive(Drop)]
pub struct OneShots<H, C: Channel> {
    alloc: Global,
    set: H,
    slots: usize,
    senders: Vec<C::Sender>,
}

impl<C: Channel, H: Holder<C>> OneShots<H, C> {
    pub fn new(alloc: Global, slots: usize) -> Option<OneShots<H, C>> {
        Some(OneShots {
            alloc,
            set: H::made(alloc, slots)?,
            slots,
            senders: Vec::new(alloc),
        })
    }

    fn fill(&mut self) {
        for _ in 0..self.slots {
            if let Some((sender, receiver)) = C::open(self.alloc) {
                let _ = self.senders.push(sender);
                self.set.add(receiver);
            }
        }
    }

    fn send_all(&mut self) {
        for _ in 0..self.slots {
            if let Some(sender) = self.senders.pop() {
                C::send(sender);
            }
        }
    }
}

impl<C: Channel, H: Holder<C>> Workload for OneShots<H, C> {
    fn calls(&self) -> usize {
        self.slots
    }

    // A set polls 32 at least in each poll, so after `each` of them all have been polled once.
    fn run(&mut self, cx: &mut Context<'_>) {
        let each = self.slots / 32 + 3;
        self.fill();
        poll_often(&mut self.set, each, cx);
        self.send_all();
        poll_often(&mut self.set, self.slots, cx);
        poll_often(&mut self.set, each, cx);
    }
}
