//! Channels in a merge, from sending to item: those of the kit in the kit's own merge and in a merge of this library
//! that holds the kit's streams, and those of this library in one over the shared source.
use crate::items::Items;
use crate::report::Workload;
use futures::channel::mpsc as kit;
use futures::stream::{SelectAll, select_all};
use futures::task::{Context, Poll};
use futures_buffered::in_flight;
use futures_buffered_core::ready_shared::SharedReady;
use futures_buffered_held::spsc;
use futures_buffered_unordered::merge_bounded::MergeBounded;
use std::alloc::Global;

// No item takes more polls than this.
const POLLS_AN_ITEM: usize = 100;

/// A merge of channels.
pub trait Merged: Drop {
    type Sender: Drop;

    type Receiver: Drop;

    fn open(alloc: Global, room: usize) -> Option<(Self::Sender, Self::Receiver)>;

    fn merge(alloc: Global, receivers: Vec<Self::Receiver>) -> Option<Self>;

    fn send(sender: &mut Self::Sender);

    /// One poll. Says whether an item came.
    fn polled(&mut self, cx: &mut Context<'_>) -> bool;
}

// Writes `Merged` for each of these types: the module of its channels, and how it is made of their receivers.
macro_rules! merges {
    ($($merge:ty: $channel:ident, $made:path;)*) => {$(
        impl Merged for $merge {
            type Sender = $channel::Sender<u64>;

            type Receiver = $channel::Receiver<u64>;

            fn open(alloc: Global, room: usize) -> Option<(Self::Sender, Self::Receiver)> {
                $channel::channel(alloc, room).ok()
            }

            fn merge(alloc: Global, receivers: Vec<Self::Receiver>) -> Option<Self> {
                Some(Items::new($made(alloc, receivers).ok()?))
            }

            fn send(sender: &mut Self::Sender) {
                let _ = sender.try_send(1);
            }

            fn polled(&mut self, cx: &mut Context<'_>) -> bool {
                matches!(self.poll_next(cx), Poll::Ready(Some(_)))
            }
        }
    )*};
}

pub type KitMerge = Items<SelectAll<kit::Receiver<u64>>>;

pub type FlightMerge = Items<in_flight::MergeBounded<kit::Receiver<u64>>>;

pub type SlotMerge = Items<MergeBounded<spsc::Receiver<u64>, SharedReady>>;

merges! {
    KitMerge: kit, select_all;
    FlightMerge: kit, in_flight::merge;
    SlotMerge: spsc, MergeBounded::from_iter;
}

/// A merge of channels. A round sends so many values through each, one behind another, takes them, and polls until the
/// merge waits.
#[derive(Drop)]
pub struct Channels<M: Merged> {
    merge: M,
    senders: Vec<M::Sender>,
    burst: usize,
}

impl<M: Merged> Channels<M> {
    pub fn new(alloc: Global, held: usize, burst: usize) -> Option<Channels<M>> {
        let (mut senders, mut receivers) = (Vec::new(alloc), Vec::new(alloc));
        for _ in 0..held {
            let (sender, receiver) = M::open(alloc, burst)?;
            let _ = senders.push(sender);
            let _ = receivers.push(receiver);
        }
        Some(Channels {
            merge: M::merge(alloc, receivers)?,
            senders,
            burst,
        })
    }

    fn send_all(&mut self) {
        for sender in &mut self.senders {
            for _ in 0..self.burst {
                M::send(sender);
            }
        }
    }
}

impl<M: Merged> Workload for Channels<M> {
    fn calls(&self) -> usize {
        self.senders.len().saturating_mul(self.burst)
    }

    fn run(&mut self, cx: &mut Context<'_>) {
        self.send_all();
        let calls = self.calls();
        let mut came = 0usize;
        for _poll in 0..calls.saturating_mul(POLLS_AN_ITEM) {
            if came == calls {
                break;
            }
            if self.merge.polled(cx) {
                came = came.saturating_add(1);
            }
        }
        let _ = self.merge.polled(cx);
    }
}
