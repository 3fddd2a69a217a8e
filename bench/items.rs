//! Streams that are always ready, for adaptors and a merge, and the workloads of a stream and of a for-each.
use crate::holders::Yields;
use crate::report::Workload;
use futures::channel::oneshot::{Receiver, channel};
use futures::task::{Context, Poll};
use futures::{Future, Stream, stream};
use futures_buffered::for_each_concurrent::ForEachConcurrent;
use futures_buffered_core::ready_source::SlotHandle;
use futures_buffered_unordered::slot_stream::SlotStream;
use std::alloc::Global;
use std::marker::Model;

/// A stream of ready futures that does not end.
#[derive(Drop)]
pub struct Ready;

impl Stream for Ready {
    type Item = Yields;

    fn poll_next(&mut self, _cx: &mut Context<'_>) -> Poll<Option<Yields>> {
        Poll::Ready(Some(Yields { left: 0 }))
    }
}

/// A stream of a merge that has an item at each poll.
#[derive(Drop)]
pub struct Feed;

impl<W: SlotHandle> SlotStream<W> for Feed {
    type Item = u64;

    fn poll_next(&mut self, _waker: &W) -> Poll<Option<u64>> {
        Poll::Ready(Some(1))
    }
}

/// A stream of one-shots of the kit that were sent to. It does not end.
#[derive(Drop)]
pub struct Sent(pub Global);

impl Stream for Sent {
    type Item = Receiver<u64>;

    fn poll_next(&mut self, cx: &mut Context<'_>) -> Poll<Option<Receiver<u64>>> {
        let Ok((sender, receiver)) = channel(self.0) else {
            return cx.yield_now();
        };
        let _ = sender.send(1);
        Poll::Ready(Some(receiver))
    }
}

/// A stream that may be polled at any time, up to its end. Each call polls it once.
#[derive(Drop)]
pub struct Items<S: Stream> {
    stream: Option<S>,
}

impl<S: Stream> Model for Items<S> {
    ghost use Rattle.std.specs.Prelude.{IfSome};

    ghost Value = { Unit {0} };

    ghost view = { λ _. tt };

    ghost invariant = { λ m. IfSome m.stream S.can_poll };
}

impl<S: Stream<Item: Drop>> Items<S> {
    pub fn new(stream: S) -> Self
        requires { S.can_poll stream }
    {
        Items {
            stream: Some(stream),
        }
    }

    /// One poll. A stream that has ended gives `None` again.
    pub fn poll_next(&mut self, cx: &mut Context<'_>) -> Poll<Option<S::Item>> {
        let Some(stream) = &mut self.stream else {
            return Poll::Ready(None);
        };
        match stream.poll_next(cx) {
            Poll::Ready(None) => {
                self.stream = None;
                Poll::Ready(None)
            }
            polled => polled,
        }
    }
}

/// The queue of the kit.
pub type KitQueue = Items<stream::FuturesOrdered<Yields, ()>>;

impl KitQueue {
    /// Adds a future at the back, unless the queue has ended.
    pub fn push_back(&mut self, future: Yields) {
        if let Some(queue) = &mut self.stream {
            let _ = queue.push_back(future);
        }
    }
}

impl<S: Stream<Item: Drop>> Workload for Items<S> {
    fn run(&mut self, cx: &mut Context<'_>) {
        let _ = self.poll_next(cx);
    }
}

// How many items a round of `ForEach` has.
const ITEMS: usize = 12_800;

/// A for-each whose closure makes ready futures, 100 at a time. A round makes it and polls it to its end.
#[derive(Drop)]
pub struct ForEach(pub Global);

impl Workload for ForEach {
    fn calls(&self) -> usize {
        ITEMS
    }

    fn run(&mut self, cx: &mut Context<'_>) {
        let items = stream::iter(0..ITEMS);
        let ready = |_item| Yields { left: 0 };
        let made = ForEachConcurrent::with_limit(self.0, items, 100, 61, ready);
        let Ok(mut each) = made else {
            return;
        };
        for _ in 0..ITEMS {
            if each.poll(cx) == Poll::Ready(()) {
                return;
            }
        }
    }
}
