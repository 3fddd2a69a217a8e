//! Sets, queues and merges under one name, so that a scene is written once for all six.
use crate::awaited::Awaited;
use futures::Stream;
use futures_buffered_core::ready_core::NewFault;
use futures_buffered_core::ready_shared::SharedReady;
use futures_buffered_ordered::futures_ordered::FuturesOrdered;
use futures_buffered_ordered::futures_ordered_bounded::FuturesOrderedBounded;
use futures_buffered_unordered::futures_unordered::FuturesUnordered;
use futures_buffered_unordered::futures_unordered_bounded::FuturesUnorderedBounded;
use futures_buffered_unordered::merge_bounded::MergeBounded;
use futures_buffered_unordered::merge_unbounded::MergeUnbounded;
use std::alloc::Global;

pub type Set = FuturesUnorderedBounded<Awaited, SharedReady>;

pub type GrowingSet = FuturesUnordered<Awaited, SharedReady>;

pub type Queue = FuturesOrderedBounded<Awaited, SharedReady>;

pub type GrowingQueue = FuturesOrdered<Awaited, SharedReady>;

pub type Merge = MergeBounded<Awaited, SharedReady>;

pub type GrowingMerge = MergeUnbounded<Awaited, SharedReady>;

/// What holds futures, or streams of one item.
pub trait Holder: Stream<Item = usize> + Drop {
    /// One that holds these. What grows has a first group of one slot, where that can be chosen.
    fn over(alloc: Global, held: Vec<Awaited>) -> Result<Self, NewFault>;

    /// Adds one more, at the end of what has an order. There is room.
    fn put(&mut self, held: Awaited);

    /// Drops all that is held.
    fn empty(&mut self);

    /// Whether the outputs come in the order of what is held.
    fn is_ordered() -> bool;
}

// Writes `Holder` for each of these types: how one is made that holds these, what adds one more, and whether it has an
// order.
macro_rules! holders {
    ($($holder:ty: |$alloc:ident, $held:ident| $made:expr, $put:ident, $is_ordered:expr;)*) => {$(
        impl Holder for $holder {
            fn over($alloc: Global, $held: Vec<Awaited>) -> Result<Self, NewFault> {
                $made
            }

            fn put(&mut self, held: Awaited) {
                let _ = self.$put(held);
            }

            fn empty(&mut self) {
                self.clear();
            }

            fn is_ordered() -> bool {
                $is_ordered
            }
        }
    )*};
}

holders! {
    Set: |alloc, held| FuturesUnorderedBounded::from_iter(alloc, held), try_push, false;
    GrowingSet: |alloc, held| {
        let mut set = FuturesUnordered::over((), alloc, 1)?;
        let _ = set.extend(held);
        Ok(set)
    }, push, false;
    Queue: |alloc, held| FuturesOrderedBounded::from_iter(alloc, held), try_push_back, true;
    GrowingQueue: |alloc, held| {
        let mut queue = FuturesOrdered::over((), alloc, 1)?;
        let _ = queue.extend(held);
        Ok(queue)
    }, push_back, true;
    Merge: |alloc, held| MergeBounded::from_iter(alloc, held), try_push, false;
    GrowingMerge: |alloc, held| MergeUnbounded::from_iter(alloc, held), push, false;
}
