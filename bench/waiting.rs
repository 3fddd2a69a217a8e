//! Sets of futures that wait to be woken, of this library, also in flight, and of the kit.
use crate::holders::{Flights, GrowingSet, Holder, Set, flights, holders, poll_often};
use crate::report::Workload;
use futures::stream::FuturesUnordered as KitSet;
use futures::task::{Context, Poll, Source, Waker};
use futures::{Future, Stream};
use futures_buffered_core::ready_shared::SharedWaker;
use futures_buffered_unordered::slot_future::{SlotFuture, SlotWaker};
use std::alloc::{AllocError, Global};
use std::cell::{RefCell, RefMut};
use std::rc::Rc;

/// Where futures leave their wakers, each at a place of its own.
#[derive(Drop)]
pub struct Board<W> {
    source: Source,
    places: Vec<RefCell<Option<W>>>,
}

impl<W: Drop> Board<W> {
    fn new(alloc: Global, places: usize) -> Result<Rc<Board<W>>, AllocError> {
        let mut board = Board {
            source: Source::new(),
            places: Vec::with_capacity(alloc, places)?,
        };
        for _ in 0..places {
            let _ = board.places.push(RefCell::new(None));
        }
        Ok(Rc::new(alloc, board)?)
    }

    fn place(&self, at: usize) -> Option<RefMut<'_, Option<W>>> {
        self.places.get(at)?.try_borrow_mut().ok()
    }

    fn take(&self, at: usize) -> Option<W> {
        self.place(at)?.take()
    }
}

/// What wakes such a future.
pub trait Wakes: Drop {
    /// Takes from the board, before the first wake, what serves for all.
    fn collect(_board: &Board<Self>, _wakers: &mut Vec<Self>) {}

    /// Wakes the future whose place stands there.
    fn wake(board: &Board<Self>, wakers: &[Self], at: usize);
}

impl Wakes for SharedWaker {
    fn collect(board: &Board<SharedWaker>, wakers: &mut Vec<SharedWaker>) {
        for at in 0..board.places.len() {
            if let Some(waker) = board.take(at) {
                let _ = wakers.push(waker);
            }
        }
    }

    fn wake(_board: &Board<SharedWaker>, wakers: &[SharedWaker], at: usize) {
        if let Some(waker) = wakers.get(at) {
            waker.wake();
        }
    }
}

// Each poll leaves a waker anew, which the next wake takes.
impl Wakes for Waker {
    fn wake(board: &Board<Waker>, _wakers: &[Waker], at: usize) {
        if let Some(waker) = board.take(at) {
            waker.wake();
        }
    }
}

/// Leaves its waker at its place at its first poll. It is ready at its second, or never.
#[derive(Drop)]
pub struct Kept<W: Drop> {
    board: Rc<Board<W>>,
    place: usize,
    was_polled: bool,
    ends: bool,
}

pub type InSlot = Kept<SharedWaker>;

pub type InTask = Kept<Waker>;

impl SlotFuture<SharedWaker> for InSlot {
    type Output = ();

    fn poll(&mut self, waker: &SharedWaker) -> Poll<()> {
        if !self.was_polled {
            self.was_polled = true;
            if let Some(mut place) = self.board.place(self.place) {
                *place = waker.try_clone().ok();
            }
        } else if self.ends {
            return Poll::Ready(());
        }
        Poll::Pending
    }
}

impl Future for InTask {
    type Output = ();

    fn poll(&mut self, cx: &mut Context<'_>) -> Poll<()> {
        if self.was_polled && self.ends {
            return Poll::Ready(());
        }
        self.was_polled = true;
        match self.board.place(self.place) {
            Some(mut place) => cx.register(&self.board.source, &mut *place),
            None => cx.yield_now(),
        }
    }
}

holders! {
    Set<InSlot>, InSlot: |alloc, slots| Set::new(alloc, slots).ok(), try_push;
    GrowingSet<InSlot>, InSlot: |alloc, slots| GrowingSet::with_capacity(alloc, slots).ok(), push;
    Flights<InTask>, InTask: |alloc, slots| flights(alloc, slots), try_push;
    KitSet<InTask>, InTask: |alloc, _slots| KitSet::new(alloc).ok(), push;
}

/// Each call wakes one of the futures and polls the set. Where futures end, a random one is woken, and another takes
/// its place; else the next in turn.
#[derive(Drop)]
pub struct Woken<H, W: Drop> {
    holder: H,
    held: usize,
    board: Rc<Board<W>>,
    wakers: Vec<W>,
    ends: bool,
    number: u64,
}

impl<W: Wakes, H: Holder<Kept<W>>> Woken<H, W> {
    /// So many futures in what has so many slots. The last of them leave their wakers at so many places.
    pub fn new(
        alloc: Global,
        slots: usize,
        held: usize,
        places: usize,
        ends: bool,
    ) -> Option<Woken<H, W>> {
        let mut woken = Woken {
            board: Board::new(alloc, places).ok()?,
            holder: H::made(alloc, slots)?,
            held,
            wakers: Vec::new(alloc),
            ends,
            number: 88_172_645_463_325_252,
        };
        for place in (0..held).rev() {
            woken.add(place);
        }
        Some(woken)
    }

    fn add(&mut self, place: usize) {
        if let Ok(board) = Rc::clone(&self.board) {
            self.holder.add(Kept {
                board,
                place,
                was_polled: false,
                ends: self.ends,
            });
        }
    }

    fn next_place(&mut self) -> usize {
        let places = self.board.places.len() as u64;
        if places == 1 {
            return 0;
        }
        if self.ends {
            self.number ^= self.number << 13;
            self.number ^= self.number >> 7;
            self.number ^= self.number << 17;
        } else {
            self.number = self.number.wrapping_add(1);
        }
        self.number.checked_rem(places).unwrap_or(0) as usize
    }
}

impl<W: Wakes, H: Holder<Kept<W>>> Workload for Woken<H, W> {
    // Polls each once, and takes the wakers that were left.
    fn begin(&mut self, cx: &mut Context<'_>) {
        poll_often(&mut self.holder, self.held, cx);
        W::collect(&self.board, &mut self.wakers);
    }

    fn run(&mut self, cx: &mut Context<'_>) {
        let place = self.next_place();
        W::wake(&self.board, self.wakers.as_slice(), place);
        if self.holder.gives(cx) {
            self.add(place);
        }
    }
}
