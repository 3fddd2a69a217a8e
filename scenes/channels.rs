//! A channel from one sender on a thread, whose receiver is polled meanwhile.
use crate::Host;
use crate::polled::Polled;
use crate::tasks::{drain, join_threads, wanted};
use anyhow::{Context, Result, bail, ensure};
use futures::StreamExt;
use futures::task::Poll;
use futures::test::MockTask;
use futures_buffered_core::ready_core::Taken;
use futures_buffered_held::spsc::{Receiver, Sender, TrySendError, channel};
use futures_buffered_unordered::merge_bounded::MergeBounded;
use futures_buffered_unordered::slot_stream::SlotStream;
use std::alloc::Global;
use std::thread::{self, yield_now};

type Item = Box<u64>;

// Sends the numbers from 0 on, as soon as there is room. Returns the sender, unless the receiver is gone.
fn send_all(alloc: Global, mut sender: Sender<Item>, items: usize) -> Option<Sender<Item>> {
    for item in 0..items {
        let mut value = Box::new(alloc, item as u64).ok()?;
        for _ in 0..u64::MAX {
            match sender.try_send(value) {
                Ok(()) => break,
                Err(TrySendError::Full(back)) => value = back,
                Err(TrySendError::Closed(_)) => return None,
            }
            yield_now();
        }
    }
    Some(sender)
}

// A channel of so many places.
fn open(alloc: Global, places: usize) -> Result<(Sender<Item>, Polled<Receiver<Item>>)> {
    let (sender, receiver) = channel(alloc, places)?;
    Ok((sender, Polled::new(alloc, receiver)?))
}

impl Polled<Receiver<Item>> {
    fn sleep_until_named(&mut self, rt: &impl Host, slot: usize) {
        for _ in rt.forever() {
            if self.source.take() == Taken::Slot(slot) {
                return;
            }
            yield_now();
        }
    }

    // Receives until so many items came or the stream ends, at the slots 0 and 1 in turn where it moves. Returns how
    // many came, where they came in order.
    fn receive(&mut self, rt: &impl Host, most: usize, moves: bool) -> Result<usize> {
        let (mut came, mut slot) = (0usize, 0usize);
        for _ in rt.forever() {
            if came == most {
                break;
            }
            match self.receiver.poll_next(&self.wakers[slot]) {
                Poll::Ready(Some(value)) if *value == came as u64 => came = came + 1,
                Poll::Ready(Some(_)) => bail!("the items come in another order"),
                Poll::Ready(None) => break,
                Poll::Pending if moves && slot == 0 => slot = 1,
                Poll::Pending => {
                    self.sleep_until_named(rt, slot);
                    yield_now();
                }
            }
        }
        Ok(came)
    }
}

/// So many items through so many places, then the sender goes: all come, in order, and then the end.
pub fn sender_goes(rt: &impl Host, places: usize, items: usize) -> Result<()> {
    let alloc = rt.alloc();
    let (sender, mut polled) = open(alloc, places)?;
    let thread = thread::spawn(rt, move || drop(send_all(alloc, sender, items)))?;
    let came = polled.receive(rt, usize::MAX, false)?;
    thread.join(rt);
    wanted(came, &[items])
}

/// The same where the sender finishes, and what it left shows afterwards that nothing is to come.
pub fn sender_finishes(rt: &impl Host, places: usize, items: usize) -> Result<()> {
    let alloc = rt.alloc();
    let (sender, mut polled) = open(alloc, places)?;
    let send_and_finish = move || send_all(alloc, sender, items).and_then(|sender| sender.finish());
    let thread = thread::spawn(rt, send_and_finish)?;
    let came = polled.receive(rt, usize::MAX, false)?;
    let mut finished = thread.join(rt).context("the receiver is taken for gone")?;
    wanted(polled.receiver.compare_finished(&mut finished), &[0])?;
    wanted(came, &[items])
}

// So many items to a receiver that takes them, while the sender stays. Returns both, if all came.
fn send_and_stay(
    rt: &impl Host,
    places: usize,
    items: usize,
    moves: bool,
) -> Result<(Sender<Item>, Polled<Receiver<Item>>)> {
    let alloc = rt.alloc();
    let (sender, mut polled) = open(alloc, places)?;
    let thread = thread::spawn(rt, move || send_all(alloc, sender, items))?;
    let came = polled.receive(rt, items, moves)?;
    let sender = thread.join(rt).context("the receiver is taken for gone")?;
    wanted(came, &[items])?;
    Ok((sender, polled))
}

/// The same where the sender stays: no wake of its going makes up for one that was lost. Where the receiver moves, its
/// second waker is that of another slot.
pub fn sender_stays(rt: &impl Host, places: usize, items: usize, moves: bool) -> Result<()> {
    let (mut sender, mut polled) = send_and_stay(rt, places, items, moves)?;
    wanted(polled.receiver.compare(&mut sender), &[0])
}

/// A poll waits for one item or finds it: the slot is marked once at most, by the sending or by the next one.
pub fn marks_once(rt: &impl Host) -> Result<()> {
    let (mut sender, mut polled) = send_and_stay(rt, 2, 1, false)?;
    let is_marked = polled.source.take() == Taken::Slot(0);
    let _sent = sender.try_send(Box::new(rt.alloc(), 1u64)?).is_ok();
    ensure!(
        !is_marked || polled.source.take() != Taken::Slot(0),
        "the slot is marked twice"
    );
    Ok(())
}

/// The receiver goes after so many items, while others are sent: nothing is left of those that did not come.
pub fn receiver_goes(rt: &impl Host, places: usize, items: usize, most: usize) -> Result<()> {
    let alloc = rt.alloc();
    let (sender, mut polled) = open(alloc, places)?;
    let thread = thread::spawn(rt, move || drop(send_all(alloc, sender, items)))?;
    let came = polled.receive(rt, most, false)?;
    drop(polled.receiver);
    thread.join(rt);
    wanted(came, &[most])
}

/// The sender looks whether the receiver is gone, until it is; the receiver has polled and goes. Afterwards a sending
/// is refused.
pub fn sender_looks(rt: &impl Host, places: usize) -> Result<()> {
    let (mut sender, mut polled) = open(rt.alloc(), places)?;
    let value = Box::new(rt.alloc(), 0u64)?;
    let look_and_send = move || {
        let is_closed = sender.is_closed();
        (is_closed, sender.try_send(value).is_ok())
    };
    let thread = thread::spawn(rt, look_and_send)?;
    let _came = polled.receiver.poll_next(&polled.wakers[0]).is_ready();
    drop(polled.receiver);
    let (is_closed, is_sent) = thread.join(rt);
    ensure!(
        !is_closed || !is_sent,
        "an item was sent to a receiver that was gone"
    );
    Ok(())
}

/// So many channels in a merge that a task polls, while each sender sends and goes: all items of each come.
pub fn merged(rt: &impl Host, channels: usize, places: usize, items: usize) -> Result<()> {
    let alloc = rt.alloc();
    let task = MockTask::new(rt)?;
    let (mut senders, mut receivers) = (Vec::new(alloc), Vec::new(alloc));
    for _ in 0..channels {
        let (sender, receiver) = channel::<Item>(alloc, places)?;
        let _ = senders.push(sender);
        let _ = receivers.push(receiver);
    }
    let merge = MergeBounded::from_iter(alloc, receivers)?;
    let mut threads = Vec::new(alloc);
    for sender in senders {
        let send = move || drop(send_all(alloc, sender, items));
        let _ = threads.push(thread::spawn(rt, send)?);
    }
    // Each item is a digit 1.
    let came = drain(rt, &task, &mut merge.map(|_item| 0usize));
    join_threads(rt, threads);
    wanted(came, &[10usize.pow((channels * items) as u32) / 9])
}
