//! A one-shot whose sender is on a thread, and whose receiver is polled meanwhile.
use crate::Host;
use crate::polled::Polled;
use anyhow::{Context, Result, bail, ensure};
use futures::task::Poll;
use futures_buffered::SlotFuture;
use futures_buffered_core::ready_core::Taken;
use futures_buffered_held::oneshot::{Canceled, Receiver, Sender, channel};
use std::thread::{self, JoinHandle};

const VALUE: u64 = 7;

type Item = Box<u64>;

type Answer = Result<Item, Canceled>;

// The sender, what it is to send, and the receiver.
fn open(rt: &impl Host) -> Result<(Sender<Item>, Item, Polled<Receiver<Item>>)> {
    let (sender, receiver) = channel(rt.alloc())?;
    let value = Box::new(rt.alloc(), VALUE)?;
    Ok((sender, value, Polled::new(rt.alloc(), receiver)?))
}

impl Polled<Receiver<Item>> {
    // So many polls, the last of them with the waker of slot `last`, and those before with that of slot 0. Returns the
    // answer, if one came.
    fn poll_often(&mut self, polls: usize, last: usize) -> Option<Answer> {
        for poll in 0..polls {
            let slot = if poll + 1 == polls { last } else { 0 };
            if let Poll::Ready(answer) = self.receiver.poll(&self.wakers[slot]) {
                return Some(answer);
            }
        }
        None
    }

    // Polls while the sender acts on its thread, and afterwards: by then the slot of the last poll was woken if there was
    // one, and the answer is there. Returns the answer, and what the thread gives.
    fn receive<T: Drop>(
        &mut self,
        rt: &impl Host,
        thread: JoinHandle<T>,
        polls: usize,
        last: usize,
    ) -> Result<(Answer, T)> {
        let answer = self.poll_often(polls, last);
        let given = thread.join(rt);
        if let Some(answer) = answer {
            return Ok((answer, given));
        }
        let (first, second) = (self.source.take(), self.source.take());
        ensure!(
            polls == 0 || [first, second].contains(&Taken::Slot(last)),
            "no wake of the slot of the last poll"
        );
        match self.receiver.poll(&self.wakers[last]) {
            Poll::Ready(answer) => Ok((answer, given)),
            Poll::Pending => bail!("the sender is done, and no answer came"),
        }
    }
}

fn is_value(answer: &Answer) -> bool {
    matches!(answer, Ok(value) if **value == VALUE)
}

/// The sender sends while the receiver is polled, the last time with the waker of slot `last`: the value comes, and
/// that slot is woken.
pub fn sent(rt: &impl Host, polls: usize, last: usize) -> Result<()> {
    let (sender, value, mut polled) = open(rt)?;
    let thread = thread::spawn(rt, move || sender.send(value).is_ok())?;
    let (answer, is_sent) = polled.receive(rt, thread, polls, last)?;
    ensure!(is_value(&answer) && is_sent, "another answer");
    Ok(())
}

/// The same with a receipt, which shows afterwards that what came is what was sent.
pub fn sent_with_receipt(rt: &impl Host, polls: usize) -> Result<()> {
    let (sender, value, mut polled) = open(rt)?;
    let thread = thread::spawn(rt, move || sender.send_with_receipt(value).ok())?;
    let (answer, receipt) = polled.receive(rt, thread, polls, 0)?;
    receipt
        .context("the value came back")?
        .compare(&mut polled.receiver);
    ensure!(is_value(&answer), "another answer");
    Ok(())
}

/// The sender goes, and has sent nothing: the receiver is told, and its slot is woken.
pub fn sender_goes(rt: &impl Host, polls: usize, last: usize) -> Result<()> {
    let (sender, _value, mut polled) = open(rt)?;
    let thread = thread::spawn(rt, move || drop(sender))?;
    let (answer, ()) = polled.receive(rt, thread, polls, last)?;
    ensure!(answer.is_err(), "a value came, and none was sent");
    Ok(())
}

/// The receiver goes while the sender sends: the value came, or comes back, or is dropped with what both share. Nothing
/// is left.
pub fn receiver_goes(rt: &impl Host, polls: usize) -> Result<()> {
    let (sender, value, mut polled) = open(rt)?;
    let thread = thread::spawn(rt, move || sender.send(value).err())?;
    let came = polled.poll_often(polls, 0).is_some();
    drop(polled.receiver);
    match thread.join(rt) {
        Some(_) if came => bail!("the value came, and came back"),
        Some(back) if *back != VALUE => bail!("another value came back"),
        _ => Ok(()),
    }
}

/// The sender looks whether the receiver is gone, and sends then. It is not, though it is polled meanwhile.
pub fn sender_looks(rt: &impl Host, polls: usize) -> Result<()> {
    let (sender, value, mut polled) = open(rt)?;
    let look_and_send = move || {
        let is_gone = sender.is_canceled();
        let _ = sender.send(value);
        is_gone
    };
    let thread = thread::spawn(rt, look_and_send)?;
    let (answer, is_gone) = polled.receive(rt, thread, polls, 0)?;
    ensure!(
        is_value(&answer) && !is_gone,
        "another answer, or the receiver is taken for gone"
    );
    Ok(())
}
