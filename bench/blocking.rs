//! Outputs that a thread waits for by `block_on`.
use crate::holders::{Set, ready_set};
use crate::report::{Host, tenths};
use crate::sources::keep;
use futures::executor::block_on;
use futures::{StreamExt, future};
use futures_buffered_held::oneshot::{Receiver, Sender, channel};
use std::alloc::{AllocError, Global};
use std::sync::Wait;
use std::sync::atomic::AtomicU64;
use std::sync::atomic::Ordering::SeqCst;
use std::thread::{Threads, yield_now};
use std::time::Instant;
use std::{io, thread};

/// How many outputs one run waits for.
const OUTPUTS: u64 = 1_000;

/// The time of an output where each is waited for by a `block_on` of its own, in tenths of a nanosecond.
pub fn one_by_one(rt: &(impl Host + Wait)) -> io::Result<u128> {
    let mut set = ready_set(rt.alloc(), OUTPUTS as usize);
    let start = Instant::now(rt)?;
    for _ in 0..OUTPUTS {
        let _ = block_on(rt, set.next());
    }
    Ok(tenths(start.elapsed(rt)?, OUTPUTS))
}

/// The same, where one `block_on` waits for all.
pub fn all_in_one(rt: &(impl Host + Wait)) -> io::Result<u128> {
    let set = ready_set(rt.alloc(), OUTPUTS as usize);
    let start = Instant::now(rt)?;
    let _ = block_on(rt, set.for_each(|_output| future::ready(())));
    Ok(tenths(start.elapsed(rt)?, OUTPUTS))
}

// After so many turns of a wait each further one lets other threads run.
const BUSY_TURNS: u64 = 100_000;

// Waits until so many have been asked for.
fn wait_for(asked: &AtomicU64, wanted: u64) {
    for turn in 0..u64::MAX {
        if asked.load(SeqCst) >= wanted {
            return;
        }
        if turn > BUSY_TURNS {
            yield_now();
        }
    }
}

// Sends one more as soon as one more is asked for, the last first.
fn send_each(asked: &AtomicU64, senders: &mut Vec<Sender<u64>>) {
    for sent in 0..OUTPUTS {
        wait_for(asked, sent.saturating_add(1));
        if let Some(sender) = senders.pop() {
            let _ = sender.send(1);
        }
    }
}

// Asks for each in the same order, and waits for its output, by a set of one slot.
fn take_each(rt: &(impl Host + Wait), asked: &AtomicU64, receivers: &mut Vec<Receiver<u64>>) {
    let Ok(mut set) = Set::new(rt.alloc(), 1) else {
        return;
    };
    for _ in 0..OUTPUTS {
        if let Some(receiver) = receivers.pop() {
            let _ = set.try_push(receiver);
        }
        asked.fetch_add(1, SeqCst);
        let _ = block_on(rt, set.next());
    }
}

fn add_channels(
    alloc: Global,
    senders: &mut Vec<Sender<u64>>,
    receivers: &mut Vec<Receiver<u64>>,
) -> Result<(), AllocError> {
    for _ in 0..OUTPUTS {
        let (sender, receiver) = channel(alloc)?;
        keep(senders, sender)?;
        keep(receivers, receiver)?;
    }
    Ok(())
}

/// One thread pushes a receiver into an empty set, tells another, and waits for the output by `block_on`; the other
/// sends at once: the time of one round, in tenths of a nanosecond.
pub fn handed_over(rt: &(impl Host + Threads + Wait + Sync)) -> io::Result<u128> {
    let (mut senders, mut receivers) = (Vec::new(rt.alloc()), Vec::new(rt.alloc()));
    add_channels(rt.alloc(), &mut senders, &mut receivers)?;
    let asked = AtomicU64::new(0);
    let start = Instant::now(rt)?;
    thread::join(
        rt,
        || send_each(&asked, &mut senders),
        || take_each(rt, &asked, &mut receivers),
    );
    Ok(tenths(start.elapsed(rt)?, OUTPUTS))
}
