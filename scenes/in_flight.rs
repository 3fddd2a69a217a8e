//! Futures of the kit in flight that threads complete.
use crate::Host;
use crate::tasks::{drain, each_came, join_threads, wanted};
use anyhow::Result;
use futures::channel::oneshot::{Receiver, channel};
use futures::task::Poll;
use futures::test::MockTask;
use futures::{Stream, StreamExt};
use futures_buffered::in_flight::{FuturesUnorderedBounded, Key};
use std::thread::{self, JoinHandle};

// A set of numbers to come, which a task polls, the key of the first of them, and the threads that send them.
#[derive(Drop)]
struct Begun {
    task: MockTask,
    set: FuturesUnorderedBounded<Receiver<usize>>,
    first: Option<Key>,
    threads: Vec<JoinHandle<()>>,
}

impl Begun {
    // A set of these, none of which was polled.
    fn new(rt: &impl Host, numbers: &[usize]) -> Result<Begun> {
        let mut begun = Begun {
            task: MockTask::new(rt)?,
            set: FuturesUnorderedBounded::new(rt.alloc(), numbers.len())?,
            first: None,
            threads: Vec::new(rt.alloc()),
        };
        for &number in numbers {
            begun.send(rt, number)?;
        }
        Ok(begun)
    }

    // Puts one more into the set, and starts the thread that sends it.
    fn send(&mut self, rt: &impl Host, number: usize) -> Result<()> {
        let (sender, receiver) = channel(rt.alloc())?;
        let key = self.set.try_push(receiver).ok();
        self.first = self.first.or(key);
        let send = move || {
            let _ = sender.send(number);
        };
        let _ = self.threads.push(thread::spawn(rt, send)?);
        Ok(())
    }

    // So many polls. Returns the sum of what came, one more than the number of each.
    fn poll_often(&mut self, polls: usize) -> usize {
        let (task, set) = (&self.task, &mut self.set);
        let mut came = 0usize;
        for _ in 0..polls {
            if let Poll::Ready(Some(number)) = task.enter(|cx| set.poll_next(cx)) {
                came = came + number.unwrap_or(8) + 1;
            }
        }
        came
    }

    // The task polls until the set has ended. A number whose sender is gone is 8.
    fn finish(self, rt: &impl Host) -> usize {
        let mut numbers = self.set.map(|number| number.unwrap_or(8));
        let came = drain(rt, &self.task, &mut numbers);
        join_threads(rt, self.threads);
        came
    }
}

/// A thread for each future sends its number, while a task polls the set until it ends: each comes once.
pub fn polled(rt: &impl Host, count: usize) -> Result<()> {
    let begun = Begun::new(rt, &[0, 1][..count])?;
    each_came(count, begun.finish(rt), false)
}

/// The set is cleared after so many polls, while the sendings are under way, and a future more is put in: of that alone
/// an output comes.
pub fn cleared(rt: &impl Host, count: usize, polls: usize) -> Result<()> {
    let mut begun = Begun::new(rt, &[0, 1][..count])?;
    begun.poll_often(polls);
    begun.set.clear();
    begun.send(rt, 4)?;
    wanted(begun.finish(rt), &[5])
}

/// One of two is cancelled after so many polls, while both sendings are under way: it comes before that or not at all,
/// and the other comes once.
pub fn cancelled(rt: &impl Host, polls: usize) -> Result<()> {
    let mut begun = Begun::new(rt, &[0, 4])?;
    let before = begun.poll_often(polls);
    if let Some(first) = begun.first {
        let _tag = begun.set.cancel(first);
    }
    wanted(before + begun.finish(rt), &[5, 6])
}
