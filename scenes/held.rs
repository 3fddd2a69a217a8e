//! Sets, queues and merges whose futures threads wake while they are polled, pushed to, cleared and dropped.
use crate::Host;
use crate::awaited::{Post, new_awaited, several, take_waker, wake_all, wake_by, wake_from_thread};
use crate::holders::Holder;
use crate::tally::wake_often;
use crate::tasks::{drain, each_came, join_threads, wait_for, wanted};
use anyhow::{Context, Result, bail, ensure};
use futures::executor::block_on;
use futures::task::Poll;
use futures::test::MockTask;
use futures::{Stream, StreamExt};
use std::sync::Arc;
use std::thread::JoinHandle;

// What holds futures, which a task has polled once, their posts, and the threads that wake them.
#[derive(Drop)]
struct Begun<H: Holder> {
    task: MockTask,
    holder: H,
    posts: Vec<Arc<Post>>,
    threads: Vec<JoinHandle<()>>,
}

impl<H: Holder> Begun<H> {
    // So many futures, each of which waits for so many wakes. No thread wakes them yet.
    fn asleep(rt: &impl Host, count: usize, wakes: usize) -> Result<Begun<H>> {
        let (held, posts) = several(rt.alloc(), count, wakes)?;
        let mut begun = Begun {
            task: MockTask::new(rt)?,
            holder: H::over(rt.alloc(), held)?,
            posts,
            threads: Vec::new(rt.alloc()),
        };
        let _pending = begun.poll();
        Ok(begun)
    }

    // The same with a thread for each, which wakes it `late` times more than it waits for.
    fn new(rt: &impl Host, count: usize, wakes: usize, late: usize) -> Result<Begun<H>> {
        let mut begun = Begun::asleep(rt, count, wakes)?;
        begun.threads = wake_all(rt, &begun.posts, wakes + late)?;
        Ok(begun)
    }

    fn poll(&mut self) -> Poll<Option<usize>> {
        let (task, holder) = (&self.task, &mut self.holder);
        task.enter(|cx| holder.poll_next(cx))
    }

    // The task polls until all has ended.
    fn finish(mut self, rt: &impl Host) -> usize {
        let came = drain(rt, &self.task, &mut self.holder);
        join_threads(rt, self.threads);
        came
    }

    // Polls until the output of the first future has come.
    fn take_first(&mut self, rt: &impl Host) -> Result<()> {
        for _ in rt.forever() {
            match self.poll() {
                Poll::Ready(Some(0)) => return Ok(()),
                Poll::Ready(_) => bail!("another output"),
                Poll::Pending => wait_for(rt, &self.task),
            }
        }
        Ok(())
    }

    // Puts in a future of this number, and starts the thread that wakes it once it has left its waker. Returns what came
    // by then, a digit for each number: one more than the number.
    fn put_another(&mut self, rt: &impl Host, number: usize) -> Result<usize> {
        let (future, post) = new_awaited(rt.alloc(), number, 1)?;
        self.holder.put(future);
        let mut came = 0usize;
        for _ in rt.forever() {
            match self.poll() {
                Poll::Ready(Some(number)) => came = came * 10 + number + 1,
                Poll::Ready(None) => break,
                Poll::Pending => match take_waker(&post) {
                    Some(waker) => {
                        let _ = self.threads.push(wake_by(rt, &post, waker, 1)?);
                        return Ok(came);
                    }
                    None => wait_for(rt, &self.task),
                },
            }
        }
        bail!("the new future is done before its wake")
    }
}

/// A thread for each future wakes it so often, and makes some wakes more when it is done. The task polls until all has
/// ended: each output comes once.
pub fn polled<H: Holder>(rt: &impl Host, count: usize, wakes: usize, late: usize) -> Result<()> {
    let begun = Begun::<H>::new(rt, count, wakes, late)?;
    each_came(count, begun.finish(rt), H::is_ordered())
}

/// The same under `block_on`.
pub fn blocked<H: Holder>(rt: &impl Host, count: usize, wakes: usize) -> Result<()> {
    let begun = Begun::<H>::new(rt, count, wakes, 0)?;
    let came = block_on(rt, begun.holder.collect(rt.alloc()))??;
    join_threads(rt, begun.threads);
    wanted(came.len(), &[count])
}

/// One task has polled, and another goes on while a wake is under way: all outputs come to it, and the first task is
/// woken, since nobody keeps its waker.
pub fn moved<H: Holder>(rt: &impl Host, count: usize, wakes: usize) -> Result<()> {
    let other = MockTask::new(rt)?;
    let mut begun = Begun::<H>::new(rt, count, wakes, 0)?;
    let came = drain(rt, &other, &mut begun.holder);
    join_threads(rt, begun.threads);
    ensure!(begun.task.is_woken(), "the first task sleeps");
    each_came(count, came, H::is_ordered())
}

/// The holder goes while its futures are woken. The task is woken, by a wake or as its waker goes.
pub fn dropped<H: Holder>(rt: &impl Host, count: usize, wakes: usize) -> Result<()> {
    let begun = Begun::<H>::new(rt, count, wakes, 0)?;
    drop(begun.holder);
    join_threads(rt, begun.threads);
    ensure!(begun.task.is_woken(), "the task sleeps");
    Ok(())
}

/// All is cleared while wakes are under way, and a future more is put in: of that alone an output comes.
pub fn cleared<H: Holder>(rt: &impl Host, count: usize, wakes: usize) -> Result<()> {
    let mut begun = Begun::<H>::new(rt, count, wakes, 0)?;
    begun.holder.empty();
    let early = begun.put_another(rt, 4)?;
    wanted(early * 10 + begun.finish(rt), &[5])
}

/// A future has given its output, and its waker still wakes, while another future stands in its slot: that gives its
/// own output, after its own wake.
pub fn replaced<H: Holder>(rt: &impl Host, late: usize) -> Result<()> {
    let mut begun = Begun::<H>::new(rt, 1, 1, late)?;
    begun.take_first(rt)?;
    let early = begun.put_another(rt, 4)?;
    wanted(early * 10 + begun.finish(rt), &[5])
}

/// Of two futures a thread wakes the first alone, and the second is woken once the output of the first has come: no
/// wake of the second makes up for one of the first that is lost.
pub fn one_by_one<H: Holder>(rt: &impl Host, wakes: usize) -> Result<()> {
    let mut begun = Begun::<H>::asleep(rt, 2, wakes)?;
    let first = wake_from_thread(rt, &begun.posts[0], wakes)?;
    let _ = begun.threads.push(first);
    let second = take_waker(&begun.posts[1]).context("the second future has left no waker")?;
    begun.take_first(rt)?;
    wake_often(&begun.posts[1].woken, &second, wakes);
    wanted(begun.finish(rt), &[2])
}

/// A future is pushed while a wake of the one before it is under way. In what grows it makes a second group, beside the
/// first.
pub fn grown<H: Holder>(rt: &impl Host) -> Result<()> {
    let mut begun = Begun::<H>::new(rt, 1, 1, 0)?;
    let early = begun.put_another(rt, 1)?;
    each_came(2, early * 10 + begun.finish(rt), H::is_ordered())
}
