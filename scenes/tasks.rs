//! A source that a task polls by hand.
use crate::Host;
use crate::tally::{Tally, wake_often};
use anyhow::{Result, bail, ensure};
use futures::Stream;
use futures::task::Poll;
use futures::test::MockTask;
use futures_buffered_core::ready_shared::SharedReady;
use futures_buffered_core::ready_source::{NewSource, ReadySource, SlotWaker};
use std::thread::{self, JoinHandle, yield_now};

/// Waits until the task was woken since its last poll began.
pub fn wait_for(rt: &impl Host, task: &MockTask) {
    for _ in rt.forever() {
        let is_woken = task.is_woken();
        yield_now();
        if is_woken {
            return;
        }
    }
}

/// Polls until the stream ends, and sleeps behind each pending poll. Returns what came, a digit for each number: one
/// more than the number.
pub fn drain<St: Stream<Item = usize>>(rt: &impl Host, task: &MockTask, stream: &mut St) -> usize {
    let mut came = 0usize;
    for _ in rt.forever() {
        match task.enter(|cx| stream.poll_next(cx)) {
            Poll::Ready(Some(number)) => came = came * 10 + number + 1,
            Poll::Ready(None) => return came,
            Poll::Pending => wait_for(rt, task),
        }
    }
    came
}

pub fn join_threads(rt: &impl Host, threads: Vec<JoinHandle<()>>) {
    for thread in threads {
        thread.join(rt);
    }
}

/// One of these numbers came.
pub fn wanted(came: usize, any_of: &[usize]) -> Result<()> {
    ensure!(any_of.contains(&came), "{came} came");
    Ok(())
}

/// Each of one or two numbers came once, in order if there is one.
pub fn each_came(count: usize, came: usize, is_ordered: bool) -> Result<()> {
    match count {
        1 => wanted(came, &[1]),
        2 => wanted(came, &[12, if is_ordered { 12 } else { 21 }]),
        _ => bail!("{count} are too many"),
    }
}

// One poll: it registers with the first source, and takes from each until nothing is named. Returns whether it paused.
// Sources beside others have one slot each.
fn poll_once(task: &MockTask, sources: &mut [SharedReady], tally: &mut Tally) -> bool {
    task.enter(|cx| {
        sources[0].register(cx);
        let mut paused = false;
        for (before, source) in sources.iter_mut().enumerate() {
            paused = tally.take_all(source, before) || paused;
        }
        paused
    })
}

fn poll_until_known(
    rt: &impl Host,
    task: &MockTask,
    sources: &mut [SharedReady],
    tally: &mut Tally,
) {
    for _ in rt.forever() {
        let paused = poll_once(task, sources, tally);
        if tally.knows_all() {
            return;
        }
        if paused {
            yield_now();
        } else {
            wait_for(rt, task);
        }
    }
}

/// Threads wake the slots of a source, in turn, each so often. The task that polls it gets to know of the last wake of
/// each slot.
pub fn task(rt: &impl Host, slots: usize, threads: usize, wakes: usize) -> Result<()> {
    let alloc = rt.alloc();
    let mut source: [SharedReady; 1] = [SharedReady::new(alloc, slots)?];
    let task = MockTask::new(rt)?;
    let mut tally = Tally::new(alloc, slots)?;
    let mut started: Vec<JoinHandle<()>> = Vec::new(alloc);
    for thread in 0..threads {
        let slot = thread % slots;
        let _ = started.push(tally.start(rt, &source[0], slot, slot, wakes)?);
    }
    poll_until_known(rt, &task, &mut source, &mut tally);
    join_threads(rt, started);
    Ok(())
}

/// One task has polled the source, and another polls it while wakes are under way. The other is woken, and the first
/// too, since nobody keeps its waker then.
pub fn other_task(rt: &impl Host, wakes: usize) -> Result<()> {
    let mut source: [SharedReady; 1] = [SharedReady::new(rt.alloc(), 1)?];
    let (first, other) = (MockTask::new(rt)?, MockTask::new(rt)?);
    let mut tally = Tally::new(rt.alloc(), 1)?;
    let _paused = poll_once(&first, &mut source, &mut tally);
    let thread = tally.start(rt, &source[0], 0, 0, wakes)?;
    poll_until_known(rt, &other, &mut source, &mut tally);
    thread.join(rt);
    ensure!(
        first.is_woken(),
        "the first task sleeps, and nobody keeps its waker"
    );
    Ok(())
}

/// The source goes while wakes are under way: they or its going wake the task.
pub fn dropped_source(rt: &impl Host, wakes: usize) -> Result<()> {
    let mut source: [SharedReady; 1] = [SharedReady::new(rt.alloc(), 1)?];
    let task = MockTask::new(rt)?;
    let mut tally = Tally::new(rt.alloc(), 1)?;
    let _paused = poll_once(&task, &mut source, &mut tally);
    let thread = tally.start(rt, &source[0], 0, 0, wakes)?;
    drop(source);
    thread.join(rt);
    ensure!(task.is_woken(), "the task sleeps");
    Ok(())
}

/// Two tasks on two threads poll two sources beside one another. The task here polls the first, or the second if `here`
/// is not 0. The other task polls once, and wakes its own slot and then that of the task here, which learns of it.
pub fn pollers(rt: &impl Host, here: usize) -> Result<()> {
    let alloc = rt.alloc();
    let mut first: SharedReady = SharedReady::new(alloc, 1)?;
    let second = first.make_sibling(alloc, 1)?;
    let (source, mut beside) = if here == 0 {
        (first, second)
    } else {
        (second, first)
    };
    let (task, other) = (MockTask::new(rt)?, MockTask::new(rt)?);
    let mut tally = Tally::new(alloc, 1)?;
    let (waker, own) = (source.try_waker(0)?, beside.try_waker(0)?);
    let woken = tally.expect(0, 1)?;
    let poll_and_wake = move || {
        other.enter(|cx| {
            beside.register(cx);
            let _ = beside.take();
        });
        own.wake();
        wake_often(&woken, &waker, 1);
        (beside, other)
    };
    let thread = thread::spawn(rt, poll_and_wake)?;
    let mut source = [source];
    poll_until_known(rt, &task, &mut source, &mut tally);
    let _beside = thread.join(rt);
    Ok(())
}

/// A source is made beside another while wakes of that are under way. Then one task polls both, and registers with the
/// first alone: it gets to know of the last wake of each. With `earlier` the second keeps the waker of an earlier poll,
/// which ended with a name.
pub fn sibling(rt: &impl Host, wakes: usize, earlier: usize) -> Result<()> {
    let alloc = rt.alloc();
    let mut first: SharedReady = SharedReady::new(alloc, 1)?;
    let task = MockTask::new(rt)?;
    let mut tally = Tally::new(alloc, 2)?;
    task.enter(|cx| first.register(cx));
    let one = tally.start(rt, &first, 0, 0, wakes)?;
    let mut second = first.make_sibling(alloc, 1)?;
    if earlier > 0 {
        let _ = second.mark(0);
        task.enter(|cx| {
            second.register(cx);
            let _ = second.take();
        });
    }
    let two = tally.start(rt, &second, 0, 1, wakes)?;
    let mut sources = [first, second];
    poll_until_known(rt, &task, &mut sources, &mut tally);
    one.join(rt);
    two.join(rt);
    Ok(())
}
