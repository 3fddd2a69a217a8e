//! Joins whose futures threads wake.
use crate::Host;
use crate::awaited::{Post, several, wake_all};
use crate::tasks::{join_threads, wait_for};
use anyhow::{Result, bail, ensure};
use futures::Future;
use futures::task::Poll;
use futures::test::MockTask;
use futures_buffered_held::future::map;
use futures_buffered_joins::join::join_all;
use futures_buffered_joins::try_join::try_join_all;
use std::sync::Arc;

// The first poll, threads that wake the futures, and polls until the join is done.
fn complete<F: Future<Output: Drop>>(
    rt: &impl Host,
    task: &MockTask,
    join: &mut F,
    posts: &Vec<Arc<Post>>,
    wakes: usize,
) -> Result<F::Output> {
    let _pending = task.poll(join).is_ready();
    let threads = wake_all(rt, posts, wakes)?;
    for _ in rt.forever() {
        if let Poll::Ready(answer) = task.poll(join) {
            join_threads(rt, threads);
            return Ok(answer);
        }
        wait_for(rt, task);
    }
    bail!("never")
}

/// A thread for each future wakes it. The join gives each output at its place.
pub fn join(rt: &impl Host, count: usize, wakes: usize) -> Result<()> {
    let task = MockTask::new(rt)?;
    let (held, posts) = several(rt.alloc(), count, wakes)?;
    let mut join = join_all(rt.alloc(), held)?;
    let outputs = complete(rt, &task, &mut join, &posts, wakes)?;
    let are_in_place = outputs
        .iter()
        .enumerate()
        .all(|(place, output)| *output == place);
    ensure!(
        outputs.len() == count && are_in_place,
        "an output is at another place"
    );
    Ok(())
}

/// A thread for each future wakes it, and the future of one number fails: the join answers its error, and drops the
/// others while their wakes may be under way.
pub fn try_join(rt: &impl Host, count: usize, fails: usize) -> Result<()> {
    let task = MockTask::new(rt)?;
    let (held, posts) = several(rt.alloc(), count, 1)?;
    let attempt = move |number: usize| if number == fails {
        Err(number)
    } else {
        Ok(number)
    };
    let attempts = held.into_iter().map(move |future| map(future, attempt));
    let mut join = try_join_all(rt.alloc(), attempts)?;
    match complete(rt, &task, &mut join, &posts, 1)? {
        Ok(outputs) if fails >= count && outputs.len() == count => Ok(()),
        Err(number) if number == fails && fails < count => Ok(()),
        _ => bail!("another answer"),
    }
}
