//! What a set holds in these scenes: a future, and a stream of one item, that threads wake.
use crate::Host;
use crate::tally::wake_often;
use anyhow::{Context, Result};
use futures::task::Poll;
use futures_buffered::SlotFuture;
use futures_buffered_core::ready_shared::SharedWaker;
use futures_buffered_unordered::slot_stream::SlotStream;
use std::alloc::Global;
use std::sync::atomic::AtomicU64;
use std::sync::atomic::Ordering::SeqCst;
use std::sync::{Arc, Mutex};
use std::thread::{self, JoinHandle};

/// Where a future leaves its waker, and a thread counts its wakes.
#[derive(Drop)]
pub struct Post {
    pub woken: AtomicU64,
    waker: Mutex<Option<SharedWaker>>,
}

/// Gives its number once its post was woken so often. Its first poll that is pending leaves its waker there.
#[derive(Drop)]
pub struct Awaited {
    number: usize,
    wakes: u64,
    has_left: bool,
    is_over: bool,
    post: Arc<Post>,
}

/// A future of this number that waits for so many wakes, and its post.
pub fn new_awaited(alloc: Global, number: usize, wakes: usize) -> Result<(Awaited, Arc<Post>)> {
    let (woken, waker) = (AtomicU64::new(0), Mutex::new(None));
    let post = Arc::new(alloc, Post { woken, waker })?;
    let held = Awaited {
        number,
        wakes: wakes as u64,
        has_left: false,
        is_over: false,
        post: Arc::try_clone(&post)?,
    };
    Ok((held, post))
}

/// So many of them, numbered from 0, and their posts.
pub fn several(
    alloc: Global,
    count: usize,
    wakes: usize,
) -> Result<(Vec<Awaited>, Vec<Arc<Post>>)> {
    let (mut held, mut posts): (Vec<Awaited>, Vec<Arc<Post>>) = (Vec::new(alloc), Vec::new(alloc));
    for number in 0..count {
        let (future, post) = new_awaited(alloc, number, wakes)?;
        let _ = held.push(future);
        let _ = posts.push(post);
    }
    Ok((held, posts))
}

impl SlotFuture<SharedWaker> for Awaited {
    type Output = usize;

    fn poll(&mut self, waker: &SharedWaker) -> Poll<usize> {
        if self.post.woken.load(SeqCst) >= self.wakes {
            return Poll::Ready(self.number);
        }
        if !self.has_left {
            self.has_left = true;
            if let Some(mut place) = self.post.waker.try_lock() {
                *place = waker.try_clone().ok();
            }
        }
        Poll::Pending
    }
}

impl SlotStream<SharedWaker> for Awaited {
    type Item = usize;

    fn poll_next(&mut self, waker: &SharedWaker) -> Poll<Option<usize>> {
        if self.is_over {
            return Poll::Ready(None);
        }
        let polled = self.poll(waker).map(|number| Some(number));
        self.is_over = polled.is_ready();
        polled
    }
}

/// The waker that was left at the post, if one was.
pub fn take_waker(post: &Post) -> Option<SharedWaker> {
    post.waker.try_lock()?.take()
}

/// Starts a thread that wakes by this waker so often.
pub fn wake_by(
    rt: &impl Host,
    post: &Arc<Post>,
    waker: SharedWaker,
    wakes: usize,
) -> Result<JoinHandle<()>> {
    let post = Arc::try_clone(post)?;
    Ok(thread::spawn(rt, move || wake_often(&post.woken, &waker, wakes))?)
}

/// The same by the waker that the future has left.
pub fn wake_from_thread(rt: &impl Host, post: &Arc<Post>, wakes: usize) -> Result<JoinHandle<()>> {
    let waker = take_waker(post).context("the future has left no waker")?;
    wake_by(rt, post, waker, wakes)
}

/// The same for each of these posts.
pub fn wake_all(
    rt: &impl Host,
    posts: &Vec<Arc<Post>>,
    wakes: usize,
) -> Result<Vec<JoinHandle<()>>> {
    let mut threads: Vec<JoinHandle<()>> = Vec::new(rt.alloc());
    for post in posts.iter() {
        let _ = threads.push(wake_from_thread(rt, post, wakes)?);
    }
    Ok(threads)
}
