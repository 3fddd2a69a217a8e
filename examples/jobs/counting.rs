//! A file whose lines a thread counts.
use futures::task::Poll;
use futures_buffered::{SharedWaker, SlotFuture, SlotWaker};
use std::rt::Files;
use std::thread::{JoinHandle, Threads};
use std::{fs, io, thread};

/// Counts the lines of a file, on a thread that its first poll starts. It is ready with their number. A drop waits for
/// the thread.
pub struct Counting<T: Threads + Drop> {
    threads: T,
    // Of a known type: what a thread is given may not rest on a bound.
    files: HostRuntime,
    path: String,
    thread: Option<JoinHandle<io::Result<usize>>>,
}

// The file is closed when this returns.
fn count_lines<R: Files + AllocGlobal>(rt: &R, path: &str) -> io::Result<usize> {
    let text = fs::read_to_string(rt, path)?;
    Ok(text.lines().count())
}

impl<T: Threads + Drop> Counting<T> {
    pub fn new(threads: T, files: HostRuntime, path: String) -> Self {
        Counting {
            threads,
            files,
            path,
            thread: None,
        }
    }

    // The thread wakes the slot as the last thing that it does, so the join of the next poll is short.
    fn start(&self, waker: &SharedWaker) -> io::Result<JoinHandle<io::Result<usize>>> {
        let files = self.files;
        let path = self.path.clone()?;
        let waker = waker.try_clone()?;
        Ok(thread::spawn(&self.threads, move || {
            let count = count_lines(&files, path.as_str());
            waker.wake();
            count
        })?)
    }
}

impl<T: Threads + Drop> SlotFuture<SharedWaker> for Counting<T> {
    type Output = io::Result<usize>;

    fn poll(&mut self, waker: &SharedWaker) -> Poll<io::Result<usize>> {
        if let Some(thread) = self.thread.take() {
            return Poll::Ready(thread.join(&self.threads));
        }
        match self.start(waker) {
            Ok(thread) => {
                self.thread = Some(thread);
                Poll::Pending
            }
            Err(error) => Poll::Ready(Err(error)),
        }
    }
}

impl<T: Threads + Drop> Drop for Counting<T> {
    fn drop(self) {
        let Counting {
            threads,
            files: _,
            path: _path,
            thread,
        } = self;
        if let Some(thread) = thread {
            let _ = thread.join(&threads);
        }
    }
}
