//! `jobs LIST N`: the number of words and of lines in the files that a list names, at most `N` files under way at a
//! time. Four threads count the words, and answer through one-shots of the kit; a thread of each file's own counts its
//! lines, and wakes the slot of its future. A file that cannot be read is named, and stops no other.
#![tactic(auto)]

ghost use Rattle.std.specs.Prelude.{◌<◌};

mod counting;
mod words;

use crate::counting::Counting;
use crate::words::Words;
use crossbeam_channel::{Receiver, unbounded};
use futures::channel::oneshot;
use futures::executor::block_on;
use futures::{StreamExt, stream};
use futures_buffered::in_flight::BufferedStreamExt;
use std::alloc::{AllocError, Global};
use std::random::RandomSource;
use std::rt::Files;
use std::sync::Wait;
use std::thread::Threads;
use std::{fs, io, thread};

const THREADS: usize = 4;

// A file whose words are to be counted, and where the answer goes.
#[derive(Drop)]
struct Job {
    path: String,
    answer: oneshot::Sender<io::Result<usize>>,
}

type Answer = oneshot::Receiver<io::Result<usize>>;

fn count_words<R: Files + AllocGlobal>(rt: &R, path: &str) -> io::Result<usize> {
    let text = fs::read_to_string(rt, path)?;
    Ok(text.split_whitespace().count())
}

// A job for each line of the list, and where its answer comes.
fn jobs_of(alloc: Global, list: &str) -> Result<Vec<(Job, Answer)>, AllocError> {
    let mut jobs = Vec::new(alloc);
    for line in list.lines() {
        let path = String::from_str(alloc, line)?;
        let (answer, receiver) = oneshot::channel(alloc)?;
        jobs.push((Job { path, answer }, receiver))?;
    }
    Ok(jobs)
}

// A future for each line of the list.
fn countings_of<R: Threads + Copy + Drop>(
    rt: R,
    files: HostRuntime,
    alloc: Global,
    list: &str,
) -> Result<Vec<Counting<R>>, AllocError> {
    let mut countings = Vec::new(alloc);
    for line in list.lines() {
        countings.push(Counting::new(rt, files, String::from_str(alloc, line)?))?;
    }
    Ok(countings)
}

// How many lines the files of the list have. One that cannot be read has none.
fn lines_in<R>(rt: R, files: HostRuntime, list: &str, n: usize) -> Result<usize, anyhow::Error>
where
    R: Threads + Wait + RandomSource + AllocGlobal + Copy + Drop,
    requires { 0 < n }
{
    let countings = countings_of(rt, files, rt.alloc(), list)?;
    let countings = stream::iter(countings);
    let counts = futures_buffered::BufferedStreamExt::buffered_ordered(countings, rt.alloc(), n)?;
    let counts = block_on(&rt, counts.collect(rt.alloc()))??;
    let mut lines = 0usize;
    for count in counts {
        lines = lines.saturating_add(count.unwrap_or(0));
    }
    Ok(lines)
}

fn main(rt: HostRuntime) -> Result<(), anyhow::Error> {
    let mut words = Words::new(&rt, "jobs LIST N")?;
    let list = fs::read_to_string(&rt, words.text()?.as_str())?;
    let n = words.limit()?;
    let jobs = jobs_of(rt.alloc(), list.as_str())?;
    let (sender, receiver) = unbounded::<Job, Global>(rt.alloc())?;
    for _ in 0..THREADS {
        let receiver = receiver.clone()?;
        thread::spawn(&rt, move || {
            for job in receiver.iter(&rt) {
                let Job { path, answer } = job;
                let _ = answer.send(count_words(&rt, path.as_str()));
            }
        })?;
    }
    let asked = stream::iter(jobs).map(|(job, answer)| {
        let _ = sender.send(&rt, job);
        answer
    });
    let counts = asked.buffered_ordered(rt.alloc(), n)?;
    let counts = block_on(&rt, counts.collect(rt.alloc()))??;
    let mut words = 0usize;
    for (path, count) in list.lines().zip(counts) {
        match count? {
            Ok(count) => words = words.saturating_add(count),
            Err(error) => println!(rt; "{path}: {error}")?,
        }
    }
    let lines = lines_in(rt, rt, list.as_str(), n)?;
    println!(rt; "{words} words in {lines} lines")?;
    Ok(())
}
