//! `feed FOLDER`: reads the files of a folder, each by a thread that sends its lines through a channel of its own, and
//! merges the channels into one stream. It prints how many lines came of each file and the stamp of the last, and the
//! number of all lines.
#![tactic(auto)]

mod words;

use crate::words::Words;
use futures::channel::mpsc::{Sender, channel};
use futures::executor::block_on;
use futures::{StreamExt, future, stream};
use futures_buffered::in_flight::IterExt;
use std::alloc::Global;
use std::io::Print;
use std::random::RandomSource;
use std::rt::Files;
use std::sync::Wait;
use std::{fs, io, thread};

// How many lines may wait in a channel, beside the one that a thread always may send.
const AHEAD: usize = 4;

// A line of a file, and the place of that file among the sources.
#[derive(Drop)]
struct Line {
    source: usize,
    text: String,
}

// A file, how many of its lines came, and the last of them.
#[derive(Drop)]
struct Source {
    path: String,
    count: usize,
    last: String,
}

// The files of the folder, in the order of their names. Nothing came of them yet.
fn sources_in<R: Files + AllocGlobal + Clone + Drop>(
    rt: &R,
    folder: &str,
) -> io::Result<Vec<Source>> {
    let mut sources = Vec::new(rt.alloc());
    for entry in fs::read_dir(rt, folder)? {
        let path = String::from_str(rt.alloc(), entry?.path().as_str())?;
        let last = String::new(rt.alloc());
        sources.push(Source {
            path,
            count: 0,
            last,
        })?;
    }
    sources.sort_by(|a, b| a.path.cmp(&b.path))?;
    Ok(sources)
}

fn lines_of(alloc: Global, source: usize, text: &str) -> io::Result<Vec<Line>> {
    let mut lines = Vec::new(alloc);
    for line in text.lines() {
        let text = String::from_str(alloc, line)?;
        lines.push(Line { source, text })?;
    }
    Ok(lines)
}

// Sends the lines of a file in their order. It waits while the channel is full.
fn send_lines<R>(
    rt: &R,
    source: usize,
    path: &str,
    sender: Sender<Line>,
) -> Result<(), anyhow::Error>
where
    R: Files + Wait + RandomSource + AllocGlobal,
{
    let text = fs::read_to_string(rt, path)?;
    let lines = lines_of(rt.alloc(), source, text.as_str())?;
    block_on(rt, stream::iter(lines).map(Ok).forward(sender))??;
    Ok(())
}

fn print_counts<R: Print>(rt: &R, sources: &[Source]) -> io::Result<()> {
    let mut total = 0usize;
    for source in sources {
        let Source { path, count, last } = source;
        let stamp = last.split_whitespace().next().unwrap_or("never");
        println!(rt; "{path}: {count} lines, the last at {stamp}")?;
        total = total.saturating_add(*count);
    }
    println!(rt; "{total} lines")
}

fn main(rt: HostRuntime) -> Result<(), anyhow::Error> {
    let folder = Words::new(&rt, "feed FOLDER")?.text()?;
    let mut sources = sources_in(&rt, folder.as_str())?;
    let (mut streams, mut threads) = (Vec::new(rt.alloc()), Vec::new(rt.alloc()));
    for (place, source) in sources.iter().enumerate() {
        let (sender, receiver) = channel::<Line>(rt.alloc(), AHEAD)?;
        let path = source.path.clone()?;
        let thread = thread::spawn(&rt, move || send_lines(&rt, place, path.as_str(), sender))?;
        threads.push(thread)?;
        streams.push(receiver)?;
    }
    let merged = streams.merge(rt.alloc())?;
    let counted = merged.for_each(|line| {
        if let Some(source) = sources.get_mut(line.source) {
            source.count = source.count.saturating_add(1);
            source.last = line.text;
        }
        future::ready(())
    });
    block_on(&rt, counted)?;
    for thread in threads {
        thread.join(&rt)?;
    }
    print_counts(&rt, &sources)?;
    Ok(())
}
