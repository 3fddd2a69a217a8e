//! `runner PORT LIMIT MILLISECONDS`: gets pages from a server on this machine, with at most LIMIT connections open, each
//! within so many milliseconds. A thread sends the numbers of the pages while earlier ones are on their way. It prints
//! a line for each page, in the order of their numbers.
#![tactic(auto)]

mod request;
mod words;

use crate::request::{document_in, request_for};
use crate::words::Words;
use bytes::BytesMut;
use futures::channel::mpsc::unbounded;
use futures::{FutureExt, StreamExt, TryFutureExt};
use futures_buffered::in_flight::BufferedTryStreamExt;
use std::{io, thread};
use tokio::io::{read_to_end, write_all};
use tokio::net::TcpStream;
use tokio::runtime::LocalRuntime;
use tokio::time::error::Elapsed;

const PAGES: u32 = 30;

// The size of a page, or `None` if it did not come in time.
fn size_of(
    page: u32,
    came: Result<io::Result<BytesMut>, Elapsed>,
) -> Result<(u32, Option<usize>), anyhow::Error> {
    let Ok(answer) = came else {
        return Ok((page, None));
    };
    let size = document_in(answer?.as_slice()).map(|page| page.len());
    Ok((page, Some(size.unwrap_or(0))))
}

fn main(rt: HostRuntime) -> Result<(), anyhow::Error> {
    let alloc = rt.alloc();
    let mut words = Words::new(&rt, "runner PORT LIMIT MILLISECONDS")?;
    let (server, limit, time) = (words.server()?, words.limit()?, words.milliseconds()?);
    let mut runtime = LocalRuntime::new(&rt)?;
    let reactor = runtime.handle().reactor().clone()?;
    let timers = runtime.handle().time().clone()?;
    let (sender, jobs) = unbounded::<u32>(alloc)?;
    let others = thread::spawn(&rt, move || {
        for page in 0..PAGES {
            let _ = sender.unbounded_send(page);
        }
    })?;
    let requests = jobs.map(|page| {
        let request = request_for(alloc, format!(in alloc; "stuck/{page}")?)?;
        let exchange = TcpStream::connect(&rt, server, &reactor)
            .and_then(move |socket| write_all(socket, request))
            .and_then(move |(socket, _sent)| read_to_end(socket, BytesMut::new(alloc)))
            .map_ok(|(_socket, answer)| answer);
        let timed = timers.timeout(&rt, time, exchange)?;
        Ok::<_, anyhow::Error>(timed.map(move |came| size_of(page, came)))
    });
    let answers = requests.try_buffered_unordered(alloc, limit)?;
    let answers = runtime.block_on(&rt, answers.collect(alloc))??;
    others.join(&rt);
    let mut pages = Vec::new(alloc);
    for answer in answers {
        pages.push(answer?)?;
    }
    pages.sort_unstable();
    for (page, size) in pages {
        match size {
            Some(size) => println!(&rt; "page {page}: {size} bytes")?,
            None => println!(&rt; "page {page}: out of time")?,
        }
    }
    Ok(())
}
