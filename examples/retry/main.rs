//! `retry PORT SITE PAGES LIMIT MILLISECONDS`: gets the pages of a site from a server on this machine, with at most
//! LIMIT requests in flight. A page that fails, or that does not come within a second, is asked for again after a pause,
//! four times in all. After so many milliseconds it stops, and prints which pages were in flight then.
#![tactic(auto)]

mod request;
mod words;

use crate::request::{document_in, request_for};
use crate::words::Words;
use anyhow::bail;
use bytes::BytesMut;
use futures::{FutureExt, StreamExt, TryFutureExt};
use futures_buffered::in_flight::FuturesUnorderedBounded;
use std::collections::{BTreeMap, BTreeSet};
use std::io;
use std::time::{Duration, Instant};
use tokio::io::{read_to_end, write_all};
use tokio::net::TcpStream;
use tokio::runtime::LocalRuntime;
use tokio::time::error::Elapsed;

const TRIES: u32 = 4;
// How long a try may take, without its pause.
const MILLISECONDS: u64 = 1_000;

type Answer = Result<io::Result<(TcpStream, BytesMut)>, Elapsed>;

fn is_good(answer: &Answer) -> bool {
    match answer {
        Ok(Ok((_socket, text))) => document_in(text.as_slice()).is_some(),
        _ => false,
    }
}

fn main(rt: HostRuntime) -> Result<(), anyhow::Error> {
    let alloc = rt.alloc();
    let mut words = Words::new(&rt, "retry PORT SITE PAGES LIMIT MILLISECONDS")?;
    let (server, site, pages) = (words.server()?, words.text()?, words.number()?);
    let (limit, time) = (words.limit()?, words.milliseconds()?);
    let mut runtime = LocalRuntime::new(&rt)?;
    let reactor = runtime.handle().reactor().clone()?;
    let timers = runtime.handle().time().clone()?;
    // One try of a page, after a pause of 0, 10, 30 or 70 milliseconds.
    let attempt = |page: u32, tries: u32| {
        let request = request_for(alloc, format!(in alloc; "{site}/{page}")?)?;
        let pause = Duration::from_millis((10 << tries) - 10);
        let exchange = timers
            .sleep(&rt, pause)?
            .then(|_| TcpStream::connect(&rt, server, &reactor))
            .and_then(move |socket| write_all(socket, request))
            .and_then(move |(socket, _sent)| read_to_end(socket, BytesMut::new(alloc)));
        let limit = pause.saturating_add(Duration::from_millis(MILLISECONDS));
        let timed = timers.timeout(&rt, limit, exchange)?;
        Ok::<_, anyhow::Error>(timed.map(move |came| (page, tries, came)))
    };
    let Some(end) = Instant::now(&rt)?.checked_add(time) else {
        bail!("too many milliseconds");
    };
    let mut set = FuturesUnorderedBounded::new(alloc, limit)?;
    let mut waiting = (0..pages).map(|page| (page, 0)).collect::<Vec<_>>(alloc)?;
    let mut in_flight = BTreeSet::new(alloc);
    let mut came_at = BTreeMap::new(alloc);
    for _ in rt.forever() {
        while !set.is_full() {
            let Some((page, tries)) = waiting.pop() else {
                break;
            };
            let _key = set.push(attempt(page, tries)?);
            in_flight.insert(page)?;
        }
        let next = timers.timeout_at(end, set.next())?;
        let Ok(Some((page, tries, answer))) = runtime.block_on(&rt, next)? else {
            break;
        };
        in_flight.remove(&page);
        if is_good(&answer) {
            came_at.insert(page, tries + 1)?;
        } else if tries + 1 < TRIES {
            waiting.push((page, tries + 1))?;
        }
    }
    for (page, tries) in &came_at {
        println!(&rt; "page {page} came at try {tries}")?;
    }
    println!(&rt; "in flight at the end: {in_flight:?}")?;
    Ok(())
}
