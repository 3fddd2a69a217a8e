//! `web_crawl PORT START LIMIT MILLISECONDS`: gets the page `START` from a server on this machine, and each page to
//! which links lead from there, once, with at most LIMIT requests in flight. It stops at the first page that fails, or
//! that does not come within so many milliseconds. At the end it asks the server how many requests that has still in
//! hand.
#![tactic(auto)]

mod download;
mod request;
mod visit;
mod words;

use crate::download::Download;
use crate::request::{document_in, request_for};
use crate::visit::Visit;
use crate::words::Words;
use anyhow::bail;
use futures::StreamExt;
use futures_buffered::in_flight::{FuturesUnorderedBounded, Kept};
use std::alloc::{AllocError, Global};
use std::collections::BTreeSet;
use std::io;
use std::net::{Net, SocketAddr};
use std::random::RandomSource;
use std::sync::Wait;
use std::time::{Clock, Duration};
use tokio::net::TcpStream;
use tokio::runtime::LocalRuntime;
use tokio::time::Timeout;

// The requests in flight.
type Visits = Kept<FuturesUnorderedBounded<Visit<Timeout<Download>>>>;

// The names of the pages that were found, and of those among them that wait for their turn.
#[derive(Drop)]
struct Pages {
    alloc: Global,
    found: BTreeSet<String>,
    waiting: Vec<String>,
}

impl Pages {
    fn new(alloc: Global) -> Pages {
        Pages {
            alloc,
            found: BTreeSet::new(alloc),
            waiting: Vec::new(alloc),
        }
    }

    // A page that was found before does not wait again.
    fn find(&mut self, name: &str) -> Result<(), AllocError> {
        if !self.found.contains(name) {
            self.found.insert(String::from_str(self.alloc, name)?)?;
            self.waiting.push(String::from_str(self.alloc, name)?)?;
        }
        Ok(())
    }

    // Each link of a page is the name of a page, between quotes.
    fn find_links(&mut self, page: &str) -> Result<(), AllocError> {
        for rest in page.split("href=\"").skip(1) {
            let Some((name, _)) = rest.split_once("\"") else {
                continue;
            };
            self.find(name)?;
        }
        Ok(())
    }
}

fn download_of<R: Net + AllocGlobal>(
    rt: &R,
    runtime: &LocalRuntime,
    server: SocketAddr,
    name: &str,
) -> io::Result<Download> {
    let connect = TcpStream::connect(rt, server, runtime.handle().reactor());
    let request = request_for(rt.alloc(), name.trim_start_matches('/'))?;
    Ok(Download::new(rt.alloc(), connect, request))
}

fn crawl<R>(
    rt: &R,
    runtime: &mut LocalRuntime,
    pages: &mut Pages,
    server: SocketAddr,
    limit: usize,
    deadline: Duration,
) -> Result<(), anyhow::Error>
where
    R: Wait + Clock + Net + RandomSource + AllocGlobal,
{
    let set = FuturesUnorderedBounded::new(rt.alloc(), limit)?;
    let mut visits: Visits = Kept::new(set);
    for _ in rt.forever() {
        if !visits.get().is_full() {
            if let Some(name) = pages.waiting.pop() {
                let page = download_of(rt, runtime, server, name.as_str())?;
                let page = runtime.handle().time().timeout(rt, deadline, page)?;
                let _key = visits.push(Visit::new(rt.alloc(), name, page));
                continue;
            }
        }
        let Some((name, answer)) = runtime.block_on(rt, visits.next())? else {
            break;
        };
        let Ok(answer) = answer else {
            bail!("{name} did not come in time");
        };
        let answer = answer?;
        let Some(page) = document_in(answer.as_slice()) else {
            bail!("{name} is not to be had");
        };
        pages.find_links(str::from_utf8(page)?)?;
    }
    Ok(())
}

fn main(rt: HostRuntime) -> Result<(), anyhow::Error> {
    let mut words = Words::new(&rt, "web_crawl PORT START LIMIT MILLISECONDS")?;
    let (server, start) = (words.server()?, words.text()?);
    let (limit, deadline) = (words.limit()?, words.milliseconds()?);
    let mut runtime = LocalRuntime::new(&rt)?;
    let mut pages = Pages::new(rt.alloc());
    pages.find(start.as_str())?;
    match crawl(&rt, &mut runtime, &mut pages, server, limit, deadline) {
        Ok(()) => println!(rt; "{} pages", pages.found.len())?,
        Err(error) => println!(rt; "stopped: {error}")?,
    }
    let asked = download_of(&rt, &runtime, server, "/in-hand")?;
    let answer = runtime.block_on(&rt, asked)??;
    let in_hand = document_in(answer.as_slice()).unwrap_or(b"?");
    println!(rt; "in flight: {}", str::from_utf8(in_hand)?)?;
    Ok(())
}
