//! `cancel PORT LIMIT`: fills a set with LIMIT requests, of which the server never answers one, and cancels that one by
//! its key once another has come. Then it fills the set with requests that the server never answers, and clears it. It
//! prints the answers, and three times how many requests the set holds and how many the server has in hand.
#![tactic(auto)]

mod request;
mod words;

use crate::request::{document_in, request_for};
use crate::words::Words;
use anyhow::bail;
use bytes::BytesMut;
use futures::{Future, StreamExt, TryFutureExt};
use futures_buffered::in_flight::FuturesUnorderedBounded;
use std::collections::BTreeMap;
use std::io::{self, Print};
use std::net::Net;
use std::random::RandomSource;
use std::sync::Wait;
use std::time::{Clock, Duration};
use tokio::io::{read_to_end, write_all};
use tokio::net::TcpStream;
use tokio::runtime::LocalRuntime;

// How long the requests run before they are cleared.
const MILLISECONDS: u64 = 200;

fn size_of(answer: BytesMut) -> Result<usize, anyhow::Error> {
    let Some(document) = document_in(answer.as_slice()) else {
        bail!("the server has no such document");
    };
    Ok(document.len())
}

// Prints how many requests are held, and how many the server has in hand by the answer to this question.
fn report<R, F>(
    rt: &R,
    runtime: &mut LocalRuntime,
    held: usize,
    question: F,
) -> Result<(), anyhow::Error>
where
    R: Wait + Clock + Net + RandomSource + AllocGlobal + Print,
    F: Future<Output = io::Result<BytesMut>>,
    requires { F.can_poll question }
{
    let answer = runtime.block_on(rt, question)??;
    let in_hand = document_in(answer.as_slice()).unwrap_or(b"?");
    println!(rt; "{held} held, {} in hand", str::from_utf8(in_hand)?)?;
    Ok(())
}

fn main(rt: HostRuntime) -> Result<(), anyhow::Error> {
    let alloc = rt.alloc();
    let mut words = Words::new(&rt, "cancel PORT LIMIT")?;
    let (server, limit) = (words.server()?, words.limit()?);
    let mut runtime = LocalRuntime::new(&rt)?;
    let reactor = runtime.handle().reactor().clone()?;
    let timers = runtime.handle().time().clone()?;
    let get = |path: &str| {
        let request = request_for(alloc, path)?;
        let exchange = TcpStream::connect(&rt, server, &reactor)
            .and_then(move |socket| write_all(socket, request))
            .and_then(move |(socket, _sent)| read_to_end(socket, BytesMut::new(alloc)))
            .map_ok(|(_socket, answer)| answer);
        Ok::<_, anyhow::Error>(exchange)
    };
    let mut set = FuturesUnorderedBounded::new(alloc, limit)?;
    let late = set.try_push(get("late")?).ok();
    let mut keys = Vec::new(alloc);
    while !set.is_full() {
        let path = format!(in alloc; "{}", keys.len())?;
        keys.push(set.push(get(path.as_str())?))?;
    }
    let mut sizes = BTreeMap::new(alloc);
    for _ in rt.forever() {
        let (came, rest) = runtime.block_on(&rt, set.into_next())?;
        set = rest;
        let Some(came) = came else {
            break;
        };
        let Some(document) = keys.iter().position(|key| *key == came.key) else {
            bail!("an output of no document");
        };
        sizes.insert(document, size_of(came.output?)?)?;
        if let Some(late) = late {
            let _tag = set.cancel(late);
        }
    }
    for (document, size) in &sizes {
        println!(&rt; "document {document}: {size} bytes")?;
    }
    report(&rt, &mut runtime, set.len(), get("in-hand")?)?;
    while !set.is_full() {
        let _key = set.push(get("late")?);
    }
    let moment = Duration::from_millis(MILLISECONDS);
    let first = timers.timeout(&rt, moment, set.next())?;
    let _nothing_came = runtime.block_on(&rt, first)?.is_err();
    report(&rt, &mut runtime, set.len(), get("in-hand")?)?;
    set.clear();
    report(&rt, &mut runtime, set.len(), get("in-hand")?)
}
