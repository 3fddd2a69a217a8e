//! `download PORT DOCUMENTS LIMIT`: gets numbered documents from a server on this machine, each over a connection of
//! its own, with at most LIMIT connections open. It prints a line for each document, in the order of their numbers.
#![tactic(auto)]

mod request;
mod words;

use crate::request::{document_in, request_for};
use crate::words::Words;
use anyhow::bail;
use bytes::BytesMut;
use futures::{StreamExt, TryFutureExt, future, stream};
use futures_buffered::in_flight::BufferedStreamExt;
use tokio::io::{read_to_end, write_all};
use tokio::net::TcpStream;
use tokio::runtime::LocalRuntime;

fn main(rt: HostRuntime) -> Result<(), anyhow::Error> {
    let alloc = rt.alloc();
    let mut words = Words::new(&rt, "download PORT DOCUMENTS LIMIT")?;
    let (server, documents, limit) = (words.server()?, words.number()?, words.limit()?);
    let mut runtime = LocalRuntime::new(&rt)?;
    let reactor = runtime.handle().reactor().clone()?;
    let get = |document: u32| {
        future::ready(request_for(alloc, document)).and_then(|request| {
            TcpStream::connect(&rt, server, &reactor)
                .and_then(move |socket| write_all(socket, request))
                .and_then(move |(socket, _sent)| read_to_end(socket, BytesMut::new(alloc)))
                .map_ok(|(_socket, answer)| answer)
        })
    };
    let requests = stream::iter(0..documents).map(get);
    let answers = requests.buffered_ordered(alloc, limit)?;
    let answers = runtime.block_on(&rt, answers.collect(alloc))??;
    for (number, answer) in answers.into_iter().enumerate() {
        let answer = answer?;
        let Some(document) = document_in(answer.as_slice()) else {
            bail!("the server has no document {number}");
        };
        println!(&rt; "document {number}: {} bytes", document.len())?;
    }
    Ok(())
}
