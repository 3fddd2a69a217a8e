//! `hyper_download PORT DOCUMENTS LIMIT`: gets numbered documents from a server on this machine over `hyper`, each over
//! a connection of its own, with at most LIMIT of them in flight, and prints a line for each, in the order of their
//! numbers.
#![tactic(auto)]

mod download;
mod words;

use crate::download::{Asked, Download};
use crate::words::Words;
use futures::{StreamExt, stream};
use futures_buffered::in_flight::BufferedStreamExt;
use http_body_util::Empty;
use hyper::{Request, header};
use std::alloc::Global;
use std::hash::RandomState;
use tokio::net::TcpStream;
use tokio::runtime::LocalRuntime;

fn request_for(alloc: Global, document: u32) -> Result<Asked, anyhow::Error> {
    let path = format!(in alloc; "/{document}")?;
    let request = Request::get(alloc, path.as_str()).header(header::HOST, "localhost");
    Ok(request.body(Empty::new())?)
}

fn requests(alloc: Global, documents: u32) -> Result<Vec<Asked>, anyhow::Error> {
    let mut requests = Vec::new(alloc);
    for document in 0..documents {
        requests.push(request_for(alloc, document)?)?;
    }
    Ok(requests)
}

fn main(rt: HostRuntime) -> Result<(), anyhow::Error> {
    let alloc = rt.alloc();
    let mut words = Words::new(&rt, "hyper_download PORT DOCUMENTS LIMIT")?;
    let (server, documents, limit) = (words.server()?, words.number()?, words.limit()?);
    let keys = RandomState::new(&rt)?;
    let mut runtime = LocalRuntime::new(&rt)?;
    let reactor = runtime.handle().reactor().clone()?;
    let downloads = stream::iter(requests(alloc, documents)?).map(|request| {
        let connect = TcpStream::connect(&rt, server, &reactor);
        Download::new(alloc, keys, connect, request)
    });
    let answers = downloads.buffered_ordered(alloc, limit)?;
    let answers = runtime.block_on(&rt, answers.collect(alloc))??;
    for (number, document) in answers.into_iter().enumerate() {
        println!(&rt; "document {number}: {} bytes", document?.len())?;
    }
    Ok(())
}
