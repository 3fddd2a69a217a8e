//! One document of a server, over a connection of its own.
ghost use Rattle.futures.specs.Poll.{OnPending};
ghost use Rattle.futures.specs.Task.{Covers, Keeps};

use bytes::{Bytes, BytesMut};
use futures::task::{Context, Poll};
use futures::{Future, ready};
use std::alloc::Global;
use std::io;
use tokio::io::{ReadToEnd, WriteAll, read_to_end, write_all};
use tokio::net::{ConnectFuture, TcpStream};

// How far a download is.
#[derive(Drop)]
enum Stage {
    // The request is sent once there is a connection.
    Connecting(ConnectFuture, Bytes),
    Sending(WriteAll<TcpStream, Bytes>),
    Receiving(ReadToEnd<TcpStream>),
    Done,
}

/// Sends a request over a new connection, and is ready with all that the server answers, once it closes the connection.
#[derive(Drop)]
pub struct Download {
    alloc: Global,
    stage: Stage,
}

impl Download {
    pub fn new(alloc: Global, connect: ConnectFuture, request: Bytes) -> Download {
        Download {
            alloc,
            stage: Stage::Connecting(connect, request),
        }
    }

    // Goes on from one stage to the next, up to one that waits.
    fn advance(&mut self, cx: &mut Context<'_>) -> Poll<io::Result<BytesMut>>
        ensures covered { OnPending result (Covers cx.new (λ _. ⊥)) }
        ensures kept { Keeps cx.old cx.new }
    {
        if let Stage::Connecting(connect, request) = &mut self.stage {
            let socket = match ready!(connect.poll(cx)) {
                Ok(socket) => socket,
                Err(error) => return Poll::Ready(Err(error)),
            };
            let request = std::mem::take(request);
            self.stage = Stage::Sending(write_all(socket, request));
        }
        if let Stage::Sending(sending) = &mut self.stage {
            let socket = match ready!(sending.poll(cx)) {
                Ok((socket, _request)) => socket,
                Err(error) => return Poll::Ready(Err(error)),
            };
            self.stage = Stage::Receiving(read_to_end(socket, BytesMut::new(self.alloc)));
        }
        let Stage::Receiving(receiving) = &mut self.stage else {
            return cx.yield_now();
        };
        match ready!(receiving.poll(cx)) {
            Ok((_socket, answer)) => Poll::Ready(Ok(answer)),
            Err(error) => Poll::Ready(Err(error)),
        }
    }
}

impl Future for Download {
    type Output = io::Result<BytesMut>;

    fn poll(&mut self, cx: &mut Context<'_>) -> Poll<io::Result<BytesMut>> {
        let answer = ready!(self.advance(cx));
        self.stage = Stage::Done;
        Poll::Ready(answer)
    }
}
