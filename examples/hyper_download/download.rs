//! One document of a server, over a connection of its own that `hyper` speaks.
ghost use Rattle.std.specs.Prelude.{◌≡◌, Some, None, IfOk, IfSome};
ghost use Rattle.futures.specs.Poll.{OnPending};
ghost use Rattle.futures.specs.Task.{Covers, Keeps};
ghost use Rattle.hyper_download.specs.declared.download.Stage.TheVariants.{Connecting};
ghost use Rattle.hyper_download.specs.Download.{CanRun, StageCanBePolled};

use anyhow::anyhow;
use bytes::Bytes;
use futures::task::{Context, Poll};
use futures::{Future, ready};
use http_body_util::combinators::Collect;
use http_body_util::{BodyExt, Collected, Empty};
use hyper::Request;
use hyper::body::Incoming;
use hyper::client::conn::http1::{Connection, ResponseFuture, handshake};
use std::alloc::Global;
use std::hash::RandomState;
use std::io;
use tokio::io::{AsyncRead, AsyncWrite};

/// What is sent has no body.
pub type Asked = Request<Empty<Bytes>>;

// How far a download is.
#[derive(Drop)]
enum Stage<C, I> {
    // The request is sent once there is a connection.
    Connecting(C, Option<Asked>),
    Waiting(ResponseFuture<I>),
    Receiving(Collect<Incoming<I>>),
    Done,
}

/// Sends a request over a new connection, and is ready with the document that the server answers. `C` is the future
/// that connects, and `I` what it connects by.
#[derive(Drop)]
pub struct Download<C, I> {
    alloc: Global,
    keys: RandomState,
    // What does the reading and writing, until it is closed.
    connection: Option<Connection<I, Empty<Bytes>>>,
    stage: Stage<C, I>,
}

impl<C, I> Download<C, I> {
    pub fn new(alloc: Global, keys: RandomState, connect: C, request: Asked) -> Download<C, I>
        ensures unasked { result.connection ≡ None }
        ensures connecting { result.stage ≡ Connecting connect (Some request) }
    {
        Download {
            alloc,
            keys,
            connection: None,
            stage: Stage::Connecting(connect, Some(request)),
        }
    }
}

// The whole body, where it came whole.
fn whole(body: hyper::Result<Collected>) -> Result<Bytes, anyhow::Error> {
    Ok(body?.to_bytes()?)
}

// Asks over what connects, and returns the connection with the answer to come.
fn ask<I: AsyncRead + AsyncWrite>(
    alloc: Global,
    keys: RandomState,
    io: I,
    request: Asked,
) -> hyper::Result<(Connection<I, Empty<Bytes>>, ResponseFuture<I>)>
    ensures { IfOk result (λ asked. CanRun I.reads I.writes asked.0) }
{
    let (mut sender, connection) = handshake(alloc, keys, io)?;
    let answer = sender.send_request(request);
    Ok((connection, answer))
}

// In place of the stage before.
fn enter<C: Drop, I: Drop>(stage: &mut Stage<C, I>, next: Stage<C, I>)
    ensures { stage.new ≡ next }
{
    *stage = next;
}

impl<C: Future<Output = io::Result<I>>, I: AsyncRead + AsyncWrite> Download<C, I> {
    // Connects and asks, unless that is done.
    fn begin(&mut self, cx: &mut Context<'_>) -> Poll<Result<(), anyhow::Error>>
        requires stage { StageCanBePolled C.can_poll self.old.stage }
        requires runs { IfSome self.old.connection (CanRun I.reads I.writes) }
        ensures stage { StageCanBePolled C.can_poll self.new.stage }
        ensures runs { IfSome self.new.connection (CanRun I.reads I.writes) }
        ensures covered { OnPending result (Covers cx.new (λ _. ⊥)) }
        ensures kept { Keeps cx.old cx.new }
    {
        let Stage::Connecting(connect, request) = &mut self.stage else {
            return Poll::Ready(Ok(()));
        };
        let connected = ready!(connect.poll(cx));
        let request = request.take();
        enter(&mut self.stage, Stage::Done);
        let io = match connected {
            Ok(io) => io,
            Err(error) => return Poll::Ready(Err(error.into())),
        };
        let Some(request) = request else {
            return Poll::Ready(Err(anyhow!("nothing to ask for")));
        };
        let (connection, answer) = match ask(self.alloc, self.keys, io, request) {
            Ok(asked) => asked,
            Err(error) => return Poll::Ready(Err(error.into())),
        };
        self.connection = Some(connection);
        enter(&mut self.stage, Stage::Waiting(answer));
        Poll::Ready(Ok(()))
    }

    // Reads and writes what can be. What went wrong there comes with the answer too.
    fn drive(&mut self, cx: &mut Context<'_>)
        requires { IfSome self.old.connection (CanRun I.reads I.writes) }
        ensures runs { IfSome self.new.connection (CanRun I.reads I.writes) }
        ensures stage { self.new.stage ≡ self.old.stage }
        ensures kept { Keeps cx.old cx.new }
    {
        let Some(connection) = &mut self.connection else {
            return;
        };
        if connection.poll(cx).is_ready() {
            self.connection = None;
        }
    }

    // Waits for the answer, and then for its body.
    fn receive(&mut self, cx: &mut Context<'_>) -> Poll<Result<Bytes, anyhow::Error>>
        requires { StageCanBePolled C.can_poll self.old.stage }
        ensures stage { OnPending result (StageCanBePolled C.can_poll self.new.stage) }
        ensures connection { self.new.connection ≡ self.old.connection }
        ensures covered { OnPending result (Covers cx.new (λ _. ⊥)) }
        ensures kept { Keeps cx.old cx.new }
    {
        if let Stage::Waiting(answer) = &mut self.stage {
            let answer = match ready!(answer.poll(cx)) {
                Ok(answer) => answer,
                Err(error) => return Poll::Ready(Err(error.into())),
            };
            let body = answer.into_body().collect(self.alloc);
            enter(&mut self.stage, Stage::Receiving(body));
        }
        let Stage::Receiving(body) = &mut self.stage else {
            return cx.yield_now();
        };
        let body = ready!(body.poll(cx));
        enter(&mut self.stage, Stage::Done);
        Poll::Ready(whole(body))
    }
}

// The contract of `hyper`'s connection follows each byte that is read and written, and so it asks, at each poll, that
// the connection is as `handshake` or its last poll left it (`CanRun`). The download hands that on to whoever polls it:
// a set polls it only where this holds, and each poll leaves it so.
impl<C, I> Future for Download<C, I>
where
    C: Future<Output = io::Result<I>>,
    I: AsyncRead + AsyncWrite,
{
    ghost use Rattle.hyper_download.specs.Download.{CanRun, StageCanBePolled};

    type Output = Result<Bytes, anyhow::Error>;

    ghost can_poll = { λ download. StageCanBePolled C.can_poll download.stage
        × IfSome download.connection (CanRun I.reads I.writes) };

    fn poll(&mut self, cx: &mut Context<'_>) -> Poll<Result<Bytes, anyhow::Error>> {
        if let Err(error) = ready!(self.begin(cx)) {
            return Poll::Ready(Err(error));
        }
        self.drive(cx);
        self.receive(cx)
    }
}
