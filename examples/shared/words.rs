//! What a program's words ask for.
ghost use Rattle.std.specs.Prelude.{◌<◌, IfOk};

use anyhow::bail;
use std::env::{self, Args, Env};
use std::net::{Ipv4Addr, SocketAddr};
use std::time::Duration;

/// The words after a program's name, one after another. Without a next word each call says how the program is called.
#[derive(Drop)]
pub struct Words {
    words: Args,
    usage: &'static str,
}

impl Words {
    pub fn new<R: Env + AllocGlobal>(rt: &R, usage: &'static str) -> Result<Words, anyhow::Error> {
        let mut words = env::args(rt)?;
        let _program = words.next();
        Ok(Words { words, usage })
    }

    pub fn text(&mut self) -> Result<String, anyhow::Error> {
        let Some(word) = self.words.next() else {
            bail!("usage: {}", self.usage);
        };
        Ok(word)
    }

    pub fn number(&mut self) -> Result<u32, anyhow::Error> {
        Ok(self.text()?.parse()?)
    }

    /// How many are under way at a time: at least one.
    pub fn limit(&mut self) -> Result<usize, anyhow::Error>
        ensures { IfOk result (λ limit. 0 < limit) }
    {
        let limit = self.text()?.parse()?;
        if limit == 0 {
            bail!("a limit is 1 at least");
        }
        Ok(limit)
    }

    /// The server on this machine that has this port.
    pub fn server(&mut self) -> Result<SocketAddr, anyhow::Error> {
        let port = self.text()?.parse()?;
        Ok(SocketAddr::from((Ipv4Addr::LOCALHOST, port)))
    }

    pub fn milliseconds(&mut self) -> Result<Duration, anyhow::Error> {
        Ok(Duration::from_millis(self.text()?.parse()?))
    }
}
