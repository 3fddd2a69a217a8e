//! What is polled at the slots of a source.
use anyhow::Result;
use futures_buffered_core::ready_shared::{SharedReady, SharedWaker};
use std::alloc::Global;

/// A receiver, and a source of two slots with a waker of each. These are made before any thread starts, so that a poll
/// makes no step for them.
#[derive(Drop)]
pub struct Polled<R: Drop> {
    pub source: SharedReady,
    pub wakers: [SharedWaker; 2],
    pub receiver: R,
}

impl<R: Drop> Polled<R> {
    pub fn new(alloc: Global, receiver: R) -> Result<Polled<R>> {
        let source: SharedReady = SharedReady::new(alloc, 2)?;
        let wakers = [source.try_waker(0)?, source.try_waker(1)?];
        Ok(Polled {
            source,
            wakers,
            receiver,
        })
    }
}
