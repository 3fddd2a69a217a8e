//! What stands for the waker of a task, in the fewest steps.
use crate::Host;
use futures_buffered_core::ready_shared::OuterWaker;
use std::alloc::{AllocError, Global};
use std::sync::Arc;
use std::sync::atomic::AtomicU64;
use std::sync::atomic::Ordering::SeqCst;

/// Where somebody sleeps until a wake, and what wakes it.
#[derive(Drop)]
pub struct Bed {
    called: Arc<AtomicU64>,
}

impl OuterWaker for Bed {
    fn wake_outer(self) {
        self.called.store(1, SeqCst);
        self.called.wake_all();
    }
}

impl Bed {
    pub fn new(alloc: Global) -> Result<Bed, AllocError> {
        let called = Arc::new(alloc, AtomicU64::new(0))?;
        Ok(Bed { called })
    }

    pub fn waker(&self) -> Result<Bed, AllocError> {
        let called = Arc::try_clone(&self.called)?;
        Ok(Bed { called })
    }

    /// Sleeps until there was a wake since the last sleep.
    pub fn sleep(&self, rt: &impl Host) {
        for _ in rt.forever() {
            if self.called.load(SeqCst) != 0 {
                self.called.store(0, SeqCst);
                return;
            }
            self.called.park(rt, 0);
        }
    }
}
