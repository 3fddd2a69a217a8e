//! A page that is on its way, and its name.
ghost use Rattle.std.specs.Prelude.{◌≡◌};

use futures::task::{Context, Poll};
use futures::{Future, ready};
use std::alloc::Global;
use std::mem;

/// Ready with the name of a page and what came of it. `P` is the future that gets the page.
#[derive(Drop)]
pub struct Visit<P> {
    alloc: Global,
    name: String,
    page: P,
}

impl<P> Visit<P> {
    pub fn new(alloc: Global, name: String, page: P) -> Visit<P>
        ensures { result.page ≡ page }
    {
        Visit { alloc, name, page }
    }
}

impl<P: Future<Output: Drop>> Future for Visit<P> {
    type Output = (String, P::Output);

    // It may be polled where the page may.
    ghost can_poll = { λ visit. P.can_poll visit.page };

    fn poll(&mut self, cx: &mut Context<'_>) -> Poll<(String, P::Output)> {
        let page = ready!(self.page.poll(cx));
        Poll::Ready((mem::replace(&mut self.name, String::new(self.alloc)), page))
    }
}
