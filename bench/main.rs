//! What calls of the ready list, of shared sources, of sets, of queues and of adaptors cost.
#![tactic(auto)]

mod blocking;
mod channels;
mod holders;
mod items;
mod one_shots;
mod report;
mod rows;
mod sources;
mod waiting;

use report::Report;
use std::io;

fn main(rt: HostRuntime) -> io::Result<()> {
    Report { rt: &rt }.rows()
}
