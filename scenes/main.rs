//! `scenes SCENE WORD..`: one small program of few threads, which `scripts/interleavings` runs in every order of its
//! atomic steps.
//!
//! A scene ends with status 0 where what must hold at its end holds, and does not end where a wake is lost.
//! `scenes.txt` lists them, each with the promise that it shows and its bounds.
#![tactic(auto)]

mod awaited;
mod channels;
mod held;
mod holders;
mod in_flight;
mod joins;
mod one_shots;
mod outer;
mod polled;
mod ready_list;
mod tally;
mod tasks;

use crate::holders::{GrowingMerge, GrowingQueue, GrowingSet, Holder, Merge, Queue, Set};
use anyhow::{Context, Result, bail};
use std::alloc::AllocGlobal;
use std::env;
use std::env::Env;
use std::random::RandomSource;
use std::sync::Wait;
use std::thread::Threads;

/// What scenes need of the machine.
pub trait Host: Threads + Wait + RandomSource + AllocGlobal {}

impl<R: Threads + Wait + RandomSource + AllocGlobal> Host for R {}

// The scene, its kind where it is one of sets and their like, and its numbers.
fn read_words(rt: &(impl Env + AllocGlobal)) -> Result<(String, String, [usize; 3])> {
    let mut words = env::args(rt)?;
    words.next();
    let scene = words.next().context("usage: scenes SCENE WORD..")?;
    let mut kind = String::new(rt.alloc());
    let (mut numbers, mut count) = ([0usize; 3], 0usize);
    for word in words {
        match word.parse::<usize>() {
            Ok(number) if count < 3 => {
                numbers[count] = number;
                count = count + 1;
            }
            _ => kind = word,
        }
    }
    Ok((scene, kind, numbers))
}

fn held_scene<H: Holder>(rt: &impl Host, scene: &str, numbers: [usize; 3]) -> Result<()> {
    let [a, b, c] = numbers;
    match scene {
        "polled" => held::polled::<H>(rt, a, b, c),
        "blocked" => held::blocked::<H>(rt, a, b),
        "moved" => held::moved::<H>(rt, a, b),
        "dropped" => held::dropped::<H>(rt, a, b),
        "cleared" => held::cleared::<H>(rt, a, b),
        "replaced" => held::replaced::<H>(rt, a),
        "one_by_one" => held::one_by_one::<H>(rt, a),
        "grown" => held::grown::<H>(rt),
        _ => bail!("there is no such scene"),
    }
}

fn other_scene(rt: &impl Host, scene: &str, numbers: [usize; 3]) -> Result<()> {
    let [a, b, c] = numbers;
    match scene {
        "list_wakes" => ready_list::wakes(rt, a, b, c),
        "list_outer_wakers" => ready_list::outer_wakers(rt, a),
        "list_seats" => ready_list::seats(rt, a),
        "source_task" => tasks::task(rt, a, b, c),
        "source_other_task" => tasks::other_task(rt, a),
        "source_dropped" => tasks::dropped_source(rt, a),
        "source_sibling" => tasks::sibling(rt, a, b),
        "source_pollers" => tasks::pollers(rt, a),
        "join" => joins::join(rt, a, b),
        "try_join" => joins::try_join(rt, a, b),
        "one_shot_sent" => one_shots::sent(rt, a, b),
        "one_shot_receipt" => one_shots::sent_with_receipt(rt, a),
        "one_shot_sender_goes" => one_shots::sender_goes(rt, a, b),
        "one_shot_receiver_goes" => one_shots::receiver_goes(rt, a),
        "one_shot_sender_looks" => one_shots::sender_looks(rt, a),
        "channel_sender_goes" => channels::sender_goes(rt, a, b),
        "channel_sender_finishes" => channels::sender_finishes(rt, a, b),
        "channel_sender_stays" => channels::sender_stays(rt, a, b, false),
        "channel_receiver_moves" => channels::sender_stays(rt, a, b, true),
        "channel_marks_once" => channels::marks_once(rt),
        "channel_receiver_goes" => channels::receiver_goes(rt, a, b, c),
        "channel_sender_looks" => channels::sender_looks(rt, a),
        "channel_merged" => channels::merged(rt, 1, a, b),
        "channels_merged" => channels::merged(rt, 2, a, b),
        "in_flight_polled" => in_flight::polled(rt, a),
        "in_flight_cleared" => in_flight::cleared(rt, a, b),
        "in_flight_cancelled" => in_flight::cancelled(rt, a),
        _ => bail!("there is no such scene"),
    }
}

fn main(rt: HostRuntime) -> Result<()> {
    let (scene, kind, numbers) = read_words(&rt)?;
    let scene = scene.as_str();
    match kind.as_str() {
        "" => other_scene(&rt, scene, numbers),
        "set" => held_scene::<Set>(&rt, scene, numbers),
        "growing_set" => held_scene::<GrowingSet>(&rt, scene, numbers),
        "queue" => held_scene::<Queue>(&rt, scene, numbers),
        "growing_queue" => held_scene::<GrowingQueue>(&rt, scene, numbers),
        "merge" => held_scene::<Merge>(&rt, scene, numbers),
        "growing_merge" => held_scene::<GrowingMerge>(&rt, scene, numbers),
        _ => bail!("there is no such kind"),
    }
}
