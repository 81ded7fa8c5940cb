//! Archives, library against model: a sweep over sound and damaged ones, and lists of calls made up from a seed.

mod both;
mod call;
mod damage;
mod large;
mod lists;
mod shapes;

use super::rng::Rng;
use super::shrink::shrink;
use super::Failure;
use crate::machine::Machine;
use both::Both;
use joyce::Reply;
use lists::{Event, List};

/// Events in one episode.
pub const EPISODE: usize = 40;
/// Frames that the room of all but the largest archives has place for.
const FRAMES: usize = 5;

/// The calls made, by refusal number.
#[derive(Clone, Copy, Default)]
pub struct Tally {
    pub refusals: [u64; 13],
}

impl Tally {
    fn count(&mut self, reply: Reply) {
        self.refusals[reply.refusal().min(12) as usize] += 1;
    }

    pub fn add(&mut self, other: &Tally) {
        self.refusals.iter_mut().zip(other.refusals).for_each(|(sum, more)| *sum += more);
    }

    pub fn calls(&self) -> u64 {
        self.refusals.iter().sum()
    }
}

/// Small archives from end to end, then a few of the largest.
pub fn sweep(library: &dyn Machine) -> Result<Tally, String> {
    let mut both = Both::new(library, FRAMES, 0);
    shapes::sweep(&mut both)?;
    damage::sweep(&mut both)?;
    let mut tally = both.tally;
    tally.add(&large::sweep(library)?);
    // Once more with other pictures, and with what is lent at other addresses.
    for seed in 1..4 {
        let mut both = Both::new(library, FRAMES, seed);
        shapes::sweep(&mut both)?;
        tally.add(&both.tally);
    }
    Ok(tally)
}

/// One episode of a run: a list of events from its own seed.
pub fn episode(library: &dyn Machine, seed: u64, episode: u64) -> Result<Tally, Box<Failure>> {
    let mut rng = Rng::episode(!seed, episode);
    let source = rng.word();
    let mut list = List::new(library, source);
    let mut events = Vec::with_capacity(EPISODE);
    for _ in 0..EPISODE {
        let event = list.next(&mut rng);
        events.push(event.clone());
        if let Err(difference) = list.make(&event) {
            return Err(Box::new(failure(library, (seed, episode), source, events, difference)));
        }
    }
    Ok(list.tally())
}

fn failure(
    library: &dyn Machine,
    (seed, episode): (u64, u64),
    source: u64,
    events: Vec<Event>,
    difference: String,
) -> Failure {
    let again = |events: &[Event]| {
        let mut list = List::new(library, source);
        events.iter().try_for_each(|event| list.make(event))
    };
    let events = shrink(&events, |tried| again(tried).is_err());
    Failure {
        seed,
        episode,
        calls_before: 0,
        setup: format!("no archive; pictures from seed {source:#x}"),
        difference: again(&events).err().unwrap_or(difference),
        list: events.iter().map(Event::to_string).collect(),
    }
}
