//! Lists of calls on one archive, which grows by them and is damaged and mended between them.

use super::both::{Both, SHIFTS};
use super::call::Call;
use super::{Tally, FRAMES};
use crate::fuzz::rng::Rng;
use crate::machine::Machine;
use joyce::archive::{entry_at, length, picture_at, Fields, Length, HEADER};
use joyce::{LINE_BYTES, PICTURE};
use std::fmt;

#[derive(Clone, PartialEq, Eq, Debug)]
pub enum Event {
    Make(Call),
    /// A byte of the archive is altered.
    Alter {
        at: usize,
        value: u8,
    },
    /// The archive is cut off, or zeros are put behind it.
    Resize(usize),
    /// The archive is again as the last call left it that wrote one.
    Mend,
}

impl fmt::Display for Event {
    fn fmt(&self, f: &mut fmt::Formatter<'_>) -> fmt::Result {
        match self {
            Event::Make(call) => write!(f, "{call}"),
            Event::Alter { at, value } => write!(f, "byte {at} of the archive altered to {value:02X}h"),
            Event::Resize(len) => write!(f, "the archive made {len} bytes long"),
            Event::Mend => write!(f, "the archive mended"),
        }
    }
}

pub struct List<'m> {
    both: Both<'m>,
    archive: Vec<u8>,
    /// The archive as it was written.
    mended: Vec<u8>,
    pairs: Vec<(u32, u32)>,
}

impl<'m> List<'m> {
    pub fn new(library: &'m dyn Machine, source: u64) -> List<'m> {
        let both = Both::new(library, FRAMES, source);
        List { both, archive: Vec::new(), mended: Vec::new(), pairs: Vec::new() }
    }

    pub fn tally(&self) -> Tally {
        self.both.tally
    }

    pub fn make(&mut self, event: &Event) -> Result<(), String> {
        match *event {
            Event::Make(call) => return self.call(&call),
            Event::Alter { at, value } => self.archive.iter_mut().skip(at).take(1).for_each(|byte| *byte = value),
            Event::Resize(len) => self.archive.resize(len, 0),
            Event::Mend => self.archive.clone_from(&self.mended),
        }
        Ok(())
    }

    /// What an accepted start or add wrote is the archive from then on.
    fn call(&mut self, call: &Call) -> Result<(), String> {
        let reply = Length::from(self.both.make(&self.archive, call)?);
        match (reply.refusal, call) {
            (0, Call::Start { .. }) => self.pairs.clear(),
            (0, Call::Add { fields, .. }) => self.pairs.push((fields.bench, fields.number)),
            _ => return Ok(()),
        }
        self.mended = self.both.room(reply.length as usize).to_vec();
        self.archive.clone_from(&self.mended);
        Ok(())
    }

    /// Makes up the next event.
    pub fn next(&self, rng: &mut Rng) -> Event {
        if self.mended.is_empty() {
            return Event::Make(Call::Start { room: rng.pick(&[19, 20, 20, 21, 100]) });
        }
        if self.archive != self.mended && rng.once_in(3) {
            return Event::Mend;
        }
        let k = rng.below(self.pairs.len() as u64 + 2) as u32;
        let (bench, number) = self.some_pair(rng);
        match rng.below(24) {
            0 => Event::Make(Call::Start { room: rng.below(40) as usize }),
            1..=9 => Event::Make(self.some_add(rng)),
            10..=12 => Event::Make(Call::Find { bench, number }),
            13..=14 => Event::Make(Call::Entry { k: rng.pick(&[k, k, k, 1_000, u32::MAX]) }),
            15..=18 => Event::Make(Call::Read { k, picture: some_picture(rng) }),
            19 => Event::Make(Call::Count),
            20..=22 => self.some_damage(rng),
            _ => {
                let (len, short) = (self.archive.len(), rng.below(30) as usize);
                Event::Resize(rng.pick(&[len.saturating_sub(1), len + 1, len + 16, len / 2, HEADER, short]))
            }
        }
    }

    /// A pair that is there as often as not.
    fn some_pair(&self, rng: &mut Rng) -> (u32, u32) {
        if !self.pairs.is_empty() && rng.once_in(2) {
            return rng.pick(&self.pairs);
        }
        let benches = [0, 1, 2, 255, 256, 65_535, 65_535, 65_536, 65_537, u32::MAX];
        let numbers = [0, 1, 65_536, u32::MAX, rng.word() as u32];
        (rng.pick(&benches), rng.pick(&numbers))
    }

    fn some_add(&self, rng: &mut Rng) -> Call {
        let right = length(self.pairs.len() + 1);
        let (bench, number) = match rng.below(4) {
            0 => self.some_pair(rng),
            _ => (1 + rng.below(3) as u32, rng.word() as u32),
        };
        let shown = rng.pick(&[200, 200, 200, 256, 256, 256, 255, 199, 0, 65_736]);
        let rooms = [right, right, right + 1, right - 1, right + 30, self.both.most_room(), 0];
        let room = rng.pick(&rooms).min(self.both.most_room());
        let from = rng.below(SHIFTS as u64) as usize;
        Call::Add { fields: Fields::new(bench, number, shown), picture: some_picture(rng), from, room }
    }

    /// A byte of the header, of an entry or of a picture altered; some archives stay sound.
    fn some_damage(&self, rng: &mut Rng) -> Event {
        let n = self.pairs.len();
        let k = rng.below(n.max(1) as u64) as usize;
        let at = match rng.below(4) {
            0 => rng.below(HEADER as u64) as usize,
            1 => entry_at(k) + rng.below(16) as usize,
            2 => picture_at(n, k) + rng.pick(&[199, 200, 230, 255]) * LINE_BYTES + rng.pick(&[0, LINE_BYTES - 1]),
            _ => rng.below(self.archive.len().max(1) as u64) as usize,
        };
        let old = self.archive.get(at).copied().unwrap_or(0);
        let any = rng.byte();
        let value = rng.pick(&[old.wrapping_add(1), old ^ 0x80, 0, 0xFF, any]);
        Event::Alter { at, value }
    }
}

fn some_picture(rng: &mut Rng) -> usize {
    rng.pick(&[PICTURE, PICTURE, PICTURE, PICTURE, PICTURE, PICTURE, PICTURE - 1, PICTURE + 1, 0])
}
