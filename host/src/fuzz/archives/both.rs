//! Library and model side by side on one archive: the whole reply and all lent memory are compared after each call.

use super::call::Call;
use super::Tally;
use crate::fuzz::pair::unequal;
use crate::fuzz::rng::Rng;
use crate::machine::{Machine, Model};
use joyce::archive::length;
use joyce::{Reply, PICTURE};

/// Bytes behind the longest room and picture lent, which nothing may write.
const GUARD: usize = 64;
/// How far into the random bytes a picture to be added may begin.
pub const SHIFTS: usize = 1_024;

/// What one side is lent to write to, some bytes behind the front of an allocation: no address need be a multiple of anything.
#[derive(Clone)]
struct Lent {
    front: usize,
    room: Vec<u8>,
    picture: Vec<u8>,
}

impl Lent {
    fn fill(&mut self, byte: u8) {
        self.room.fill(byte);
        self.picture.fill(byte);
    }

    fn room(&mut self, len: usize) -> &mut [u8] {
        &mut self.room[self.front..self.front + len]
    }

    fn picture(&mut self, len: usize) -> &mut [u8] {
        &mut self.picture[self.front..self.front + len]
    }
}

pub struct Both<'m> {
    library: &'m dyn Machine,
    theirs: Lent,
    ours: Lent,
    /// Pictures to be added are taken from here.
    source: Vec<u8>,
    /// What lent memory is filled with, once something was written to it.
    guard: u8,
    written: bool,
    pub tally: Tally,
}

impl<'m> Both<'m> {
    /// With room for archives of as many frames, and some bytes more. The seed is that of the pictures.
    pub fn new(library: &'m dyn Machine, frames: usize, seed: u64) -> Both<'m> {
        let front = (seed % 4) as usize;
        let (room, picture) = (length(frames) + 2 * GUARD, PICTURE + 1 + GUARD);
        let lent = Lent { front, room: vec![0; front + room], picture: vec![0; front + picture] };
        let mut source = vec![0; PICTURE + 1 + SHIFTS];
        Rng::new(seed).fill(&mut source);
        let tally = Tally::default();
        Both { library, theirs: lent.clone(), ours: lent, source, guard: 0x5A, written: true, tally }
    }

    /// The longest room that is lent.
    pub fn most_room(&self) -> usize {
        self.ours.room.len() - self.ours.front - GUARD
    }

    /// The front of the room.
    pub fn room(&self, len: usize) -> &[u8] {
        &self.ours.room[self.ours.front..][..len]
    }

    /// Makes a call on both sides; gives the reply, or what differs.
    pub fn make(&mut self, archive: &[u8], call: &Call) -> Result<Reply, String> {
        if std::mem::take(&mut self.written) {
            self.guard = !self.guard;
            self.theirs.fill(self.guard);
            self.ours.fill(self.guard);
        }
        let theirs = perform(self.library, archive, call, &mut self.theirs, &self.source);
        let ours = perform(&Model, archive, call, &mut self.ours, &self.source);
        self.tally.count(ours);
        if theirs != ours {
            return Err(format!("{call}: library {}, model {}", said(theirs), said(ours)));
        }
        self.compare(call, "room", &self.theirs.room, &self.ours.room)?;
        self.compare(call, "picture", &self.theirs.picture, &self.ours.picture)?;
        self.written = ours.refusal() == 0 && call.writes();
        Ok(ours)
    }

    fn compare(&self, call: &Call, what: &str, theirs: &[u8], ours: &[u8]) -> Result<(), String> {
        match unequal(theirs, ours) {
            None => Ok(()),
            Some(at) => {
                let (theirs, ours) = (theirs[at], ours[at]);
                let at = at as i64 - self.ours.front as i64;
                Err(format!("{call}: byte {at} of the {what}: library {theirs:02X}h, model {ours:02X}h"))
            }
        }
    }

    /// Makes several calls; a difference is told with the archive it was found on.
    pub fn make_all(&mut self, archive: &[u8], calls: &[Call], what: impl Fn() -> String) -> Result<(), String> {
        calls.iter().try_for_each(|call| {
            self.make(archive, call).map(|_| ()).map_err(|difference| format!("{}: {difference}", what()))
        })
    }
}

fn perform(machine: &dyn Machine, archive: &[u8], call: &Call, lent: &mut Lent, source: &[u8]) -> Reply {
    match *call {
        Call::Start { room } => machine.archive_start(lent.room(room)),
        Call::Count => machine.archive_count(archive),
        Call::Entry { k } => machine.archive_entry(archive, k),
        Call::Find { bench, number } => machine.archive_find(archive, bench, number),
        Call::Read { k, picture } => machine.archive_read(archive, k, lent.picture(picture)),
        Call::Add { fields, picture, from, room } => {
            machine.archive_add(archive, fields, &source[from..from + picture], lent.room(room))
        }
    }
}

fn said(reply: Reply) -> String {
    format!("{:016X} (refusal {})", reply.0, reply.refusal())
}
