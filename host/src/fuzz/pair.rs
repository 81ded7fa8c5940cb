//! Library and model side by side: the same call is made on both and all they leave is compared.

use super::call::{Call, Setup, BOOT_ROOM, PICTURE_ROOM};
use super::fill::filled_ram;
use super::rng::Rng;
use crate::machine::{Machine, Model};
use crate::model::{self, BoardRules};
use joyce::{Board, Reply, BLOCK, LINE_BYTES, PICTURE};

/// One side's record and lent memory.
#[derive(Clone, PartialEq, Eq)]
pub struct Side {
    pub board: Board,
    pub ram: Vec<u8>,
    pub picture: Vec<u8>,
}

pub struct Pair<'m> {
    library: &'m dyn Machine,
    theirs: Side,
    ours: Side,
    boot: Vec<u8>,
    /// Calls between two comparisons of the whole RAM.
    every: u32,
    since: u32,
    pub tally: Tally,
}

/// What the calls met, to see that they reach what they are meant to reach.
#[derive(Clone, Copy, Default)]
pub struct Tally {
    /// Calls by refusal number; 7 counts all others.
    pub refusals: [u64; 8],
    /// Stores that made at least one line dirty.
    pub marking: u64,
    /// Refreshes that drew at least one line.
    pub drawing: u64,
    /// Answers that showed NMI.
    pub nmi: u64,
}

impl Tally {
    pub fn add(&mut self, other: &Tally) {
        for (sum, more) in self.refusals.iter_mut().zip(other.refusals) {
            *sum += more;
        }
        self.marking += other.marking;
        self.drawing += other.drawing;
        self.nmi += other.nmi;
    }
}

impl<'m> Pair<'m> {
    pub fn new(library: &'m dyn Machine, setup: &Setup, every: u32) -> Pair<'m> {
        let mut rng = Rng::new(setup.seed);
        let ram = filled_ram(setup, &mut rng);
        let mut picture = vec![0; PICTURE_ROOM];
        rng.fill(&mut picture);
        let mut boot = vec![0; BOOT_ROOM];
        rng.fill(&mut boot);
        let side = Side { board: Board::default(), ram, picture };
        Pair { library, theirs: side.clone(), ours: side, boot, every, since: 0, tally: Tally::default() }
    }

    pub fn board(&self) -> &Board {
        &self.ours.board
    }

    pub fn ram(&self) -> &[u8] {
        &self.ours.ram
    }

    /// Makes a call on both sides; says what differs, if anything does.
    pub fn make(&mut self, call: &Call) -> Result<(), String> {
        let stored = store_index(&self.ours.board, call);
        let dirty = self.ours.board.dirty.count();
        let theirs = perform(self.library, &mut self.theirs, call, &self.boot);
        let ours = perform(&Model, &mut self.ours, call, &self.boot);
        compare_returned(&theirs, &ours)?;
        self.count(call, &ours, stored.is_some() && self.ours.board.dirty.count() > dirty);
        compare_boards(&self.theirs.board, &self.ours.board)?;
        if let Some(at) = stored {
            let end = self.ours.ram.len();
            self.compare_ram(at.saturating_sub(32).min(end), (at + 32).min(end))?;
        }
        if call.writes_picture() {
            self.compare_pictures()?;
        }
        self.since += 1;
        if self.since >= self.every {
            self.since = 0;
            self.compare_all()?;
        }
        Ok(())
    }

    fn count(&mut self, call: &Call, returned: &Returned, marking: bool) {
        let reply = match returned {
            Returned::Reply(reply) => *reply,
            Returned::Widened(refusal, _) => Reply((*refusal as u64) << 32),
            Returned::Nothing | Returned::Roll(_) => Reply(0),
        };
        self.tally.refusals[reply.refusal().min(7) as usize] += 1;
        self.tally.marking += marking as u64;
        self.tally.drawing += (matches!(call, Call::Refresh { .. }) && reply.value() > 0) as u64;
        self.tally.nmi += reply.nmi() as u64;
    }

    /// Compares RAM and picture from end to end.
    pub fn compare_all(&self) -> Result<(), String> {
        self.compare_ram(0, self.ours.ram.len())?;
        self.compare_pictures()
    }

    fn compare_ram(&self, from: usize, to: usize) -> Result<(), String> {
        match unequal(&self.theirs.ram[from..to], &self.ours.ram[from..to]) {
            None => Ok(()),
            Some(index) => {
                let at = from + index;
                let (block, place) = (at / BLOCK, at % BLOCK);
                let (theirs, ours) = (self.theirs.ram[at], self.ours.ram[at]);
                Err(format!("RAM block {block}, place {place:04X}h: library {theirs:02X}h, model {ours:02X}h"))
            }
        }
    }

    fn compare_pictures(&self) -> Result<(), String> {
        match unequal(&self.theirs.picture, &self.ours.picture) {
            None => Ok(()),
            Some(at) => {
                let (line, byte) = (at / LINE_BYTES, at % LINE_BYTES);
                let (theirs, ours) = (self.theirs.picture[at], self.ours.picture[at]);
                Err(format!("picture line {line}, byte {byte}: library {theirs:02X}h, model {ours:02X}h"))
            }
        }
    }
}

/// Where two runs of bytes of one length differ first.
pub fn unequal(a: &[u8], b: &[u8]) -> Option<usize> {
    if a == b {
        return None;
    }
    a.iter().zip(b).position(|(a, b)| a != b)
}

/// What a call hands back, beside what it leaves in lent memory.
#[derive(PartialEq, Eq, Debug)]
enum Returned {
    Nothing,
    Reply(Reply),
    Widened(u8, Vec<u8>),
    Roll(i8),
}

fn perform(machine: &dyn Machine, side: &mut Side, call: &Call, boot: &[u8]) -> Returned {
    let Side { board, ram, picture } = side;
    Returned::Reply(match *call {
        Call::PowerOn(ref on) => machine.power_on(board, on),
        Call::Step { step, ram: len, boot: boot_len } => machine.step(board, step, &mut ram[..len], &boot[..boot_len]),
        Call::Draw { ram: len, picture: picture_len } => machine.draw(board, &ram[..len], &mut picture[..picture_len]),
        Call::Refresh { ram: len, picture: picture_len } => {
            machine.refresh(board, &ram[..len], &mut picture[..picture_len])
        }
        Call::NextDirty(n) => machine.next_dirty(board, n),
        Call::MakePointer { block, start } => machine.make_pointer(block, start),
        Call::ReadPointer(word) => machine.read_pointer(word),
        Call::Reach(ref access) => machine.reach(access),
        Call::FirstDifference { a, b, flips, seed } => {
            let (first, second) = two_pictures(flips, seed);
            machine.first_difference(&first[..a], &second[..b])
        }
        Call::Roll(old, new) => return Returned::Roll(machine.roll(old, new)),
        Call::Widen { line, out, seed } => return widened(machine, line, out, seed),
        Call::ReplaceRecord(_) | Call::OverwritePicture { .. } | Call::OverwriteRam { .. } => {
            alter(side, call);
            return Returned::Nothing;
        }
    })
}

/// What the host does between calls.
fn alter(side: &mut Side, call: &Call) {
    match *call {
        Call::ReplaceRecord(record) => side.board = record,
        Call::OverwritePicture { at, len, seed } => Rng::new(seed).fill(&mut side.picture[at..at + len]),
        Call::OverwriteRam { at, value } => side.ram[at] = value,
        _ => {}
    }
}

fn widened(machine: &dyn Machine, line: usize, out: usize, seed: u64) -> Returned {
    let mut rng = Rng::new(seed);
    let (mut narrow, mut wide) = (vec![0; line], vec![0; out]);
    rng.fill(&mut narrow);
    rng.fill(&mut wide);
    let refusal = machine.widen(&narrow, &mut wide);
    Returned::Widened(refusal, wide)
}

fn two_pictures(flips: u8, seed: u64) -> (Vec<u8>, Vec<u8>) {
    let mut rng = Rng::new(seed);
    let mut first = vec![0; PICTURE_ROOM];
    rng.fill(&mut first);
    let mut second = first.clone();
    for _ in 0..flips {
        second[rng.below(PICTURE as u64) as usize] ^= 1 << rng.below(8);
    }
    (first, second)
}

fn compare_returned(theirs: &Returned, ours: &Returned) -> Result<(), String> {
    if theirs == ours {
        return Ok(());
    }
    Err(format!("answer: library {theirs:02X?}, model {ours:02X?}"))
}

fn compare_boards(theirs: &Board, ours: &Board) -> Result<(), String> {
    if theirs == ours {
        return Ok(());
    }
    let differing: Vec<String> = fields(theirs)
        .iter()
        .zip(fields(ours))
        .filter(|(theirs, ours)| theirs.1 != ours.1)
        .map(|(theirs, ours)| format!("{}: library {:X}h, model {:X}h", theirs.0, theirs.1, ours.1))
        .collect();
    Err(format!("record: {}", differing.join("; ")))
}

fn fields(b: &Board) -> [(&'static str, u64); 26] {
    let [m0, m1, m2, m3] = b.paging.maps;
    let [d0, d1, d2, d3] = b.dirty.words;
    let byte = |name, value: u8| (name, value as u64);
    [
        byte("internal", b.sizes.internal),
        byte("total", b.sizes.total),
        byte("rate", b.rate),
        byte("F0", m0),
        byte("F1", m1),
        byte("F2", m2),
        byte("F3", m3),
        byte("lock", b.paging.lock),
        byte("F5", b.video.table),
        byte("F6", b.video.top),
        byte("F7", b.video.control),
        byte("counter", b.clock.counter),
        ("beam", b.clock.beam as u64),
        byte("boot mode", b.boot.mode),
        ("boot at", b.boot.at as u64),
        byte("route", b.disc.route),
        byte("disc line", b.disc.line),
        byte("terminal count", b.disc.terminal_count),
        byte("motor", b.disc.motor),
        byte("external line", b.external),
        byte("driven", b.driven),
        byte("bleeper", b.bleeper),
        ("dirty lines 0 to 63", d0),
        ("dirty lines 64 to 127", d1),
        ("dirty lines 128 to 191", d2),
        ("dirty lines 192 to 255", d3),
    ]
}

/// Where in the RAM a step may store, by the model.
fn store_index(board: &Board, call: &Call) -> Option<usize> {
    let step = match call {
        Call::Step { step, .. } => step,
        _ => return None,
    };
    match step.kind {
        3 if board.good() && step.number <= 0xFFFF => {
            let (_, block) = model::blocks(board.sizes, &board.paging, step.number as usize >> 14);
            Some(block as usize * BLOCK + step.number as usize % BLOCK)
        }
        7 if step.number <= 15 => Some(3 * BLOCK + 0x3FF0 + step.number as usize),
        _ => None,
    }
}
