//! Values for the parameters of a call that is made up. They go by the names that parameters have in the header: a new name is
//! added here, to `number` or to `bytes`.

use crate::tool::fixture::lay_standard_table;
use joyce::archive::{length, Fields, HEADER, MOST_FRAMES};
use joyce::{Board, PowerOn, Sizes, Step, StepNumbers, BLOCK, BOOT_MAX, LINE_BYTES, PICTURE, WIDE_LINE_BYTES};
use joyce_host::fuzz::{any_board, good_board, Rng};
use joyce_host::model::archive::{written, Frame};
use joyce_host::model::STANDARD_RAM;

/// Archives of fewer frames than this are all there, beside the two largest. How they are looked over goes by their number.
const FEW: usize = 25;
/// The first calls get memory as large as may be, and nothing that does not fit. The others get little, since it is copied.
const LARGE: [usize; 2] = [MOST_FRAMES - 1, MOST_FRAMES];

/// Memory that calls are lent parts of.
pub struct Source {
    /// As much as there may be, with the standard screen's table.
    ram: Vec<u8>,
    /// Of no frame, of one, and so on; then the large ones.
    archives: Vec<Vec<u8>>,
}

/// Bench and number of frame k of an archive.
fn pair(k: usize) -> (u32, u32) {
    (1 + k as u32, 500 + k as u32)
}

impl Source {
    pub fn new(rng: &mut Rng) -> Source {
        let mut ram = vec![0; 128 * BLOCK];
        rng.fill(&mut ram);
        lay_standard_table(&mut ram);
        let frame = |k: usize| {
            let lines = if k % 2 == 0 { 200 } else { 256 };
            Frame { bench: pair(k).0, number: pair(k).1, lines: &ram[k..k + LINE_BYTES * lines] }
        };
        let archive = |frames| written(&(0..frames).map(frame).collect::<Vec<_>>());
        let archives = (0..FEW).chain(LARGE).map(archive).collect();
        Source { ram, archives }
    }
}

/// What the parameters of one call have in common, so that they fit each other.
pub struct Values<'a> {
    source: &'a Source,
    rng: &'a mut Rng,
    large: bool,
    board: Board,
    /// Of a function that takes a kind; of another a number is something else.
    step: Option<StepNumbers>,
    /// Frames of the archive, and which it is.
    frames: usize,
    archive: usize,
    fields: Fields,
    /// Where pictures and lines are taken from the RAM.
    at: usize,
}

impl<'a> Values<'a> {
    /// Those of a function's call, counted from 0.
    pub fn new(source: &'a Source, rng: &'a mut Rng, takes_kind: bool, call: usize) -> Values<'a> {
        let large = call < LARGE.len();
        let on = some_power_on(rng, large);
        let board = good_board(rng, &on);
        let step = takes_kind.then(|| some_step(rng).into());
        let few = rng.pick(&[4, 4, FEW]) as u64;
        let frames = if large { LARGE[call] } else { rng.below(few) as usize };
        let archive = if large { FEW + call } else { frames };
        let there = pair(rng.below(frames.max(1) as u64) as usize);
        let (bench, number) = if rng.once_in(3) { there } else { (1 + rng.below(65_535) as u32, rng.word() as u32) };
        let fields = Fields::new(bench, number, rng.pick(&[200, 256]));
        let at = rng.below(STANDARD_RAM as u64) as usize;
        Values { source, rng, large, board, step, frames, archive, fields, at }
    }

    /// True at times, for a value that does not fit.
    pub fn wrong(&mut self) -> bool {
        !self.large && self.rng.once_in(16)
    }

    pub fn board(&mut self) -> Board {
        if self.wrong() {
            any_board(self.rng)
        } else {
            self.board
        }
    }

    /// A number that fits, if the name is known.
    pub fn number(&mut self, name: &str) -> Option<u64> {
        Some(match name {
            "internal" => self.board.sizes.internal as u64,
            "total" => self.board.sizes.total as u64,
            "rate" => self.board.rate as u64,
            "f0" | "f1" | "f2" | "f3" | "f5" | "f6" | "lock" | "old_top" | "new_top" => self.rng.byte() as u64,
            "word" | "address" => self.rng.below(65_536),
            "kind" => self.step?.kind as u64,
            "number" => self.step.map_or(self.fields.number, |step| step.number) as u64,
            "value" => self.step?.value as u64,
            "n" => self.rng.below(256),
            "k" => self.rng.below(self.frames.max(1) as u64),
            "bench" => self.fields.bench as u64,
            "shown" => self.fields.shown as u64,
            "block" => self.rng.below(8),
            "start" => self.rng.below(BLOCK as u64) & !8,
            _ => return None,
        })
    }

    /// Puts bytes that fit behind others; false if the name is not known.
    pub fn bytes(&mut self, name: &str, bytes: &mut Vec<u8>) -> bool {
        let (ram, at) = (&self.source.ram, self.at);
        match name {
            "ram" => bytes.extend(&ram[..self.board.sizes.ram_bytes()]),
            "boot" => bytes.extend(&ram[at..at + self.rng.below(BOOT_MAX as u64 + 1) as usize]),
            "picture" | "a" | "b" => bytes.extend(&ram[at..at + PICTURE]),
            "line" => bytes.extend(&ram[at..at + LINE_BYTES]),
            "out" => bytes.extend(&ram[at..at + WIDE_LINE_BYTES]),
            "archive" => bytes.extend(&self.source.archives[self.archive]),
            "room" => bytes.resize(bytes.len() + length(self.frames + 1) + self.rng.below(2) as usize, 0),
            _ => return false,
        }
        // Pictures that are equal but for one byte, and RAMs with another pointer or pixel.
        if matches!(name, "b" | "ram") && self.rng.once_in(2) {
            self.alter(bytes);
        }
        true
    }

    /// Any number.
    pub fn any_number(&mut self) -> u64 {
        let any = self.rng.word();
        let edges = [0, 1, 2, 7, 8, 15, 16, 89, 90, 127, 128, 199, 200, 255, 256, 1_023, 1_024, 16_384, 65_535, 65_536];
        let edge = self.rng.pick(&edges);
        self.rng.pick(&[edge, edge, any & 0xFF, any & 0xFFFF, any & 0xFFFF_FFFF, any])
    }

    /// Puts any bytes behind others: an archive, sound or not, or some of a length that the interface has, or one near it.
    pub fn any_bytes(&mut self, bytes: &mut Vec<u8>) {
        const LENGTHS: [usize; 9] =
            [0, 8, HEADER, LINE_BYTES, WIDE_LINE_BYTES, BOOT_MAX, PICTURE, STANDARD_RAM, 16 * BLOCK];
        let (right, archive) = (self.rng.pick(&LENGTHS), self.rng.below(4) as usize);
        match self.rng.below(8) {
            0..=1 => bytes.extend(&self.source.archives[archive]),
            2 => {
                bytes.extend(&self.source.archives[archive]);
                self.alter(bytes);
            }
            3 => bytes.extend(&self.source.ram[..right.saturating_sub(1)]),
            4 => bytes.extend(&self.source.ram[..right + 1]),
            _ => bytes.extend(&self.source.ram[..right]),
        }
    }

    /// Alters a byte, one in three times one of the first.
    fn alter(&mut self, bytes: &mut [u8]) {
        let near = if self.rng.once_in(3) { bytes.len().min(HEADER + 64) } else { bytes.len() };
        let at = self.rng.below(near as u64) as usize;
        bytes[at] ^= 1 << self.rng.below(8);
    }

    /// Where bytes are lent from: mostly not from the start of an allocation, so that addresses of every kind come.
    pub fn shift(&mut self) -> usize {
        self.rng.below(16) as usize
    }
}

/// Sizes that are allowed, mostly small.
fn some_power_on(rng: &mut Rng, large: bool) -> PowerOn {
    let total = match rng.below(64) {
        _ if large => 128,
        0..=2 => 8 + rng.below(121) as u8,
        3..=8 => 9 + rng.below(8) as u8,
        _ => 8,
    };
    let fitting: Vec<u8> = [8, 16, 32].into_iter().filter(|&internal| internal <= total).collect();
    let any = rng.byte();
    PowerOn {
        sizes: Sizes { internal: rng.pick(&fitting), total },
        rate: rng.pick(&[50, 60]),
        maps: rng.word().to_le_bytes()[..4].try_into().expect("four bytes"),
        lock: rng.byte(),
        table: rng.pick(&[0x5B, any]),
        top: rng.byte(),
    }
}

fn some_step(rng: &mut Rng) -> Step {
    let (address, byte, on) = (rng.word() as u16, rng.byte(), rng.once_in(2));
    let port = rng.pick(&[byte, 0xF0 | byte & 15, 0xF0 | byte & 15]);
    match rng.below(14) {
        0 => Step::Fetch(address),
        1 => Step::Read(address),
        2..=4 => Step::Write(address, byte),
        5..=6 => Step::PortIn(port),
        7..=9 => Step::PortOut(port, address as u8),
        10 => Step::Scan,
        11 => Step::Keyboard(byte & 15, address as u8),
        12 => Step::DiscLine(on),
        _ => Step::ExternalLine(on),
    }
}
