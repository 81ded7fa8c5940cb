//! Stands in for the linked library in the differential test: the model, sound or with one fault put in on purpose, to
//! see that the test finds it.

use crate::machine::{Machine, Model};
use crate::model::{self, archive_fast, BoardRules, LineSets, Packed};
use crate::standin_archive::FaultyArchives;
use crate::standin_faults::{Fault, ARCHIVE_FAULTS};
use crate::standin_picture::{spoil, starting_in_block_of};
use joyce::archive::Fields;
use joyce::{Access, Answer, Board, Drawn, Lines, PowerOn, Reply, StepNumbers, BLOCK, LINE_BYTES, ROUTE_NMI};

/// The faults of the board, numbered from 1; those of archives follow.
pub const BOARD_FAULTS: [&str; 19] = [
    "reading F8 clears the counter",
    "lock bits in bank order",
    "pixel bytes follow each other with no gap of eight",
    "a store through a split map makes lines of the read block dirty",
    "reverse is ignored while the screen is off",
    "keyboard words make no line dirty",
    "the tick comes at another beam",
    "NMI is shown twice",
    "a made-up redraw count",
    "refresh leaves a line",
    "refusal 3 is checked before 2",
    "an unshown line is drawn",
    "a store of an equal byte makes lines dirty",
    "a store into the table makes no line dirty",
    "a pixel byte past the end of the block makes no line dirty",
    "reset keeps boot.at",
    "a line wraps in its block",
    "block 7 runs on into block 8",
    "a line is cut at the end of block 7",
];

/// All faults, the first of them number 1.
pub fn faults() -> Vec<&'static str> {
    BOARD_FAULTS.iter().copied().chain(ARCHIVE_FAULTS.iter().map(|fault| fault.1)).collect()
}

/// The stand-in; fault 0 is none.
pub struct Faulty(pub u8);

impl Machine for Faulty {
    fn version(&self) -> u32 {
        Model.version()
    }

    fn power_on(&self, board: &mut Board, on: &PowerOn) -> Reply {
        Model.power_on(board, on)
    }

    fn step(&self, board: &mut Board, step: StepNumbers, ram: &mut [u8], boot: &[u8]) -> Reply {
        match self.0 {
            2 => bank_order_locks(board, step, ram, boot),
            11 if board.good() && model::decoded(step.kind, step.number, step.value).is_none() => {
                Answer { int: board.int(), refusal: 3, ..Answer::default() }.packed()
            }
            1 | 4 | 6 | 7 | 8 | 13 | 14 | 15 | 16 => self.altered_step(board, step, ram, boot),
            _ => Model.step(board, step, ram, boot),
        }
    }

    fn draw(&self, board: &Board, ram: &[u8], picture: &mut [u8]) -> Reply {
        let reply = Model.draw(board, ram, picture);
        if reply.refusal() == 0 {
            spoil(self.0, board, &board.shown(), ram, picture);
        }
        reply
    }

    fn refresh(&self, board: &mut Board, ram: &[u8], picture: &mut [u8]) -> Reply {
        let dirty = board.dirty;
        let last = if self.0 == 10 { (0..=255).rev().find(|&line| dirty.has(line)) } else { None };
        let kept = if self.0 == 10 { picture.to_vec() } else { Vec::new() };
        let reply = Model.refresh(board, ram, picture);
        if reply.refusal() != 0 {
            return reply;
        }
        spoil(self.0, board, &dirty, ram, picture);
        match (self.0, last) {
            (9, _) => Drawn { count: reply.value().min(255), ..reply.into() }.packed(),
            (10, Some(line)) => {
                let at = line as usize * LINE_BYTES;
                picture[at..at + LINE_BYTES].copy_from_slice(&kept[at..at + LINE_BYTES]);
                reply
            }
            _ => reply,
        }
    }

    fn next_dirty(&self, board: &Board, n: u32) -> Reply {
        Model.next_dirty(board, n)
    }

    fn first_difference(&self, a: &[u8], b: &[u8]) -> Reply {
        Model.first_difference(a, b)
    }

    fn widen(&self, line: &[u8], out: &mut [u8]) -> u8 {
        Model.widen(line, out)
    }

    fn make_pointer(&self, block: u32, start: u32) -> Reply {
        Model.make_pointer(block, start)
    }

    fn read_pointer(&self, word: u16) -> Reply {
        Model.read_pointer(word)
    }

    fn roll(&self, old: u8, new: u8) -> i8 {
        Model.roll(old, new)
    }

    fn reach(&self, access: &Access) -> Reply {
        Model.reach(access)
    }

    fn archive_start(&self, room: &mut [u8]) -> Reply {
        match self.archives() {
            None => archive_fast::start(room).packed(),
            Some(faulty) => faulty.start(room).packed(),
        }
    }

    fn archive_count(&self, archive: &[u8]) -> Reply {
        match self.archives() {
            None => archive_fast::count(archive).packed(),
            Some(faulty) => faulty.count(archive).packed(),
        }
    }

    fn archive_entry(&self, archive: &[u8], k: u32) -> Reply {
        match self.archives() {
            None => archive_fast::entry(archive, k).packed(),
            Some(faulty) => faulty.entry(archive, k).packed(),
        }
    }

    fn archive_find(&self, archive: &[u8], bench: u32, number: u32) -> Reply {
        match self.archives() {
            None => archive_fast::find(archive, bench, number).packed(),
            Some(faulty) => faulty.find(archive, bench, number).packed(),
        }
    }

    fn archive_read(&self, archive: &[u8], k: u32, picture: &mut [u8]) -> Reply {
        match self.archives() {
            None => archive_fast::read(archive, k, picture).packed(),
            Some(faulty) => faulty.read(archive, k, picture).packed(),
        }
    }

    fn archive_add(&self, archive: &[u8], fields: Fields, picture: &[u8], room: &mut [u8]) -> Reply {
        match self.archives() {
            None => archive_fast::add(archive, fields, picture, room).packed(),
            Some(faulty) => faulty.add(archive, fields, picture, room).packed(),
        }
    }
}

impl Faulty {
    /// Archives with the fault, if it is one of theirs. A number past the last is none, but of the code that can have
    /// one.
    fn archives(&self) -> Option<FaultyArchives> {
        let index = (self.0 as usize).checked_sub(BOARD_FAULTS.len() + 1)?;
        Some(FaultyArchives(ARCHIVE_FAULTS.get(index).map_or(Fault::Nothing, |fault| fault.0)))
    }

    /// Makes the step soundly, then alters what the fault alters.
    fn altered_step(&self, board: &mut Board, step: StepNumbers, ram: &mut [u8], boot: &[u8]) -> Reply {
        let before = *board;
        let dirty = self.dirty_under_fault(&before, step, ram);
        let reply = Model.step(board, step, ram, boot);
        if reply.refusal() != 0 {
            return reply;
        }
        match (self.0, step.kind) {
            (1, 4) if step.number == 0xF8 => board.clock.counter = 0,
            (4, 3) => {
                let (read, write) = model::blocks(board.sizes, &board.paging, step.number as usize >> 14);
                if read != write && before.dirty != board.dirty {
                    let at = read as usize * BLOCK + (step.number as usize & 0x3FFF);
                    board.dirty = before.dirty.or(&model::touched_lines(&before, ram, at));
                }
            }
            (6, 7) => board.dirty = before.dirty,
            (7, 6) => {
                let tick = board.clock.beam % 52 == 3;
                board.clock.counter = (before.clock.counter + tick as u8).min(15);
            }
            (8, _) if reply.nmi() => board.disc.route = ROUTE_NMI,
            (13, 3) | (13, 7) | (14, 3) | (14, 7) | (15, 3) | (15, 7) => board.dirty = dirty,
            (16, 5) if step.number == 0xF8 && step.value & 15 == 1 => board.boot.at = before.boot.at,
            _ => {}
        }
        Answer { int: board.int(), ..reply.into() }.packed()
    }

    /// The dirty lines after a store, under the faults that alter them.
    fn dirty_under_fault(&self, before: &Board, step: StepNumbers, ram: &[u8]) -> Lines {
        if !before.good() || ram.len() != before.sizes.ram_bytes() {
            return before.dirty;
        }
        let at = match step.kind {
            3 => {
                let (_, block) = model::blocks(before.sizes, &before.paging, step.number as usize >> 14 & 3);
                block as usize * BLOCK + (step.number as usize & 0x3FFF)
            }
            _ => 3 * BLOCK + 0x3FF0 + (step.number as usize & 15),
        };
        let in_table = at.wrapping_sub(model::table_index(&before.video)) < 512;
        let touched = model::touched_lines(before, ram, at);
        let added = match self.0 {
            13 => touched,
            _ if ram[at] as u32 == step.value => Lines::default(),
            14 if in_table => Lines::default(),
            15 if !in_table => touched.and(&starting_in_block_of(before, ram, at)),
            _ => touched,
        };
        before.dirty.or(&added)
    }
}

fn bank_order_locks(board: &mut Board, step: StepNumbers, ram: &mut [u8], boot: &[u8]) -> Reply {
    let lock = board.paging.lock;
    // Bank order would be D7 for C000h down to D4 for 0000h.
    let moved = lock & 0x8F | (lock & 0x40) >> 1 | (lock & 0x20) >> 1 | (lock & 0x10) << 2;
    if !matches!(step.kind, 1 | 2) {
        return Model.step(board, step, ram, boot);
    }
    board.paging.lock = moved;
    let reply = Model.step(board, step, ram, boot);
    board.paging.lock = lock;
    reply
}
