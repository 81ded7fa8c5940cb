//! Makes up the next call of a list, looking at the model's state to aim at what matters.

use super::call::{Call, Fill, Setup, PICTURE_ROOM, RAM_MARGIN};
use super::fill::{ENDS_TABLES, FILLS};
use super::pair::Pair;
use super::rng::Rng;
use super::unusual;
use crate::model::{self, BoardRules, STANDARD_RAM};
use joyce::{Access, Board, Paging, PowerOn, Sizes, Step, StepNumbers, BLOCK, LINE_BYTES, PICTURE, WIDE_LINE_BYTES};
use std::collections::VecDeque;

pub struct Generator {
    pub rng: Rng,
    pub setup: Setup,
    /// Calls that were decided on together.
    queue: VecDeque<Call>,
    good: Board,
}

impl Generator {
    pub fn new(mut rng: Rng) -> Generator {
        let setup = random_setup(&mut rng);
        let mut generator = Generator { rng, setup, queue: VecDeque::new(), good: Board::default() };
        let on = generator.allowed_power_on();
        generator.queue.push_back(Call::PowerOn(on));
        if !generator.rng.once_in(4) {
            generator.queue_step(Step::PortOut(0xF8, 0));
            generator.queue_step(Step::PortOut(0xF7, 0x40));
        }
        generator
    }

    pub fn next(&mut self, pair: &Pair) -> Call {
        if let Some(call) = self.queue.pop_front() {
            return call;
        }
        let board = pair.board();
        if board.good() && board.sizes.ram_bytes() <= self.setup.ram_bytes() {
            self.good = *board;
        } else if self.good.good() && self.rng.once_in(3) {
            // The record is bad, or its RAM is not there: everything would be refused from here on.
            return Call::ReplaceRecord(self.good);
        }
        // Many dirty lines hide ones that are missing, so they are often cleared.
        if board.dirty.count() > 32 && self.rng.once_in(5) {
            return self.refresh();
        }
        self.any(pair)
    }

    fn any(&mut self, pair: &Pair) -> Call {
        let (board, ram) = (pair.board(), pair.ram());
        match self.rng.below(100) {
            0..=17 => self.store_on_line(board, ram),
            18..=23 => self.store_in_table(board, ram),
            24..=27 => self.random_store(),
            28..=33 => self.keyboard_word(ram),
            34..=38 => self.data_read(),
            39..=43 => self.fetch(board),
            44..=49 => self.port_in(),
            50..=63 => self.port_out(),
            64..=75 => self.scans(),
            76..=79 => self.lines(),
            80..=83 => self.refresh(),
            84 => Call::Draw { ram: self.right_ram(), picture: PICTURE },
            85..=86 => Call::NextDirty(self.rng.below(258) as u32),
            87..=89 => unusual::wrong_numbers(self),
            90..=91 => unusual::wrong_lengths(self),
            92..=93 => Call::ReplaceRecord(unusual::random_good(self)),
            94 => Call::ReplaceRecord(unusual::damaged(self)),
            95 => self.overwrite(),
            96 => self.power_on(),
            _ => self.pure(),
        }
    }

    fn rng_word(&mut self) -> u16 {
        self.rng.word() as u16
    }

    pub fn right_ram(&self) -> usize {
        let wanted = self.good.sizes.ram_bytes();
        if self.good.good() && wanted <= self.setup.ram_bytes() {
            wanted
        } else {
            self.setup.ram_bytes()
        }
    }

    pub fn step(&mut self, step: impl Into<StepNumbers>) -> Call {
        Call::Step { step: step.into(), ram: self.right_ram(), boot: self.rng.below(1_025) as usize }
    }

    fn queue_step(&mut self, step: Step) {
        let call = self.step(step);
        self.queue.push_back(call);
    }

    /// A store at an index of the RAM, by a bank that is mapped there first if none is.
    fn store_at(&mut self, board: &Board, at: usize, value: u8) -> Call {
        let (block, place) = ((at / BLOCK) as u8, (at % BLOCK) as u16);
        let bank = (0..4usize).find(|&bank| model::blocks(board.sizes, &board.paging, bank).1 == block);
        if let Some(bank) = bank {
            return self.step(Step::Write((bank as u16) << 14 | place, value));
        }
        let bank = self.rng.below(4) as u8;
        let split = self.rng.byte() & 0x70 | block;
        let map = if block < 8 && self.rng.once_in(2) { split } else { 0x80 | block };
        self.queue_step(Step::Write((bank as u16) << 14 | place, value));
        self.step(Step::PortOut(0xF0 + bank, map))
    }

    /// A value that is often the one already there, or one bit away from it.
    fn value_near(&mut self, old: u8) -> u8 {
        match self.rng.below(4) {
            0 => old,
            1 => old ^ 1 << self.rng.below(8),
            _ => self.rng.byte(),
        }
    }

    fn store_on_line(&mut self, board: &Board, ram: &[u8]) -> Call {
        if !board.good() {
            return self.random_store();
        }
        let entry = model::table_index(&board.video) + 2 * self.rng.below(256) as usize;
        let pointer = model::read_pointer(u16::from_le_bytes([ram[entry], ram[entry + 1]]));
        let start = pointer.block as usize * BLOCK + pointer.start as usize;
        // The bytes just before and just behind a line are tried too, and those on both sides of its block's end.
        let (any, past) = (self.rng.below(92), ((BLOCK as u64 - pointer.start as u64 + 7) / 8).min(90));
        let i = self.rng.pick(&[0, 1, 71, 72, 88, 89, 90, 16_383, past - 1, past, any, any, any, any]) as usize;
        let stray = if self.rng.once_in(8) { self.rng.below(8) as usize } else { 0 };
        let at = (start + 8 * i + stray) % STANDARD_RAM;
        let value = self.value_near(ram[at]);
        self.store_at(board, at, value)
    }

    fn store_in_table(&mut self, board: &Board, ram: &[u8]) -> Call {
        if !board.good() {
            return self.random_store();
        }
        let at = model::table_index(&board.video) + self.rng.below(512) as usize;
        let value = self.value_near(ram[at]);
        self.store_at(board, at, value)
    }

    fn random_store(&mut self) -> Call {
        let (address, value) = (self.rng_word(), self.rng.byte());
        self.step(Step::Write(address, value))
    }

    fn keyboard_word(&mut self, ram: &[u8]) -> Call {
        let offset = self.rng.below(16) as u8;
        let value = self.value_near(ram[3 * BLOCK + 0x3FF0 + offset as usize]);
        self.step(Step::Keyboard(offset, value))
    }

    fn data_read(&mut self) -> Call {
        let address = self.rng_word();
        self.step(Step::Read(address))
    }

    fn fetch(&mut self, board: &Board) -> Call {
        let at = board.boot.at as usize;
        let boot = match self.rng.below(4) {
            0 => at.min(1_024),
            1 => (at + 1).min(1_024),
            2 => 1_024,
            _ => self.rng.below(1_025) as usize,
        };
        Call::Step { step: Step::Fetch(self.rng_word()).into(), ram: self.right_ram(), boot }
    }

    fn port_in(&mut self) -> Call {
        let any = self.rng.byte();
        let port = self.rng.pick(&[0xF4, 0xF8, 0xF8, any, 0xF0 | any & 15, any & 1]);
        self.step(Step::PortIn(port))
    }

    fn port_out(&mut self) -> Call {
        let (any, value) = (self.rng.byte(), self.rng.byte());
        let top = self.rng.pick(&[value, 0, 1, 255]);
        let table = self.rng.pick(&[0x7F, 0x7F, 0x5B, 0x60, value]);
        let (port, value) = match self.rng.below(16) {
            0..=3 => (0xF0 + any % 4, value),
            4..=5 => (0xF4, value),
            6 => (0xF5, table),
            7 => (0xF6, top),
            8 => (0xF7, self.rng.pick(&[0x40, 0x40, 0xC0, 0x80, 0, value])),
            9..=12 => (0xF8, value),
            13 => (0xF0 | any & 15, value),
            _ => (any, value),
        };
        self.step(Step::PortOut(port, value))
    }

    fn scans(&mut self) -> Call {
        if self.rng.once_in(20) {
            for _ in 0..self.rng.below(60) {
                self.queue_step(Step::Scan);
            }
        }
        self.step(Step::Scan)
    }

    fn lines(&mut self) -> Call {
        let on = self.rng.once_in(2);
        let step = if self.rng.once_in(3) { Step::ExternalLine(on) } else { Step::DiscLine(on) };
        self.step(step)
    }

    fn refresh(&mut self) -> Call {
        Call::Refresh { ram: self.right_ram(), picture: PICTURE }
    }

    /// What the host or others write between calls.
    fn overwrite(&mut self) -> Call {
        if self.rng.once_in(2) {
            let at = self.rng.below((self.setup.ram_bytes() + RAM_MARGIN) as u64) as usize;
            return Call::OverwriteRam { at, value: self.rng.byte() };
        }
        let at = self.rng.below(PICTURE as u64) as usize;
        let len = (self.rng.below(400) as usize).min(PICTURE_ROOM - at);
        Call::OverwritePicture { at, len, seed: self.rng.word() }
    }

    pub fn allowed_power_on(&mut self) -> PowerOn {
        let fitting: Vec<u8> = [8, 16, 32].into_iter().filter(|&size| size <= self.setup.blocks).collect();
        let (table, top) = match self.setup.fill {
            Fill::Standard => (0x5B, 0),
            Fill::Overlap => (0x7F, self.rng.byte()),
            Fill::Ends => (self.rng.pick(&ENDS_TABLES), self.rng.byte()),
            _ => (self.rng.byte(), self.rng.byte()),
        };
        PowerOn {
            sizes: Sizes { internal: self.rng.pick(&fitting), total: self.setup.blocks },
            rate: self.rng.pick(&[50, 60]),
            maps: self.rng.word().to_le_bytes()[..4].try_into().expect("four bytes"),
            lock: self.rng.byte(),
            table,
            top,
        }
    }

    fn power_on(&mut self) -> Call {
        let mut on = self.allowed_power_on();
        match self.rng.below(4) {
            0 => on.sizes.internal = self.rng.byte(),
            1 => on.sizes.total = self.rng.byte(),
            2 => on.rate = self.rng.pick(&[0, 49, 51, 59, 61, 255]),
            _ => {}
        }
        Call::PowerOn(on)
    }

    fn pure(&mut self) -> Call {
        let seed = self.rng.word();
        match self.rng.below(6) {
            0 => Call::MakePointer { block: self.rng.below(9) as u32, start: self.rng.below(16_386) as u32 },
            1 => Call::ReadPointer(seed as u16),
            2 => Call::Roll(seed as u8, (seed >> 8) as u8),
            3 => Call::Widen { line: LINE_BYTES, out: WIDE_LINE_BYTES, seed },
            4 if self.rng.once_in(8) => {
                Call::FirstDifference { a: PICTURE, b: PICTURE, flips: self.rng.byte() & 3, seed }
            }
            _ => Call::Reach(self.access()),
        }
    }

    fn access(&mut self) -> Access {
        let internal = self.rng.pick(&[8, 16, 32]);
        let any = self.rng.byte();
        Access {
            sizes: Sizes { internal, total: self.rng.pick(&[internal, internal + 1, 127, 128, any]) },
            paging: Paging { maps: self.rng.word().to_le_bytes()[..4].try_into().expect("four bytes"), lock: any },
            address: self.rng_word(),
        }
    }
}

fn random_setup(rng: &mut Rng) -> Setup {
    let blocks = match rng.below(64) {
        0 => 128,
        1..=2 => 40,
        3..=8 => 16,
        9..=12 => 9,
        _ => 8,
    };
    Setup { blocks, fill: rng.pick(&FILLS), seed: rng.word() }
}
