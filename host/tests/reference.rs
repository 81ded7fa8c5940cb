//! Lists of calls held against a reference (document 01: the slate): what the RAM, the dirty lines, the picture and the
//! counts must be by the rules alone, without the record and without anything a call returned.

use joyce::{Board, PowerOn, Sizes, Step, StepNumbers, BLOCK, LIBRARY, PICTURE};
use joyce_host::fuzz::Rng;
use joyce_host::machine::{Machine, Model};
use std::ops::Range;

/// Sizes, rate, F0 to F7, a RAM of its own and which lines are dirty (document 01: marked).
struct Reference {
    internal: usize,
    total: usize,
    shown: usize,
    f: [u8; 8],
    ram: Vec<u8>,
    dirty: [bool; 256],
    run_on: RunOn,
}

/// How often an altered byte was one of a line that started in the block before, and of one from block 7 in block 0.
#[derive(Clone, Copy, Default, Debug)]
struct RunOn {
    next_block: u32,
    block_0: u32,
}

/// A line's pointer word and where its 90 bytes lie.
fn line_bytes(f: &[u8; 8], ram: &[u8], line: usize) -> (u16, Vec<usize>) {
    let table = (f[5] as usize / 32) * BLOCK + 512 * (f[5] as usize % 32);
    let entry = table + 2 * ((f[6] as usize + line) % 256);
    let w = ram[entry] as usize + 256 * ram[entry + 1] as usize;
    let (block, v) = (w / 8_192, w % 8_192);
    let start = 16 * (v / 8) + v % 8;
    (w as u16, (0..90).map(|i| (block * BLOCK + start + 8 * i) % 131_072).collect())
}

impl Reference {
    fn write_block(&self, bank: usize) -> usize {
        let m = self.f[bank] as usize;
        let e = m % 128;
        match (m >= 128, e < self.total) {
            (true, true) => e,
            (true, false) => e % self.internal,
            (false, _) => m % 8,
        }
    }

    /// What document 01's table refuses, from a step and the lengths of RAM and boot stream.
    fn refusal(&self, step: &StepNumbers, ram_len: usize, boot_len: usize) -> u8 {
        match (step.kind, step.number) {
            _ if ram_len != self.total * BLOCK || boot_len > 1_024 => 2,
            (7, 16..) => 3,
            (4, 0 | 1 | 0x80..=0xEF | 0xF4 | 0xF8 | 0xFC | 0xFD) => 0,
            (5, 1 | 0x80..=0xEF | 0xF0..=0xF8 | 0xFA..=0xFD) => 0,
            (4 | 5, _) => 5,
            _ => 0,
        }
    }

    fn step(&mut self, step: &StepNumbers) {
        let (before, before_ram) = (self.f, self.ram.clone());
        match (step.kind, step.number as usize, step.value as u8) {
            (5, 0xF8, value) if value % 16 == 1 => self.f[7] = 0,
            (5, 0xF8, _) => {}
            (5, port @ 0xF0..=0xF7, value) => self.f[port - 0xF0] = value,
            (3, address, value) => {
                let at = self.write_block(address / BLOCK) * BLOCK + address % BLOCK;
                self.ram[at] = value;
            }
            (7, offset, value) => self.ram[3 * BLOCK + 0x3FF0 + offset] = value,
            _ => {}
        }
        for line in 0..self.shown {
            let (word, bytes) = line_bytes(&before, &before_ram, line);
            let (new_word, _) = line_bytes(&self.f, &self.ram, line);
            let altered = bytes.iter().find(|&&at| before_ram[at] != self.ram[at]);
            if let Some(at) = altered {
                self.run_on.next_block += (at / BLOCK == bytes[0] / BLOCK + 1) as u32;
                self.run_on.block_0 += (at / BLOCK == 0 && bytes[0] / BLOCK == 7) as u32;
            }
            self.dirty[line] |= before[5] != self.f[5]
                || before[6] != self.f[6]
                || (before[7] ^ self.f[7]) & 0xC0 != 0
                || word != new_word
                || altered.is_some();
        }
    }

    /// The count, and the shown lines as they must be drawn.
    fn refresh(&mut self) -> (u16, Vec<u8>) {
        let count = self.dirty.iter().filter(|&&dirty| dirty).count() as u16;
        self.dirty = [false; 256];
        let mut picture = Vec::new();
        for line in 0..self.shown {
            for at in line_bytes(&self.f, &self.ram, line).1 {
                let byte = if self.f[7] & 0x40 != 0 { self.ram[at] } else { 0 };
                picture.push(if self.f[7] & 0x80 != 0 { !byte } else { byte });
            }
        }
        (count, picture)
    }
}

/// The address of an index, by a bank that is mapped to its block for writing if there is one.
fn address_of(reference: &Reference, at: usize, other_bank: usize) -> u16 {
    let bank = (0..4).find(|&bank| reference.write_block(bank) == at / BLOCK).unwrap_or(other_bank);
    (bank * BLOCK + at % BLOCK) as u16
}

fn random_step(rng: &mut Rng, reference: &Reference) -> Step {
    let (a, b, c) = (rng.byte(), rng.byte(), rng.byte());
    let line = line_bytes(&reference.f, &reference.ram, a as usize).1;
    let near = address_of(reference, line[b as usize % 90], c as usize % 4);
    let table = 512 * (reference.f[5] as usize % 32) + 2 * a as usize + BLOCK * (c as usize % 4);
    match rng.below(14) {
        0..=3 => Step::Write(near, b & 3),
        4..=5 => Step::Write(table as u16, b),
        6 => Step::Write(a as u16 * 256 + b as u16, c),
        7 => Step::Keyboard(a % 17, b),
        8 => Step::PortOut(0xF0 + a % 5, b),
        9 if a < 64 => Step::PortOut(0xF5 + a % 3, b),
        9 | 10 => Step::PortOut(a, b),
        11 => Step::PortOut(0xF8, a),
        12 => Step::PortIn(a),
        _ => rng.pick(&[Step::Scan, Step::Fetch(1), Step::Read(2), Step::DiscLine(true), Step::ExternalLine(false)]),
    }
}

/// A reference and a board just powered on. `ends` has every line start near the end of a block, many of them of block 7.
fn powered_on(machine: &dyn Machine, rng: &mut Rng, ends: bool) -> (Reference, Board) {
    let (rate, total) = (rng.pick(&[50, 60]), rng.pick(&[8, 9]));
    let mut ram = vec![0; total as usize * BLOCK];
    rng.fill(&mut ram);
    let mut f = [rng.byte(), rng.byte(), rng.byte(), rng.byte(), rng.byte(), rng.pick(&[0x7F, 0x5B]), rng.byte(), 0];
    if ends {
        // Block 0, where lines from block 7 run on, can be written at once.
        f[0] = 0x80;
        let table = &mut ram[f[5] as usize * 512..][..512];
        table.chunks_exact_mut(2).for_each(|word| word[1] |= rng.pick(&[0x1E, 0x1E, 0xFE]));
    }
    let on = PowerOn {
        sizes: Sizes { internal: 8, total },
        rate,
        maps: [f[0], f[1], f[2], f[3]],
        lock: f[4],
        table: f[5],
        top: f[6],
    };
    let mut board = Board::default();
    assert_eq!(machine.power_on(&mut board, &on).refusal(), 0);
    let shown = if rate == 50 { 256 } else { 200 };
    let dirty = std::array::from_fn(|line| line < shown);
    (Reference { internal: 8, total: total as usize, shown, f, ram, dirty, run_on: RunOn::default() }, board)
}

/// A list of calls under way, with the reference beside it.
struct Run<'m> {
    machine: &'m dyn Machine,
    rng: Rng,
    reference: Reference,
    board: Board,
    ram: Vec<u8>,
    picture: Vec<u8>,
    /// The picture at the start; its unshown lines stay.
    start: Vec<u8>,
}

impl Run<'_> {
    fn refresh(&mut self, at: &str) {
        let ram_len = self.ram.len() - self.rng.once_in(9) as usize;
        let picture_len = PICTURE - self.rng.once_in(9) as usize;
        let reply = self.machine.refresh(&mut self.board, &self.ram[..ram_len], &mut self.picture[..picture_len]);
        if (ram_len, picture_len) == (self.ram.len(), PICTURE) {
            let (count, lines) = self.reference.refresh();
            assert_eq!((reply.refusal(), reply.value()), (0, count), "{at}");
            assert_eq!(self.picture[..lines.len()], lines, "{at}");
        } else {
            assert_eq!((reply.refusal(), reply.value()), (2, 0), "{at}");
        }
    }

    fn step(&mut self, at: &str) {
        let step = StepNumbers::from(random_step(&mut self.rng, &self.reference));
        let ram_len = self.ram.len() - self.rng.once_in(20) as usize;
        let boot_len = self.rng.pick(&[0, 1, 700, 1_023, 1_024, 1_024, 1_025]);
        let reply = self.machine.step(&mut self.board, step, &mut self.ram[..ram_len], &[7; 1_025][..boot_len]);
        let refusal = self.reference.refusal(&step, ram_len, boot_len);
        // A boot stream that has run out meets fetches only, and they change nothing here.
        if !(step.kind == 1 && refusal == 0 && reply.refusal() == 4) {
            assert_eq!(reply.refusal(), refusal, "{at}: {step:?}");
        }
        if refusal == 0 {
            self.reference.step(&step);
        }
    }

    /// Goes on with record and RAM as they were kept, and with another picture: it is drawn once.
    fn resume(&mut self, at: &str) {
        let kept = (self.board, self.ram.clone());
        self.board = Board::default();
        self.ram.fill(0);
        (self.board, self.ram) = kept;
        self.rng.fill(&mut self.picture);
        self.start = self.picture.clone();
        assert_eq!(self.machine.draw(&self.board, &self.ram, &mut self.picture).refusal(), 0, "{at}");
    }

    fn agrees(&self, at: &str) {
        assert!(self.ram == self.reference.ram, "{at}: RAM");
        let dirty: [bool; 256] = std::array::from_fn(|line| self.board.dirty.has(line as u8));
        assert_eq!(dirty, self.reference.dirty, "{at}");
        let unshown = self.reference.shown * 90;
        assert!(self.picture[unshown..] == self.start[unshown..], "{at}: unshown lines");
    }
}

fn run_list(machine: &dyn Machine, seed: u64, calls: usize) -> RunOn {
    let mut rng = Rng::new(seed);
    let (reference, board) = powered_on(machine, &mut rng, seed % 2 == 1);
    let ram = reference.ram.clone();
    let mut picture = vec![0; PICTURE];
    rng.fill(&mut picture);
    let mut run = Run { machine, rng, reference, board, ram, start: picture.clone(), picture };
    for call in 0..calls {
        let at = format!("seed {seed}, call {call}");
        match run.rng.below(30) {
            0..=4 => run.refresh(&at),
            5 => run.resume(&at),
            _ => run.step(&at),
        }
        run.agrees(&at);
    }
    run.reference.run_on
}

/// Runs lists; stores past the ends of blocks must have been among them.
fn run_lists(machine: &dyn Machine, seeds: Range<u64>) {
    let run_on: Vec<RunOn> = seeds.map(|seed| run_list(machine, seed, 150)).collect();
    let next_block: u32 = run_on.iter().map(|met| met.next_block).sum();
    let block_0: u32 = run_on.iter().map(|met| met.block_0).sum();
    println!("lines run on: {next_block} into the next block, {block_0} into block 0");
    assert!(next_block > 50 && block_0 > 50);
}

#[test]
fn the_model_keeps_to_the_reference() {
    run_lists(&Model, 0..48);
}

#[test]
fn the_library_keeps_to_the_reference() {
    run_lists(&LIBRARY, 100..148);
}

/// Ticks landed = counts read + the counter now + ticks lost at 15 + counts that a reset threw away.
#[test]
fn no_tick_goes_missing() {
    let mut rng = Rng::new(3);
    let on = PowerOn { sizes: Sizes { internal: 8, total: 8 }, rate: 50, ..PowerOn::default() };
    let (mut board, mut ram) = (Board::power_on(&on).expect("powered on"), vec![0; 8 * BLOCK]);
    let (mut beam, mut ticks_landed, mut counts_read, mut ticks_lost, mut counts_reset) = (0, 0u32, 0, 0, 0);
    for _ in 0..200_000 {
        let counter = board.clock.counter as u32;
        let step = match rng.below(2_000) {
            0..=3 => Step::PortIn(0xF4),
            4 => Step::PortOut(0xF8, 1),
            _ => Step::Scan,
        };
        let answer = board.step(step, &mut ram, &[]).accepted().expect("accepted");
        match step {
            Step::PortIn(_) => counts_read += answer.byte as u32 & 15,
            Step::PortOut(..) => counts_reset += counter,
            _ => {
                beam = (beam + 1) % 312;
                ticks_landed += (beam % 52 == 2) as u32;
                ticks_lost += (beam % 52 == 2 && counter == 15) as u32;
            }
        }
        assert_eq!(ticks_landed, counts_read + board.clock.counter as u32 + ticks_lost + counts_reset);
    }
    assert!(ticks_lost > 0 && counts_reset > 0 && counts_read > 0);
}
