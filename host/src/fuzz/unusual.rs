//! Calls that ought to be refused, and records the board itself would not have made.

use super::call::{Call, BOOT_ROOM, PICTURE_ROOM, RAM_MARGIN};
use super::generate::Generator;
use super::rng::Rng;
use crate::model::{BoardRules, LineSets};
use joyce::{
    Board, Boot, Clock, Disc, Lines, Paging, PowerOn, Sizes, Step, StepNumbers, Video, BLOCK, LINE_BYTES, PICTURE,
    ROUTE_NMI, WIDE_LINE_BYTES,
};

/// A step with a kind, number or value out of range, or given where there is none; a few turn out sound.
pub fn wrong_numbers(generator: &mut Generator) -> Call {
    let rng = &mut generator.rng;
    let kind = rng.pick(&[0, 1, 2, 3, 4, 5, 6, 7, 7, 8, 9, 10, u32::MAX]);
    let edge = [0, 0, 1, 2, 15, 16, 255, 256, 65_535, 65_536, 65_791, u32::MAX];
    let step = StepNumbers::new(kind, rng.pick(&edge), rng.pick(&edge));
    let wrong_too = rng.once_in(4);
    let call = generator.step(step);
    if wrong_too {
        with_wrong_length(generator, call)
    } else {
        call
    }
}

/// A call whose lent memory has the wrong length, or one near it.
pub fn wrong_lengths(generator: &mut Generator) -> Call {
    let rng = &mut generator.rng;
    let near = |rng: &mut Rng, right: usize| rng.pick(&[0, 1, right - 1, right, right + 1]);
    let seed = rng.word();
    let any = (seed >> 8) as u8;
    let ram = generator.right_ram();
    let call = match generator.rng.below(11) {
        0 => {
            return Call::Widen {
                line: near(&mut generator.rng, LINE_BYTES),
                out: near(&mut generator.rng, WIDE_LINE_BYTES),
                seed,
            }
        }
        1 => {
            return Call::FirstDifference {
                a: near(&mut generator.rng, PICTURE),
                b: near(&mut generator.rng, PICTURE),
                flips: 1,
                seed,
            }
        }
        2 => Call::Draw { ram, picture: PICTURE },
        3 => Call::Refresh { ram, picture: PICTURE },
        4 => generator.step(Step::PortOut(any, seed as u8)),
        5 => generator.step(Step::PortIn(any)),
        6 => generator.step(Step::Fetch(seed as u16)),
        7 => generator.step(Step::Scan),
        8 => generator.step(Step::Keyboard(any % 16, seed as u8)),
        9 => generator.step(Step::DiscLine(any > 127)),
        _ => generator.step(Step::Write(seed as u16, any)),
    };
    with_wrong_length(generator, call)
}

fn with_wrong_length(generator: &mut Generator, call: Call) -> Call {
    let right = generator.right_ram();
    let most = generator.setup.ram_bytes() + RAM_MARGIN;
    let rng = &mut generator.rng;
    let lengths = [0, 1, right - BLOCK, right - 1, right + 1, right + BLOCK, rng.below(most as u64) as usize];
    let wrong_ram = rng.pick(&lengths).min(most);
    let wrong_picture = rng.pick(&[0, 1, LINE_BYTES, 200 * LINE_BYTES, PICTURE - 1, PICTURE + 1, PICTURE_ROOM]);
    let wrong_boot = 1_020 + rng.below((BOOT_ROOM - 1_020 + 1) as u64) as usize;
    let which = rng.below(3);
    match call {
        Call::Step { step, ram, boot } => Call::Step {
            step,
            ram: if which != 0 { wrong_ram } else { ram },
            boot: if which != 1 { wrong_boot } else { boot },
        },
        Call::Draw { ram, picture } => Call::Draw {
            ram: if which != 0 { wrong_ram } else { ram },
            picture: if which != 1 { wrong_picture } else { picture },
        },
        Call::Refresh { ram, picture } => Call::Refresh {
            ram: if which != 0 { wrong_ram } else { ram },
            picture: if which != 1 { wrong_picture } else { picture },
        },
        other => other,
    }
}

/// Any good record, mostly one whose RAM is there.
pub fn random_good(generator: &mut Generator) -> Board {
    let on = generator.allowed_power_on();
    let rng = &mut generator.rng;
    let mut board = good_board(rng, &on);
    if rng.once_in(8) {
        board.sizes.total = rng.pick(&[8, 16, 32, 127, 128]).max(board.sizes.internal);
    }
    board
}

/// A good record with what an allowed power-on gives, and all else at random.
pub fn good_board(rng: &mut Rng, on: &PowerOn) -> Board {
    let mut board = Board {
        sizes: on.sizes,
        rate: on.rate,
        paging: Paging { maps: on.maps, lock: on.lock },
        video: Video { table: on.table, top: on.top, control: rng.pick(&[0x40, 0xC0, 0x80, 0]) | rng.byte() & 0x3F },
        boot: Boot { mode: rng.byte() & 1, at: rng.pick(&[0, 1, 777, 1_022, 1_023, 1_024]) },
        disc: Disc {
            route: rng.below(3) as u8,
            line: rng.byte() & 1,
            terminal_count: rng.byte() & 1,
            motor: rng.byte() & 1,
        },
        external: rng.byte() & 1,
        driven: rng.byte() & 1,
        bleeper: rng.byte() & 1,
        ..Board::default()
    };
    let edges = [0, 1, 24, 25, 26, 49, 50, 51, 52, 53, board.frame() - 2, board.frame() - 1];
    board.clock = Clock { counter: rng.pick(&[0, 1, 13, 14, 15]), beam: rng.pick(&edges) };
    board.dirty = random_lines(rng).and(&board.shown());
    if board.disc.route == ROUTE_NMI {
        board.disc.line = 0;
    }
    board
}

fn random_lines(rng: &mut Rng) -> Lines {
    match rng.below(4) {
        0 => Lines::default(),
        1 => Lines::single(rng.byte()),
        2 => Lines::first(rng.below(257) as usize),
        _ => Lines { words: [rng.word() & rng.word(), rng.word() & rng.word(), 0, rng.word()] },
    }
}

/// A good record with one field spoilt, or a record of any bytes.
pub fn damaged(generator: &mut Generator) -> Board {
    let mut board = random_good(generator);
    let rng = &mut generator.rng;
    let any = rng.byte();
    match rng.below(18) {
        0 => board.sizes = Sizes { internal: any, ..board.sizes },
        1 => board.sizes.total = rng.pick(&[0, 7, 129, 255, any]),
        2 => board.rate = rng.pick(&[0, 49, 51, 59, 61, any]),
        3 => board.clock.counter = rng.pick(&[16, 128, any]),
        4 => board.clock.beam = rng.pick(&[259, 260, 311, 312, 65_535]),
        5 => board.boot.mode = rng.pick(&[2, 255, any]),
        6 => board.boot.at = rng.pick(&[1_025, 2_048, 65_535]),
        7 => board.disc.route = rng.pick(&[3, 255, any]),
        8 => board.disc.line = rng.pick(&[2, 255, any]),
        9 => board.disc.terminal_count = rng.pick(&[2, 255, any]),
        10 => board.disc.motor = rng.pick(&[2, 255, any]),
        11 => board.external = rng.pick(&[2, 255, any]),
        12 => board.driven = rng.pick(&[2, 255, any]),
        13 => board.bleeper = rng.pick(&[2, 255, any]),
        14 => board.dirty.words[3] |= 1 << rng.below(64),
        15 => board.dirty.words[3] |= 1 << 8,
        16 => board.disc = Disc { route: ROUTE_NMI, line: 1, ..board.disc },
        _ => board = any_board(rng),
    }
    board
}

/// A record of any bytes.
pub fn any_board(rng: &mut Rng) -> Board {
    let mut b = || rng.byte();
    let mut board = Board {
        sizes: Sizes { internal: b(), total: b() },
        rate: b(),
        paging: Paging { maps: [b(), b(), b(), b()], lock: b() },
        video: Video { table: b(), top: b(), control: b() },
        clock: Clock { counter: b(), beam: 0 },
        boot: Boot { mode: b(), at: 0 },
        disc: Disc { route: b(), line: b(), terminal_count: b(), motor: b() },
        external: b(),
        driven: b(),
        bleeper: b(),
        dirty: Lines::default(),
    };
    board.clock.beam = rng.word() as u16;
    board.boot.at = rng.word() as u16;
    board.dirty = Lines { words: [rng.word(), rng.word(), rng.word(), rng.word()] };
    board
}
