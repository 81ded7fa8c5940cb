//! The nine steps.

use super::memory::blocks;
use super::picture::touched_lines;
use super::{restart, BoardRules, LineSets};
use joyce::{
    Answer, Board, Refusal, Step, StepNumbers, BLOCK, BOOT_MAX, ENABLE, REVERSE, ROUTE_INT, ROUTE_NMI, ROUTE_NONE,
};

/// The step of a kind, number and value; none if one is out of range, or is given where the kind has none.
pub fn decoded(kind: u32, number: u32, value: u32) -> Option<Step> {
    let address = || u16::try_from(number).ok();
    let byte = |n: u32| u8::try_from(n).ok();
    let line = || (number == 0 && value <= 1).then_some(value == 1);
    Some(match kind {
        1 if value == 0 => Step::Fetch(address()?),
        2 if value == 0 => Step::Read(address()?),
        3 => Step::Write(address()?, byte(value)?),
        4 if value == 0 => Step::PortIn(byte(number)?),
        5 => Step::PortOut(byte(number)?, byte(value)?),
        6 if number == 0 && value == 0 => Step::Scan,
        7 => Step::Keyboard(byte(number)?, byte(value)?),
        8 => Step::DiscLine(line()?),
        9 => Step::ExternalLine(line()?),
        _ => return None,
    })
}

/// What a step gives before INT and NMI are added, or its refusal.
type Effect = Result<Outcome, Refusal>;

struct Outcome {
    byte: u8,
    /// Document 01: passed on.
    forwarded: bool,
}

fn done(byte: u8) -> Effect {
    Ok(Outcome { byte, forwarded: false })
}

fn forwarded() -> Effect {
    Ok(Outcome { byte: 0, forwarded: true })
}

/// Makes a step.
pub fn step(board: &mut Board, step: Step, ram: &mut [u8], boot: &[u8]) -> Answer {
    answer(board, Some(step), ram, boot)
}

/// Makes a step given by numbers.
pub fn step_numbers(board: &mut Board, step: StepNumbers, ram: &mut [u8], boot: &[u8]) -> Answer {
    answer(board, decoded(step.kind, step.number, step.value), ram, boot)
}

fn answer(board: &mut Board, step: Option<Step>, ram: &mut [u8], boot: &[u8]) -> Answer {
    if !board.good() {
        return Answer { refusal: Refusal::BAD_RECORD.0, ..Answer::default() };
    }
    let wrong_length = ram.len() != board.sizes.ram_bytes() || boot.len() > BOOT_MAX;
    let effect = match step {
        _ if wrong_length => Err(Refusal::BAD_LENGTH),
        None => Err(Refusal::BAD_NUMBER),
        Some(step) => make(board, step, ram, boot),
    };
    match effect {
        Ok(Outcome { byte, forwarded }) => {
            let nmi = show_nmi(board);
            Answer { byte, int: board.int(), nmi, forwarded, refusal: 0 }
        }
        Err(refusal) => Answer { int: board.int(), refusal: refusal.0, ..Answer::default() },
    }
}

/// Shows NMI once: the route it came by is cut.
fn show_nmi(board: &mut Board) -> bool {
    let nmi = board.disc.route == ROUTE_NMI && board.disc.line == 1;
    if nmi {
        board.disc.route = ROUTE_NONE;
    }
    nmi
}

fn make(board: &mut Board, step: Step, ram: &mut [u8], boot: &[u8]) -> Effect {
    match step {
        Step::Fetch(address) if board.boot.mode == 0 => done(read(board, address, ram)),
        Step::Fetch(_) => boot_fetch(board, boot),
        Step::Read(address) => done(read(board, address, ram)),
        Step::Write(address, value) => {
            let (_, block) = blocks(board.sizes, &board.paging, address as usize >> 14);
            store(board, ram, block, address & 0x3FFF, value)
        }
        Step::PortIn(port) => port_in(board, port),
        Step::PortOut(port, value) => port_out(board, port, value),
        Step::Scan => scan(board),
        Step::Keyboard(offset, _) if offset > 15 => Err(Refusal::BAD_NUMBER),
        Step::Keyboard(offset, value) => store(board, ram, 3, 0x3FF0 + offset as u16, value),
        Step::DiscLine(on) => {
            board.disc.line = on as u8;
            done(0)
        }
        Step::ExternalLine(on) => {
            board.external = on as u8;
            done(0)
        }
    }
}

fn boot_fetch(board: &mut Board, boot: &[u8]) -> Effect {
    let byte = *boot.get(board.boot.at as usize).ok_or(Refusal::STREAM_ENDED)?;
    board.boot.at += 1;
    done(byte)
}

fn read(board: &Board, address: u16, ram: &[u8]) -> u8 {
    let (block, _) = blocks(board.sizes, &board.paging, address as usize >> 14);
    ram[block as usize * BLOCK + (address as usize & 0x3FFF)]
}

/// Stores a byte; an altered one makes the lines that it touches dirty.
fn store(board: &mut Board, ram: &mut [u8], block: u8, place: u16, value: u8) -> Effect {
    let at = block as usize * BLOCK + place as usize;
    if ram[at] != value {
        let touched = touched_lines(board, ram, at);
        board.dirty = board.dirty.or(&touched);
        ram[at] = value;
    }
    done(0)
}

fn status(board: &Board) -> u8 {
    let flyback = if board.clock.beam < 26 { 64 } else { 0 };
    let disc = if board.disc.line == 1 { 32 } else { 0 };
    let rate = if board.is_50_hz() { 16 } else { 0 };
    flyback + disc + rate + board.clock.counter
}

fn port_in(board: &mut Board, port: u8) -> Effect {
    match port {
        0x00 | 0x01 | 0x80..=0xEF | 0xFC | 0xFD => forwarded(),
        0xF4 => {
            let byte = status(board);
            board.clock.counter = 0;
            done(byte)
        }
        0xF8 => done(status(board)),
        _ => Err(Refusal::NO_PORT),
    }
}

fn port_out(board: &mut Board, port: u8, value: u8) -> Effect {
    let before = board.video;
    match port {
        0x01 | 0x80..=0xEF | 0xFC | 0xFD => return forwarded(),
        0xF0..=0xF3 => board.paging.maps[port as usize - 0xF0] = value,
        0xF4 => board.paging.lock = value,
        0xF5 => board.video.table = value,
        0xF6 => board.video.top = value,
        0xF7 => board.video.control = value,
        0xF8 => command(board, value & 15),
        0xFA | 0xFB => {}
        _ => return Err(Refusal::NO_PORT),
    }
    let control = (before.control ^ board.video.control) & (REVERSE | ENABLE);
    if before.table != board.video.table || before.top != board.video.top || control != 0 {
        board.dirty = board.shown();
    }
    done(0)
}

fn command(board: &mut Board, command: u8) {
    match command {
        0 => board.boot.mode = 0,
        1 => restart(board),
        2 => board.disc.route = ROUTE_NMI,
        3 => board.disc.route = ROUTE_INT,
        4 => board.disc.route = ROUTE_NONE,
        5 | 6 => board.disc.terminal_count = (command == 5) as u8,
        7 | 8 => board.driven = (command == 7) as u8,
        9 | 10 => board.disc.motor = (command == 9) as u8,
        11 | 12 => board.bleeper = (command == 11) as u8,
        _ => {}
    }
}

fn scan(board: &mut Board) -> Effect {
    let next = board.clock.beam + 1;
    board.clock.beam = if next == board.frame() { 0 } else { next };
    if board.clock.beam % 52 == 2 {
        board.clock.counter = (board.clock.counter + 1).min(15);
    }
    done(0)
}
