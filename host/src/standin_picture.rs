//! Scan lines with one fault put in on purpose, to see that the differential test finds it.

use crate::model::{self, BoardRules, LineSets, STANDARD_RAM};
use joyce::{Board, Lines, BLOCK, ENABLE, LINE_BYTES, REVERSE};

/// Spoils drawn lines as the fault has it.
pub fn spoil(fault: u8, board: &Board, lines: &Lines, ram: &[u8], picture: &mut [u8]) {
    let off = board.video.control & ENABLE == 0;
    match fault {
        3 | 17..=19 if !off => {
            (0..=255).filter(|&line| lines.has(line)).for_each(|line| redraw(fault, board, ram, line, picture))
        }
        5 if off => (0..=255).filter(|&line| lines.has(line)).for_each(|line| {
            let at = line as usize * LINE_BYTES;
            picture[at..at + LINE_BYTES].fill(0);
        }),
        12 if !board.is_50_hz() && lines.has(199) => {
            let at = 200 * LINE_BYTES;
            picture.copy_within(at - LINE_BYTES..at, at);
        }
        _ => {}
    }
}

/// Draws a line from where the fault has its bytes.
fn redraw(fault: u8, board: &Board, ram: &[u8], line: u8, picture: &mut [u8]) {
    let start = line_index(board, ram, line);
    let invert = if board.video.control & REVERSE != 0 { 0xFF } else { 0 };
    let at = line as usize * LINE_BYTES;
    for (i, byte) in picture[at..at + LINE_BYTES].iter_mut().enumerate() {
        *byte = line_byte(fault, ram, start, i) ^ invert;
    }
}

/// Byte i of a line that starts at an index, under a fault.
fn line_byte(fault: u8, ram: &[u8], start: usize, i: usize) -> u8 {
    let at = start + 8 * i;
    match fault {
        3 => ram[(start + i) % STANDARD_RAM],
        17 => ram[start / BLOCK * BLOCK + at % BLOCK],
        // Behind a RAM of 8 blocks there is nothing to run on into.
        18 => ram.get(at).copied().unwrap_or(0),
        19 if at >= STANDARD_RAM => 0,
        _ => ram[at % STANDARD_RAM],
    }
}

/// The lines that start in the block of an index, so that they reach it without running over a block's end.
pub fn starting_in_block_of(board: &Board, ram: &[u8], at: usize) -> Lines {
    (0..=255)
        .filter(|&line| line_index(board, ram, line) / BLOCK == at / BLOCK)
        .fold(Lines::default(), |lines, line| lines.or(&Lines::single(line)))
}

/// The index of a line's first byte.
fn line_index(board: &Board, ram: &[u8], line: u8) -> usize {
    let entry = model::table_index(&board.video) + 2 * board.video.top.wrapping_add(line) as usize;
    let pointer = model::read_pointer(u16::from_le_bytes([ram[entry], ram[entry + 1]]));
    pointer.block as usize * BLOCK + pointer.start as usize
}
