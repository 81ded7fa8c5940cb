//! Operations that need no RAM.

use super::{BoardRules, LineSets};
use joyce::{Board, Difference, MadePointer, NextLine, Pointer, Refusal, LINE_BYTES, PICTURE};

/// The first dirty line at or after n.
pub fn next_dirty(board: &Board, n: u32) -> NextLine {
    if !board.good() {
        return NextLine { line: None, refusal: Refusal::BAD_RECORD.0 };
    }
    match u8::try_from(n) {
        Ok(from) => NextLine { line: board.dirty.next_from(from), refusal: 0 },
        Err(_) => NextLine { line: None, refusal: Refusal::BAD_NUMBER.0 },
    }
}

/// The first position where two pictures differ, in reading order.
pub fn first_difference(a: &[u8], b: &[u8]) -> Difference {
    if a.len() != PICTURE || b.len() != PICTURE {
        return Difference { at: None, refusal: Refusal::BAD_LENGTH.0 };
    }
    let mut lines = a.chunks_exact(LINE_BYTES).zip(b.chunks_exact(LINE_BYTES));
    let at = lines.position(|(a, b)| a != b).map(|line| {
        let at = line * LINE_BYTES;
        (line as u8, first_pixel(&a[at..at + LINE_BYTES], &b[at..at + LINE_BYTES]))
    });
    Difference { at, refusal: 0 }
}

/// The first pixel where two lines that differ do so; the leftmost is the top bit.
fn first_pixel(a: &[u8], b: &[u8]) -> u16 {
    let byte = a.iter().zip(b).position(|(a, b)| a != b).expect("the lines differ");
    byte as u16 * 8 + (a[byte] ^ b[byte]).leading_zeros() as u16
}

/// Each byte's pixels twice, the left eight in the high byte.
const DOUBLED: [u16; 256] = doubled();

const fn doubled() -> [u16; 256] {
    let mut table = [0; 256];
    let mut byte = 0;
    while byte < 256 {
        let mut bit = 0;
        while bit < 8 {
            if byte >> bit & 1 == 1 {
                table[byte] |= 3 << (2 * bit);
            }
            bit += 1;
        }
        byte += 1;
    }
    table
}

/// One line for the 1,440-wide panel: each pixel twice. Gives the refusal number.
pub fn widen(line: &[u8], out: &mut [u8]) -> u8 {
    if line.len() != LINE_BYTES || out.len() != 2 * LINE_BYTES {
        return Refusal::BAD_LENGTH.0;
    }
    for (&byte, pair) in line.iter().zip(out.chunks_exact_mut(2)) {
        pair.copy_from_slice(&DOUBLED[byte as usize].to_be_bytes());
    }
    0
}

/// The pointer word of a block and a start.
pub fn make_pointer(block: u32, start: u32) -> MadePointer {
    if block > 7 || start > 16_383 || start & 8 != 0 {
        return MadePointer { word: 0, refusal: Refusal::BAD_NUMBER.0 };
    }
    let word = block << 13 | start >> 4 << 3 | start & 7;
    MadePointer { word: word as u16, refusal: 0 }
}

/// The block and start a pointer word names.
pub fn read_pointer(word: u16) -> Pointer {
    let rest = word & 0x1FFF;
    Pointer { block: (word >> 13) as u8, start: rest >> 3 << 4 | rest & 7 }
}

/// What added to the old top line gives the new one.
pub fn roll(old: u8, new: u8) -> i8 {
    new.wrapping_sub(old) as i8
}
