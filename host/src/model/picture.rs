//! Scan lines: where their bytes lie, how they are drawn, and which lines a store touches.

use super::{BoardRules, LineSets, STANDARD_RAM};
use joyce::{Board, Drawn, Lines, Refusal, Video, BLOCK, ENABLE, LINE_BYTES, PICTURE, REVERSE};

/// From the first byte of a line to behind its last, a byte in eight.
const SPAN: usize = 8 * (LINE_BYTES - 1) + 1;

/// The index of the pointer table in the RAM.
pub(crate) fn table_index(video: &Video) -> usize {
    (video.table as usize >> 5) * BLOCK + (video.table as usize & 31) * 512
}

fn table<'a>(video: &Video, ram: &'a [u8]) -> &'a [u8; 512] {
    let at = table_index(video);
    ram[at..at + 512].try_into().expect("512 bytes")
}

/// The pointer word of a line.
fn pointer(video: &Video, table: &[u8; 512], line: u8) -> u16 {
    let entry = 2 * video.top.wrapping_add(line) as usize;
    u16::from_le_bytes([table[entry], table[entry + 1]])
}

/// The index of a line's first byte. The block is the word's top bits, so it needs no part of its own.
fn line_index(word: u16) -> usize {
    16 * (word as usize / 8) + word as usize % 8
}

/// The shown lines that one altered byte touches, by their pointers before the store:
/// as one of their 90 bytes, or as part of their pointer.
pub(crate) fn touched_lines(board: &Board, ram: &[u8], at: usize) -> Lines {
    if at >= STANDARD_RAM {
        return Lines::default();
    }
    let mut entries = entries_showing(table(&board.video, ram), at);
    let into_table = at.wrapping_sub(table_index(&board.video));
    if into_table < 512 {
        entries = entries.or(&Lines::single((into_table / 2) as u8));
    }
    entries.rolled_down(board.video.top).and(&board.shown())
}

/// The entries whose line has a byte at an index of the standard RAM. Eight bytes in a row are of eight lines, so
/// the low three bits must agree; the rest is a distance round the circle of under 90 groups of eight.
fn entries_showing(table: &[u8; 512], at: usize) -> Lines {
    const GROUPS: u16 = (STANDARD_RAM / 8) as u16;
    let (group, low) = ((at / 8) as u16, (at % 8) as u16);
    let mut hits = [0u8; 256];
    for (hit, entry) in hits.iter_mut().zip(table.chunks_exact(2)) {
        let word = u16::from_le_bytes([entry[0], entry[1]]);
        let distance = group.wrapping_sub(2 * (word / 8)) % GROUPS;
        *hit = ((word % 8 == low) & (distance < LINE_BYTES as u16)) as u8;
    }
    gathered(&hits)
}

/// One bit for each byte of 0 or 1. The multiplication takes eight of them at once.
fn gathered(hits: &[u8; 256]) -> Lines {
    let mut words = [0; 4];
    for (index, eight) in hits.chunks_exact(8).enumerate() {
        let bytes = u64::from_le_bytes(eight.try_into().expect("eight bytes"));
        let bits = bytes.wrapping_mul(0x0102_0408_1020_4080) >> 56;
        words[index / 8] |= bits << (index % 8 * 8);
    }
    Lines { words }
}

/// Draws one line into its 90 bytes of the picture.
fn draw_line(video: &Video, ram: &[u8], line: u8, out: &mut [u8; LINE_BYTES]) {
    let invert = if video.control & REVERSE != 0 { 0xFF } else { 0 };
    if video.control & ENABLE == 0 {
        out.fill(invert);
        return;
    }
    let at = line_index(pointer(video, table(video, ram), line));
    if at + SPAN <= STANDARD_RAM {
        let from: &[u8; SPAN] = ram[at..at + SPAN].try_into().expect("a line");
        for (i, byte) in out.iter_mut().enumerate() {
            *byte = from[8 * i] ^ invert;
        }
    } else {
        // From the end of block 7 it runs on into block 0.
        let circle: &[u8; STANDARD_RAM] = ram[..STANDARD_RAM].try_into().expect("eight blocks");
        for (i, byte) in out.iter_mut().enumerate() {
            *byte = circle[(at + 8 * i) % STANDARD_RAM] ^ invert;
        }
    }
}

fn draw_lines(board: &Board, lines: &Lines, ram: &[u8], picture: &mut [u8]) {
    let mut next = lines.next_from(0);
    while let Some(line) = next {
        let at = line as usize * LINE_BYTES;
        let out = (&mut picture[at..at + LINE_BYTES]).try_into().expect("a line");
        draw_line(&board.video, ram, line, out);
        next = if line == 255 { None } else { lines.next_from(line + 1) };
    }
}

/// What a draw or refresh refuses.
fn check(board: &Board, ram: &[u8], picture: &[u8]) -> Result<(), Refusal> {
    if !board.good() {
        Err(Refusal::BAD_RECORD)
    } else if ram.len() != board.sizes.ram_bytes() || picture.len() != PICTURE {
        Err(Refusal::BAD_LENGTH)
    } else {
        Ok(())
    }
}

/// Writes all shown lines.
pub fn draw(board: &Board, ram: &[u8], picture: &mut [u8]) -> Drawn {
    match check(board, ram, picture) {
        Ok(()) => {
            draw_lines(board, &board.shown(), ram, picture);
            Drawn { count: 0, floating: board.driven == 0, refusal: 0 }
        }
        Err(refusal) => Drawn { refusal: refusal.0, ..Drawn::default() },
    }
}

/// Writes the dirty lines and counts them; none is dirty afterwards.
pub fn refresh(board: &mut Board, ram: &[u8], picture: &mut [u8]) -> Drawn {
    match check(board, ram, picture) {
        Ok(()) => {
            let dirty = std::mem::take(&mut board.dirty);
            draw_lines(board, &dirty, ram, picture);
            Drawn { count: dirty.count(), floating: board.driven == 0, refusal: 0 }
        }
        Err(refusal) => Drawn { refusal: refusal.0, ..Drawn::default() },
    }
}
