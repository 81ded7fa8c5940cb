//! Scan lines from end to end: every pointer drawn, and stores on both sides of where a line may go wrong.

use super::pair::{unequal, Side};
use super::rng::Rng;
use super::sweep::same;
use crate::machine::{Machine, Model};
use crate::model::{self, STANDARD_RAM};
use joyce::{Board, Lines, PowerOn, Sizes, Step, Video, BLOCK, LINE_BYTES, PICTURE};

/// A board of 9 blocks, so that there is one behind block 7, with its video on; and random bytes in its RAM.
fn start(video: Video) -> Side {
    let on = PowerOn { sizes: Sizes { internal: 8, total: 9 }, rate: 50, ..PowerOn::default() };
    let (mut board, _) = model::power_on(&on);
    board.video = video;
    board.dirty = Lines::default();
    let mut ram = vec![0; board.sizes.ram_bytes()];
    Rng::new(9).fill(&mut ram);
    Side { board, ram, picture: vec![0; PICTURE] }
}

fn lay_table(side: &mut Side, words: impl Iterator<Item = u16>) {
    let table = model::table_index(&side.board.video);
    for (entry, word) in side.ram[table..table + 512].chunks_exact_mut(2).zip(words) {
        entry.copy_from_slice(&word.to_le_bytes());
    }
}

/// Every pointer word drawn, 256 in a picture. Each picture has another F5, so that each is met too, and another top line.
pub fn every_pointer(library: &dyn Machine) -> Result<u64, String> {
    for high in 0..=255u8 {
        let video = Video { table: high.wrapping_mul(37), top: high.wrapping_mul(91), control: 0x40 | high << 7 };
        let mut side = start(video);
        lay_table(&mut side, (0..=255).map(|low| u16::from_be_bytes([high, low])));
        let Side { board, ram, picture: mut theirs } = side;
        let mut ours = vec![0xFF; PICTURE];
        let what = || format!("draw of pointers {high:02X}00h to {high:02X}FFh with {video:02X?}");
        same(what, library.draw(&board, &ram, &mut theirs), Model.draw(&board, &ram, &mut ours))?;
        if let Some(at) = unequal(&theirs, &ours) {
            let (line, byte) = (at / LINE_BYTES, at % LINE_BYTES);
            return Err(format!("{}: line {line}, byte {byte}", what()));
        }
    }
    Ok(256)
}

/// Stores near each line that starts from 3D00h of a block on; all that run over the end of a block are among them.
pub fn block_ends(library: &dyn Machine) -> Result<u64, String> {
    let starts: Vec<usize> = (0..STANDARD_RAM).filter(|at| at % BLOCK >= 0x3D00 && at & 8 == 0).collect();
    let mut calls = 0;
    for some in starts.chunks(256) {
        // The table at block 4, 2000h: no line is near it.
        let mut theirs = start(Video { table: 0x90, top: 0xF3, control: 0x40 });
        lay_table(&mut theirs, some.iter().map(|at| (at / 16 * 8 + at % 8) as u16));
        let mut ours = theirs.clone();
        for at in some.iter().flat_map(|&start| stores_near(start)) {
            let stored = (store(library, &mut theirs, at), store(&Model, &mut ours, at));
            same(|| format!("store at block {}, place {:04X}h", at / BLOCK, at % BLOCK), stored.0, stored.1)?;
            calls += 1;
        }
        if theirs != ours {
            return Err("RAM after stores near the ends of blocks".to_string());
        }
    }
    Ok(calls)
}

/// The first and last bytes of a line and those next to it, and those round the end of its block. What lies past block 7
/// is tried there as well as in block 0.
fn stores_near(start: usize) -> impl Iterator<Item = usize> {
    let end = (start / BLOCK + 1) * BLOCK;
    // The first of its bytes past the end, which need not be one of its 90.
    let past = start + (end - start + 7) / 8 * 8;
    let line = [start - 8, start, start + 8 * 89, start + 8 * 90];
    let round_end = [past - 8, past, past + 8, end - 1, end, end + 1];
    line.into_iter().chain(round_end).flat_map(|at| std::iter::once(at).chain(at.checked_sub(STANDARD_RAM)))
}

/// Alters the byte at an index, no line dirty before; gives the refusal and the record after it.
fn store(machine: &dyn Machine, side: &mut Side, at: usize) -> (u8, Board) {
    side.board.dirty = Lines::default();
    side.board.paging.maps[0] = 0x80 | (at / BLOCK) as u8;
    let step = Step::Write((at % BLOCK) as u16, !side.ram[at]);
    let refusal = machine.step(&mut side.board, step.into(), &mut side.ram, &[]).refusal();
    (refusal, side.board)
}
