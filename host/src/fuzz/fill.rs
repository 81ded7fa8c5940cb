//! The RAM a list of calls starts from.

use super::call::{Fill, Setup, RAM_MARGIN};
use super::rng::Rng;
use crate::model;
use joyce::BLOCK;

/// What lists start from; some fills come more often.
pub const FILLS: [Fill; 9] = [
    Fill::Random,
    Fill::Random,
    Fill::Standard,
    Fill::Overlap,
    Fill::Overlap,
    Fill::Shared,
    Fill::Ends,
    Fill::Ends,
    Fill::Zero,
];
/// F5 of the tables that the fill `Ends` lays: those that lists turn to, and one that lines from block 7 run on over.
pub const ENDS_TABLES: [u8; 4] = [0x00, 0x5B, 0x60, 0x7F];

pub fn filled_ram(setup: &Setup, rng: &mut Rng) -> Vec<u8> {
    let mut ram = vec![0; setup.ram_bytes() + RAM_MARGIN];
    if setup.fill != Fill::Zero {
        rng.fill(&mut ram);
    }
    match setup.fill {
        Fill::Standard => lay_table(&mut ram, 2 * BLOCK + 0x3600, standard_pointer),
        Fill::Overlap => lay_table(&mut ram, 3 * BLOCK + 0x3E00, |_| {
            // Starts from 3C00h on, so that the 720 bytes run over table and keyboard.
            model::make_pointer(3, 0x3C00 + (rng.below(0x400) as u32 & !8)).word
        }),
        Fill::Shared => {
            let few: Vec<u16> = (0..5).map(|_| rng.word() as u16).collect();
            (0..256).for_each(|table| lay_table(&mut ram, table * 512, |_| rng.pick(&few)));
        }
        Fill::Ends => ENDS_TABLES.iter().for_each(|&table| {
            lay_table(&mut ram, table as usize * 512, |_| {
                let block = if rng.once_in(3) { 7 } else { rng.below(8) as u32 };
                model::make_pointer(block, 0x3D00 + (rng.below(0x300) as u32 & !8)).word
            })
        }),
        Fill::Zero | Fill::Random => {}
    }
    ram
}

fn lay_table(ram: &mut [u8], at: usize, mut pointer: impl FnMut(u32) -> u16) {
    for entry in 0..256 {
        let index = at + 2 * entry;
        ram[index..index + 2].copy_from_slice(&pointer(entry as u32).to_le_bytes());
    }
}

/// Rows of 720 bytes from block 1, 1930h, on into block 2.
fn standard_pointer(entry: u32) -> u16 {
    let at = 0x1930 + entry / 8 * 720;
    model::make_pointer(1 + at / BLOCK as u32, at % BLOCK as u32 + entry % 8).word
}
