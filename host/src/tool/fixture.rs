//! A board with its memory, ready to be stepped: what the bench times and `joyce stack` measures.

use joyce::{Board, Lines, PowerOn, Sizes, BLOCK, PICTURE};
use joyce_host::machine::{Machine, Model};

/// Where the standard screen has its pointer table: block 2, 3600h.
pub const TABLE: usize = 2 * BLOCK + 0x3600;

#[derive(Clone)]
pub struct Fixture {
    pub board: Board,
    pub ram: Vec<u8>,
    pub picture: Vec<u8>,
    pub boot: Vec<u8>,
}

/// A board with the standard screen, out of boot mode, video on, no line dirty.
pub fn fixture(total: u8) -> Fixture {
    let on = PowerOn {
        sizes: Sizes { internal: 8, total },
        rate: 50,
        maps: [0x83, 0x81, 0x82, 0x80 | (total - 1)],
        lock: 0,
        table: 0x5B,
        top: 0,
    };
    let mut ram: Vec<u8> = (0..total as usize * BLOCK).map(|at| ((at * 31) >> 3) as u8).collect();
    lay_standard_table(&mut ram);
    let mut fixture = Fixture { board: Board::default(), ram, picture: vec![0; PICTURE], boot: vec![0x5A; 1_024] };
    Model.power_on(&mut fixture.board, &on);
    fixture.board.boot.mode = 0;
    fixture.board.video.control = 0x40;
    fixture.board.dirty = Lines::default();
    fixture
}

/// Rows of 720 bytes from block 1, 1930h, on into block 2.
pub fn lay_standard_table(ram: &mut [u8]) {
    lay_table(ram, |line| BLOCK + 0x1930 + line / 8 * 720 + line % 8);
}

/// Lays the pointer table from the index that each line starts at.
pub fn lay_table(ram: &mut [u8], start: impl Fn(usize) -> usize) {
    for line in 0..256 {
        let at = start(line);
        let word = Model.make_pointer((at / BLOCK) as u32, (at % BLOCK) as u32).value();
        let entry = TABLE + 2 * line;
        ram[entry..entry + 2].copy_from_slice(&word.to_le_bytes());
    }
}
