//! One call of a list, kept as plain values so that a list can be cut down and made again.

use joyce::{Access, Board, PowerOn, StepNumbers, BLOCK, PICTURE};
use std::fmt;

#[derive(Clone, PartialEq, Eq, Debug)]
pub enum Call {
    PowerOn(PowerOn),
    Step {
        step: StepNumbers,
        ram: usize,
        boot: usize,
    },
    Draw {
        ram: usize,
        picture: usize,
    },
    Refresh {
        ram: usize,
        picture: usize,
    },
    NextDirty(u32),
    /// The host hands in this record instead of the one returned.
    ReplaceRecord(Board),
    /// Others write on the picture.
    OverwritePicture {
        at: usize,
        len: usize,
        seed: u64,
    },
    /// The host alters the RAM between calls.
    OverwriteRam {
        at: usize,
        value: u8,
    },
    Widen {
        line: usize,
        out: usize,
        seed: u64,
    },
    /// Two random pictures, the second a copy with some bits flipped.
    FirstDifference {
        a: usize,
        b: usize,
        flips: u8,
        seed: u64,
    },
    MakePointer {
        block: u32,
        start: u32,
    },
    ReadPointer(u16),
    Roll(u8, u8),
    Reach(Access),
}

impl Call {
    pub fn writes_picture(&self) -> bool {
        matches!(self, Call::Draw { .. } | Call::Refresh { .. } | Call::OverwritePicture { .. })
    }
}

/// How the RAM stands before the first call.
#[derive(Clone, Copy, PartialEq, Eq, Debug)]
pub enum Fill {
    Zero,
    Random,
    /// Table at block 2, 3600h, rows of eight lines as the standard software lays them.
    Standard,
    /// Table, pixels and keyboard bytes share memory, at the top of block 3.
    Overlap,
    /// Few different pointers, so that many lines share their bytes.
    Shared,
    /// Lines that start near the end of a block, many of them of block 7.
    Ends,
}

/// What a list of calls starts from.
#[derive(Clone, Copy, PartialEq, Eq, Debug)]
pub struct Setup {
    pub blocks: u8,
    pub fill: Fill,
    pub seed: u64,
}

impl Setup {
    pub fn ram_bytes(&self) -> usize {
        self.blocks as usize * BLOCK
    }
}

impl fmt::Display for Setup {
    fn fmt(&self, f: &mut fmt::Formatter<'_>) -> fmt::Result {
        write!(f, "RAM of {} blocks, filled {:?} from seed {:#x}", self.blocks, self.fill, self.seed)
    }
}

/// Says a step the way the rules do.
fn step_text(step: &StepNumbers) -> String {
    let StepNumbers { kind, number, value } = *step;
    match kind {
        1 => format!("fetch {number:04X}h{}", unused(value)),
        2 => format!("data read {number:04X}h{}", unused(value)),
        3 => format!("data write {number:04X}h, value {value:02X}h"),
        4 => format!("port in {number:02X}h{}", unused(value)),
        5 => format!("port out {number:02X}h, value {value:02X}h"),
        6 => format!("scan{}{}", unused(number), unused(value)),
        7 => format!("keyboard word, offset {number}, value {value:02X}h"),
        8 => format!("disc line {value}{}", unused(number)),
        9 => format!("external line {value}{}", unused(number)),
        _ => format!("kind {kind}, number {number}, value {value}"),
    }
}

fn unused(number: u32) -> String {
    if number == 0 {
        String::new()
    } else {
        format!(" (with {number}, which it does not take)")
    }
}

impl fmt::Display for Call {
    fn fmt(&self, f: &mut fmt::Formatter<'_>) -> fmt::Result {
        match self {
            Call::PowerOn(on) => write!(
                f,
                "power-on: internal {}, total {}, rate {}, maps {:02X?}, lock {:02X}h, F5 {:02X}h, F6 {:02X}h",
                on.sizes.internal, on.sizes.total, on.rate, on.maps, on.lock, on.table, on.top
            ),
            Call::Step { step, ram, boot } => {
                write!(f, "{}; lent RAM {ram}, boot stream {boot}", step_text(step))
            }
            Call::Draw { ram, picture } => write!(f, "draw; lent RAM {ram}, picture {picture}"),
            Call::Refresh { ram, picture } => write!(f, "refresh; lent RAM {ram}, picture {picture}"),
            Call::NextDirty(n) => write!(f, "next dirty line from {n}"),
            Call::ReplaceRecord(board) => write!(f, "record replaced by {board:X?}"),
            Call::OverwritePicture { at, len, seed } => {
                write!(f, "{len} picture bytes from {at} overwritten (seed {seed:#x})")
            }
            Call::OverwriteRam { at, value } => {
                write!(f, "RAM block {}, place {:04X}h overwritten with {value:02X}h", at / BLOCK, at % BLOCK)
            }
            Call::Widen { line, out, seed } => write!(f, "widen {line} bytes to {out} (seed {seed:#x})"),
            Call::FirstDifference { a, b, flips, seed } => {
                write!(f, "first difference of pictures of {a} and {b} bytes, {flips} bits flipped (seed {seed:#x})")
            }
            Call::MakePointer { block, start } => write!(f, "make pointer of block {block}, start {start:04X}h"),
            Call::ReadPointer(word) => write!(f, "read pointer {word:04X}h"),
            Call::Roll(old, new) => write!(f, "roll from {old} to {new}"),
            Call::Reach(access) => write!(f, "reach {access:02X?}"),
        }
    }
}

/// Room behind the picture, to lend it too long.
pub const PICTURE_ROOM: usize = PICTURE + 256;
/// Room behind the RAM, to lend it too long.
pub const RAM_MARGIN: usize = BLOCK + 16;
/// The longest boot stream lent, some of it too long.
pub const BOOT_ROOM: usize = 1_030;
