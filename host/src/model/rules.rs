//! What the rules say of a record, of sizes and of a frame's fields. The crate `joyce` has the plain data only: a rule
//! stands in the proved library, and here a second time.

use joyce::archive::{Fields, MOST_BENCH};
use joyce::{Board, Lines, Sizes, BLOCK, BOOT_MAX, ROUTE_INT, ROUTE_NMI};

/// Bytes in the standard RAM, blocks 0 to 7: a circle to scan lines, and all that they can show.
pub const STANDARD_RAM: usize = 8 * BLOCK;

pub trait SizesRules {
    /// Internal memory is 8, 16 or 32 blocks; total is from internal to 128.
    fn allowed(&self) -> bool;
}

impl SizesRules for Sizes {
    fn allowed(&self) -> bool {
        matches!(self.internal, 8 | 16 | 32) && (self.internal..=128).contains(&self.total)
    }
}

pub trait FieldsRules {
    /// Whether a frame can have these fields.
    fn in_range(&self) -> bool;
}

impl FieldsRules for Fields {
    fn in_range(&self) -> bool {
        (1..=MOST_BENCH).contains(&self.bench) && matches!(self.shown, 200 | 256)
    }
}

pub trait BoardRules {
    fn is_50_hz(&self) -> bool;

    /// The lines that are shown.
    fn shown(&self) -> Lines;

    /// Scans in a frame.
    fn frame(&self) -> u16;

    /// Each field in range, no unshown line dirty, and never route NMI with the disc line on.
    fn good(&self) -> bool;

    /// Whether the INT line stands.
    fn int(&self) -> bool;
}

impl BoardRules for Board {
    fn is_50_hz(&self) -> bool {
        self.rate == 50
    }

    fn shown(&self) -> Lines {
        if self.is_50_hz() {
            Lines { words: [!0; 4] }
        } else {
            Lines { words: [!0, !0, !0, 0xFF] }
        }
    }

    fn frame(&self) -> u16 {
        if self.is_50_hz() {
            312
        } else {
            260
        }
    }

    fn good(&self) -> bool {
        let flags = self.boot.mode
            | self.disc.line
            | self.disc.terminal_count
            | self.disc.motor
            | self.external
            | self.driven
            | self.bleeper;
        self.sizes.allowed()
            && matches!(self.rate, 50 | 60)
            && flags <= 1
            && self.clock.counter <= 15
            && self.clock.beam < self.frame()
            && self.boot.at as usize <= BOOT_MAX
            && self.disc.route <= ROUTE_INT
            && !(self.disc.route == ROUTE_NMI && self.disc.line == 1)
            && !unshown_dirty(self)
    }

    fn int(&self) -> bool {
        self.clock.counter != 0 || self.external == 1 || (self.disc.line == 1 && self.disc.route == ROUTE_INT)
    }
}

/// Whether a line from 200 on is dirty on 60 Hz.
fn unshown_dirty(board: &Board) -> bool {
    !board.is_50_hz() && board.dirty.words[3] >> 8 != 0
}
