//! How a reply carries an answer, from include/joyce.h: a second reading of it, as the rest of the model is.

use joyce::archive::{Count, Entry, Found, Length};
use joyce::{Answer, Difference, Drawn, MadePointer, NextLine, Pointer, Reach, Reply};

/// An answer that a reply can carry.
pub trait Packed {
    fn packed(self) -> Reply;
}

const INT: u32 = 16;
const NMI: u32 = 17;
const FORWARDED: u32 = 18;
const FLOATING: u32 = 19;
const FOUND: u32 = 20;

fn flag(on: bool, at: u32) -> u64 {
    (on as u64) << at
}

fn refused(refusal: u8) -> u64 {
    (refusal as u64) << 32
}

impl Packed for Answer {
    fn packed(self) -> Reply {
        let lines = flag(self.int, INT) | flag(self.nmi, NMI);
        Reply(self.byte as u64 | lines | flag(self.forwarded, FORWARDED) | refused(self.refusal))
    }
}

impl Packed for Drawn {
    fn packed(self) -> Reply {
        Reply(self.count as u64 | flag(self.floating, FLOATING) | refused(self.refusal))
    }
}

impl Packed for NextLine {
    fn packed(self) -> Reply {
        let line = self.line.unwrap_or(0) as u64;
        Reply(line | flag(self.line.is_some(), FOUND) | refused(self.refusal))
    }
}

impl Packed for Difference {
    fn packed(self) -> Reply {
        let (line, pixel) = self.at.unwrap_or((0, 0));
        Reply(line as u64 | flag(self.at.is_some(), FOUND) | refused(self.refusal) | (pixel as u64) << 40)
    }
}

impl Packed for MadePointer {
    fn packed(self) -> Reply {
        Reply(self.word as u64 | refused(self.refusal))
    }
}

impl Packed for Pointer {
    fn packed(self) -> Reply {
        Reply(self.start as u64 | (self.block as u64) << 40)
    }
}

impl Packed for Reach {
    fn packed(self) -> Reply {
        Reply(self.place as u64 | refused(self.refusal) | (self.read as u64) << 40 | (self.write as u64) << 48)
    }
}

impl Packed for Length {
    fn packed(self) -> Reply {
        Reply(self.length as u64 | refused(self.refusal))
    }
}

impl Packed for Count {
    fn packed(self) -> Reply {
        Reply(self.frames as u64 | refused(self.refusal))
    }
}

impl Packed for Found {
    fn packed(self) -> Reply {
        let index = self.index.unwrap_or(0) as u64;
        Reply(index | flag(self.index.is_some(), FOUND) | refused(self.refusal))
    }
}

impl Packed for Entry {
    fn packed(self) -> Reply {
        // 200 lines are a 1 and 256 lines a 2.
        let shown = self.shown as u64 / 128;
        Reply(self.number as u64 | refused(self.refusal) | (self.bench as u64) << 40 | shown << 56)
    }
}
