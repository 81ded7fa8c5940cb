//! The 64-bit reply of the C interface and the plain answers it carries.

pub mod archive;

use crate::refusal::Refusal;
use core::fmt;

/// A reply as the C interface gives it, every bit kept. `From` takes the answer of a call out of it.
///
/// Which parts it has depends on the call; a part that it does not have is 0.
#[derive(Clone, Copy, PartialEq, Eq, Default)]
pub struct Reply(
    /// The bits, as `joyce.h` has them.
    pub u64,
);

const INT: u32 = 16;
const NMI: u32 = 17;
const FORWARDED: u32 = 18;
const FLOATING: u32 = 19;
const FOUND: u32 = 20;

impl Reply {
    #[inline]
    const fn bit(self, at: u32) -> bool {
        self.0 >> at & 1 == 1
    }

    /// The byte of a step, the count of a refresh, a line, a pointer word, a start or a place.
    #[inline]
    pub const fn value(self) -> u16 {
        self.0 as u16
    }

    /// Whether INT stands.
    #[inline]
    pub const fn int(self) -> bool {
        self.bit(INT)
    }

    /// Whether NMI is shown.
    #[inline]
    pub const fn nmi(self) -> bool {
        self.bit(NMI)
    }

    /// Whether the port belongs to another device, so that the host has to serve it.
    #[inline]
    pub const fn forwarded(self) -> bool {
        self.bit(FORWARDED)
    }

    /// Whether the video floats.
    #[inline]
    pub const fn floating(self) -> bool {
        self.bit(FLOATING)
    }

    /// Whether a line, position or entry was found.
    #[inline]
    pub const fn found(self) -> bool {
        self.bit(FOUND)
    }

    /// The number of the refusal, 0 for none.
    #[inline]
    pub const fn refusal(self) -> u8 {
        (self.0 >> 32) as u8
    }

    /// The pixel of a difference.
    #[inline]
    pub const fn pixel(self) -> u16 {
        (self.0 >> 40) as u16
    }

    /// The read block of a reach, the block of a pointer.
    #[inline]
    pub const fn low_block(self) -> u8 {
        (self.0 >> 40) as u8
    }

    /// The write block of a reach.
    #[inline]
    pub const fn high_block(self) -> u8 {
        (self.0 >> 48) as u8
    }
}

impl fmt::Debug for Reply {
    fn fmt(&self, f: &mut fmt::Formatter<'_>) -> fmt::Result {
        write!(f, "{:016X} (value {:04X}", self.0, self.value())?;
        let names = [(INT, "INT"), (NMI, "NMI"), (FORWARDED, "forwarded"), (FLOATING, "floating"), (FOUND, "found")];
        for (_, name) in names.iter().filter(|(at, _)| self.bit(*at)) {
            write!(f, ", {name}")?;
        }
        if self.pixel() != 0 {
            write!(f, ", upper part {:04X}", self.pixel())?;
        }
        write!(f, ", refusal {})", self.refusal())
    }
}

/// Gives answers that can be refused the way from the number to a `Result`.
macro_rules! can_be_refused {
    ($($answer:ty),*) => {$(
        impl $answer {
            /// This answer if the call was accepted, otherwise the refusal.
            #[inline]
            pub const fn accepted(self) -> Result<Self, Refusal> {
                match self.refusal {
                    0 => Ok(self),
                    number => Err(Refusal(number)),
                }
            }
        }
    )*};
}

can_be_refused!(Answer, Drawn, NextLine, Difference, MadePointer, Reach);
can_be_refused!(archive::Length, archive::Count, archive::Found, archive::Entry);

/// What a step gives.
#[derive(Clone, Copy, PartialEq, Eq, Debug, Default)]
pub struct Answer {
    /// The byte fetched or read, 0 where there is none.
    pub byte: u8,
    /// Whether INT stands after the step. It is a level: that of the latest answer.
    pub int: bool,
    /// Whether the step shows NMI. One answer does so, and the route is none afterwards.
    pub nmi: bool,
    /// Whether the port belongs to another device, so that the host has to serve it.
    pub forwarded: bool,
    /// The number of the refusal, 0 for none.
    pub refusal: u8,
}

impl From<Reply> for Answer {
    #[inline]
    fn from(r: Reply) -> Answer {
        Answer { byte: r.value() as u8, int: r.int(), nmi: r.nmi(), forwarded: r.forwarded(), refusal: r.refusal() }
    }
}

/// What a draw or a refresh gives.
#[derive(Clone, Copy, PartialEq, Eq, Debug, Default)]
pub struct Drawn {
    /// How many lines a refresh drew; of a draw 0.
    pub count: u16,
    /// Whether the video floats.
    pub floating: bool,
    /// The number of the refusal, 0 for none.
    pub refusal: u8,
}

impl From<Reply> for Drawn {
    #[inline]
    fn from(r: Reply) -> Drawn {
        Drawn { count: r.value(), floating: r.floating(), refusal: r.refusal() }
    }
}

/// The next dirty line, or none.
#[derive(Clone, Copy, PartialEq, Eq, Debug, Default)]
pub struct NextLine {
    /// The line, if there is one.
    pub line: Option<u8>,
    /// The number of the refusal, 0 for none.
    pub refusal: u8,
}

impl From<Reply> for NextLine {
    #[inline]
    fn from(r: Reply) -> NextLine {
        NextLine { line: r.found().then_some(r.value() as u8), refusal: r.refusal() }
    }
}

/// The first position where two pictures differ, or none.
#[derive(Clone, Copy, PartialEq, Eq, Debug, Default)]
pub struct Difference {
    /// Line (0 to 255) and pixel (0 to 719), if there is one.
    pub at: Option<(u8, u16)>,
    /// The number of the refusal, 0 for none.
    pub refusal: u8,
}

impl From<Reply> for Difference {
    #[inline]
    fn from(r: Reply) -> Difference {
        Difference { at: r.found().then_some((r.value() as u8, r.pixel())), refusal: r.refusal() }
    }
}

/// A pointer made from block and start.
#[derive(Clone, Copy, PartialEq, Eq, Debug, Default)]
pub struct MadePointer {
    /// The pointer word; it stands in the table low byte first.
    pub word: u16,
    /// The number of the refusal, 0 for none.
    pub refusal: u8,
}

impl From<Reply> for MadePointer {
    #[inline]
    fn from(r: Reply) -> MadePointer {
        MadePointer { word: r.value(), refusal: r.refusal() }
    }
}

/// Where a pointer leads. It is never refused.
#[derive(Clone, Copy, PartialEq, Eq, Debug, Default)]
pub struct Pointer {
    /// The block, 0 to 7.
    pub block: u8,
    /// Where in the block the line starts, 0 to 16,383; bit 3 is clear.
    pub start: u16,
}

impl From<Reply> for Pointer {
    #[inline]
    fn from(r: Reply) -> Pointer {
        Pointer { block: r.low_block(), start: r.value() }
    }
}

/// Where an access lands.
#[derive(Clone, Copy, PartialEq, Eq, Debug, Default)]
pub struct Reach {
    /// The place in the block, 0 to 16,383.
    pub place: u16,
    /// The block that is read.
    pub read: u8,
    /// The block that is written.
    pub write: u8,
    /// The number of the refusal, 0 for none.
    pub refusal: u8,
}

impl From<Reply> for Reach {
    #[inline]
    fn from(r: Reply) -> Reach {
        Reach { place: r.value(), read: r.low_block(), write: r.high_block(), refusal: r.refusal() }
    }
}
