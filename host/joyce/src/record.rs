//! The record of a board, laid out as the C interface has it.

use core::mem::{align_of, size_of};

/// The version of the C interface that this crate is of. [`version`](crate::version) gives that of the linked library.
pub const VERSION: u32 = 1;

/// Bytes in a block of RAM.
pub const BLOCK: usize = 16_384;
/// Bytes in a line of a picture: 720 pixels, the leftmost in the top bit of the first byte.
pub const LINE_BYTES: usize = 90;
/// Bytes in a line that [`widen`](crate::widen) has written.
pub const WIDE_LINE_BYTES: usize = 180;
/// Lines in a picture, shown or not.
pub const LINES: usize = 256;
/// Bytes in a picture.
pub const PICTURE: usize = LINES * LINE_BYTES;
/// Bytes in the longest boot stream that may be lent.
pub const BOOT_MAX: usize = 1_024;

/// [`Disc::route`]: the disc line interrupts nothing.
pub const ROUTE_NONE: u8 = 0;
/// [`Disc::route`]: the disc line shows as NMI, once.
pub const ROUTE_NMI: u8 = 1;
/// [`Disc::route`]: the disc line holds INT.
pub const ROUTE_INT: u8 = 2;

/// [`Video::control`]: every bit of the picture is inverted.
pub const REVERSE: u8 = 0x80;
/// [`Video::control`]: the RAM is shown. Without it each byte is drawn as 0.
pub const ENABLE: u8 = 0x40;

/// How much RAM there is.
#[repr(C)]
#[derive(Clone, Copy, PartialEq, Eq, Debug, Default)]
pub struct Sizes {
    /// Blocks of the board's own memory: 8, 16 or 32.
    pub internal: u8,
    /// Blocks in all, from `internal` to 128.
    pub total: u8,
}

/// Which block of RAM each quarter of the Z80's addresses (a bank) reaches. [`reach`](crate::reach) gives the block of
/// an access.
#[repr(C)]
#[derive(Clone, Copy, PartialEq, Eq, Debug, Default)]
pub struct Paging {
    /// Ports F0 to F3, for the banks from 0000h, 4000h, 8000h and C000h. With bit 7 set the low seven bits are the
    /// block for reading and writing, mod `internal` if there is none of that number; otherwise bits 0 to 2 are the
    /// block for writing and bits 4 to 6 that for reading.
    pub maps: [u8; 4],
    /// Port F4. A bank whose bit is set reads the block that it writes, where bit 7 of its map is clear: bit 6 is for
    /// 0000h, bit 4 for 4000h, bit 5 for 8000h and bit 7 for C000h.
    pub lock: u8,
}

/// What is shown. A table in the RAM has 256 pointers of two bytes, low byte first;
/// [`make_pointer`](crate::make_pointer) makes one.
#[repr(C)]
#[derive(Clone, Copy, PartialEq, Eq, Debug, Default)]
pub struct Video {
    /// Port F5: the table is in block `table / 32`, at 512 x `(table % 32)`.
    pub table: u8,
    /// Port F6: line L of the picture has pointer `(top + L) % 256` of the table.
    pub top: u8,
    /// Port F7: [`REVERSE`] and [`ENABLE`]; the other bits do nothing.
    pub control: u8,
}

/// The timer and the beam.
#[repr(C)]
#[derive(Clone, Copy, PartialEq, Eq, Debug, Default)]
pub struct Clock {
    /// Ticks that were not read yet, 0 to 15.
    pub counter: u8,
    /// The scan that the beam is at: 0 to 311 on 50 Hz, 0 to 259 on 60 Hz.
    pub beam: u16,
}

/// Boot mode, in which fetches come from the boot stream and not from the RAM.
#[repr(C)]
#[derive(Clone, Copy, PartialEq, Eq, Debug, Default)]
pub struct Boot {
    /// 1 in boot mode, otherwise 0.
    pub mode: u8,
    /// The index of the boot stream's next byte, 0 to 1,024.
    pub at: u16,
}

/// The lines to and from the disc controller, which is no part of the board.
#[repr(C)]
#[derive(Clone, Copy, PartialEq, Eq, Debug, Default)]
pub struct Disc {
    /// [`ROUTE_NONE`], [`ROUTE_NMI`] or [`ROUTE_INT`].
    pub route: u8,
    /// The controller's interrupt line, 0 or 1.
    pub line: u8,
    /// Terminal count, 0 or 1.
    pub terminal_count: u8,
    /// The motor, 0 or 1.
    pub motor: u8,
}

/// A set of lines.
#[repr(C)]
#[derive(Clone, Copy, PartialEq, Eq, Debug, Default)]
pub struct Lines {
    /// Line L is bit L % 64 of word L / 64.
    pub words: [u64; 4],
}

/// The record: all that a board knows between two calls, but for its RAM.
///
/// [`Board::power_on`] gives a *good* record, and every other call leaves a good one good: each field is in its range,
/// no unshown line is dirty, and the route is never NMI with the disc line on. A record may be altered or stored; what
/// is not good is refused with [`Refusal::BAD_RECORD`](crate::Refusal::BAD_RECORD), whatever bytes it has. Bytes between
/// the fields carry nothing: compare records by `==`.
#[repr(C)]
#[derive(Clone, Copy, PartialEq, Eq, Debug, Default)]
pub struct Board {
    /// How much RAM there is; it is lent to each call.
    pub sizes: Sizes,
    /// Frames in a second, 50 or 60. On 50 Hz all 256 lines of a picture are shown, on 60 Hz the first 200.
    pub rate: u8,
    /// Ports F0 to F4.
    pub paging: Paging,
    /// Ports F5 to F7.
    pub video: Video,
    /// The timer and the beam.
    pub clock: Clock,
    /// Boot mode.
    pub boot: Boot,
    /// The disc controller's lines.
    pub disc: Disc,
    /// The external interrupt line, 0 or 1. It holds INT.
    pub external: u8,
    /// 1 if the video is driven, 0 if it floats. That changes no pixel.
    pub driven: u8,
    /// The bleeper, 0 or 1.
    pub bleeper: u8,
    /// The lines whose pixels may have changed since they were drawn: those that [`Board::refresh`] draws.
    pub dirty: Lines,
}

// The sizes of the parts are the header's, and so is their order; a test below has the offsets.
const _: () = assert!(size_of::<Sizes>() == 2 && size_of::<Paging>() == 5 && size_of::<Video>() == 3);
const _: () = assert!(size_of::<Clock>() == 4 && size_of::<Boot>() == 4 && size_of::<Disc>() == 4);
const _: () = assert!(size_of::<Lines>() == 32);
const _: () = assert!(size_of::<Board>() == 64 && align_of::<Board>() == 8);

impl Sizes {
    /// The length of the RAM that is lent with a record of these sizes.
    #[inline]
    pub const fn ram_bytes(&self) -> usize {
        self.total as usize * BLOCK
    }
}

impl Lines {
    /// Whether a line is in the set.
    #[inline]
    pub const fn has(&self, line: u8) -> bool {
        self.words[line as usize / 64] >> (line % 64) & 1 == 1
    }

    /// How many lines are in the set.
    #[inline]
    pub fn count(&self) -> u16 {
        self.words.iter().map(|word| word.count_ones() as u16).sum()
    }
}

#[cfg(test)]
mod tests {
    use super::Board;

    /// The fields stand where include/joyce.h has them.
    #[test]
    fn fields_stand_as_in_the_header() {
        let b = Board::default();
        let start = &b as *const Board as usize;
        let offsets = [
            &b.sizes as *const _ as usize,
            &b.rate as *const _ as usize,
            &b.paging as *const _ as usize,
            &b.video as *const _ as usize,
            &b.clock as *const _ as usize,
            &b.boot as *const _ as usize,
            &b.disc as *const _ as usize,
            &b.external as *const _ as usize,
            &b.driven as *const _ as usize,
            &b.bleeper as *const _ as usize,
            &b.dirty as *const _ as usize,
        ];
        assert_eq!(offsets.map(|at| at - start), [0, 2, 3, 8, 12, 16, 20, 24, 25, 26, 32]);
        let inner = [
            &b.sizes.total as *const _ as usize,
            &b.paging.lock as *const _ as usize,
            &b.video.top as *const _ as usize,
            &b.video.control as *const _ as usize,
            &b.clock.beam as *const _ as usize,
            &b.boot.at as *const _ as usize,
            &b.disc.line as *const _ as usize,
            &b.disc.terminal_count as *const _ as usize,
            &b.disc.motor as *const _ as usize,
        ];
        assert_eq!(inner.map(|at| at - start), [1, 7, 9, 10, 14, 18, 21, 22, 23]);
    }
}
