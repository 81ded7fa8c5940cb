//! The functions of the C interface as a table, and safe calls of a table that give the whole reply.
//!
//! [`LIBRARY`](crate::LIBRARY) is the table of the linked library, over which all other calls of this crate are made.
//! Another table is for who wants to put something else in the library's place, or beside it.

use crate::archive::Fields;
use crate::board::PowerOn;
use crate::calls::Access;
use crate::record::Board;
use crate::reply::Reply;
use crate::step::StepNumbers;

/// The functions of the C interface, each under its name without `joyce_`. `joyce.h` says what each does, and has the
/// order of its arguments.
#[derive(Clone, Copy, Debug)]
#[allow(clippy::type_complexity)]
pub struct Functions {
    /// `joyce_version`.
    pub version: unsafe extern "C" fn() -> u32,
    /// `joyce_power_on`.
    pub power_on: unsafe extern "C" fn(*mut Board, u8, u8, u8, u8, u8, u8, u8, u8, u8, u8) -> u64,
    /// `joyce_step`.
    pub step: unsafe extern "C" fn(*mut Board, u32, u32, u32, *mut u8, usize, *const u8, usize) -> u64,
    /// `joyce_draw`.
    pub draw: unsafe extern "C" fn(*const Board, *const u8, usize, *mut u8, usize) -> u64,
    /// `joyce_refresh`.
    pub refresh: unsafe extern "C" fn(*mut Board, *const u8, usize, *mut u8, usize) -> u64,
    /// `joyce_next_dirty`.
    pub next_dirty: unsafe extern "C" fn(*const Board, u32) -> u64,
    /// `joyce_first_difference`.
    pub first_difference: unsafe extern "C" fn(*const u8, usize, *const u8, usize) -> u64,
    /// `joyce_widen`.
    pub widen: unsafe extern "C" fn(*const u8, usize, *mut u8, usize) -> u8,
    /// `joyce_make_pointer`.
    pub make_pointer: unsafe extern "C" fn(u32, u32) -> u64,
    /// `joyce_read_pointer`.
    pub read_pointer: unsafe extern "C" fn(u16) -> u64,
    /// `joyce_roll`.
    pub roll: unsafe extern "C" fn(u8, u8) -> i8,
    /// `joyce_reach`.
    pub reach: unsafe extern "C" fn(u8, u8, u8, u8, u8, u8, u8, u16) -> u64,
    /// `joyce_archive_start`.
    pub archive_start: unsafe extern "C" fn(*mut u8, usize) -> u64,
    /// `joyce_archive_count`.
    pub archive_count: unsafe extern "C" fn(*const u8, usize) -> u64,
    /// `joyce_archive_entry`.
    pub archive_entry: unsafe extern "C" fn(*const u8, usize, u32) -> u64,
    /// `joyce_archive_find`.
    pub archive_find: unsafe extern "C" fn(*const u8, usize, u32, u32) -> u64,
    /// `joyce_archive_read`.
    pub archive_read: unsafe extern "C" fn(*const u8, usize, u32, *mut u8, usize) -> u64,
    /// `joyce_archive_add`.
    pub archive_add: unsafe extern "C" fn(*const u8, usize, u32, u32, u32, *const u8, usize, *mut u8, usize) -> u64,
}

/// Safe calls of a table of functions. Each lends its slices for its own length; what a call does is said at the
/// function of its name in the crate, of [`Board`] or of [`archive`](crate::archive).
#[derive(Clone, Copy, Debug)]
pub struct Interface(Functions);

impl Interface {
    /// Safe calls of these functions.
    ///
    /// # Safety
    ///
    /// Each function must keep to what `joyce.h` says of the one of its name. It takes any bytes in a record, any
    /// lengths and any numbers. It reads and writes nothing but the record and the memory lent to it, and only reads
    /// what is lent as const. It keeps no pointer, comes back without unwinding, and may be called from several threads
    /// at once.
    pub const unsafe fn new(functions: Functions) -> Interface {
        Interface(functions)
    }

    /// The version of the interface.
    #[inline]
    #[must_use]
    pub fn version(&self) -> u32 {
        // SAFETY: it takes nothing and writes nothing.
        unsafe { (self.0.version)() }
    }

    /// Powers a board on, in a record that is there. Where it is refused, the record is all zeros.
    #[inline]
    #[must_use = "it may have been refused"]
    pub fn power_on(&self, board: &mut Board, on: &PowerOn) -> Reply {
        let PowerOn { sizes, rate, maps: [f0, f1, f2, f3], lock, table, top } = *on;
        // SAFETY: the board is a live record of the layout of the C interface.
        Reply(unsafe { (self.0.power_on)(board, sizes.internal, sizes.total, rate, f0, f1, f2, f3, lock, table, top) })
    }

    /// Makes a step.
    #[inline]
    #[must_use = "it may have been refused"]
    pub fn step(&self, board: &mut Board, step: StepNumbers, ram: &mut [u8], boot: &[u8]) -> Reply {
        let StepNumbers { kind, number, value } = step;
        // SAFETY: record and slices live through the call and do not overlap.
        Reply(unsafe {
            (self.0.step)(board, kind, number, value, ram.as_mut_ptr(), ram.len(), boot.as_ptr(), boot.len())
        })
    }

    /// Draws all shown lines.
    #[inline]
    #[must_use = "it may have been refused"]
    pub fn draw(&self, board: &Board, ram: &[u8], picture: &mut [u8]) -> Reply {
        // SAFETY: as for a step; the record is only read.
        Reply(unsafe { (self.0.draw)(board, ram.as_ptr(), ram.len(), picture.as_mut_ptr(), picture.len()) })
    }

    /// Draws the dirty lines.
    #[inline]
    #[must_use = "it may have been refused"]
    pub fn refresh(&self, board: &mut Board, ram: &[u8], picture: &mut [u8]) -> Reply {
        // SAFETY: as for a step.
        Reply(unsafe { (self.0.refresh)(board, ram.as_ptr(), ram.len(), picture.as_mut_ptr(), picture.len()) })
    }

    /// The first dirty line at or after n.
    #[inline]
    #[must_use = "it may have been refused"]
    pub fn next_dirty(&self, board: &Board, n: u32) -> Reply {
        // SAFETY: the record is only read.
        Reply(unsafe { (self.0.next_dirty)(board, n) })
    }

    /// The first position where two pictures differ.
    #[inline]
    #[must_use = "it may have been refused"]
    pub fn first_difference(&self, a: &[u8], b: &[u8]) -> Reply {
        // SAFETY: both slices are only read.
        Reply(unsafe { (self.0.first_difference)(a.as_ptr(), a.len(), b.as_ptr(), b.len()) })
    }

    /// Widens a line. Gives the number of the refusal, 0 for none.
    #[inline]
    #[must_use = "it may have been refused"]
    pub fn widen(&self, line: &[u8], out: &mut [u8]) -> u8 {
        // SAFETY: the slices live through the call and do not overlap.
        unsafe { (self.0.widen)(line.as_ptr(), line.len(), out.as_mut_ptr(), out.len()) }
    }

    /// The pointer word of a block and a start.
    #[inline]
    #[must_use = "it may have been refused"]
    pub fn make_pointer(&self, block: u32, start: u32) -> Reply {
        // SAFETY: plain numbers.
        Reply(unsafe { (self.0.make_pointer)(block, start) })
    }

    /// Block and start of a pointer word.
    #[inline]
    #[must_use]
    pub fn read_pointer(&self, word: u16) -> Reply {
        // SAFETY: plain numbers.
        Reply(unsafe { (self.0.read_pointer)(word) })
    }

    /// What added to the old top line gives the new one.
    #[inline]
    #[must_use]
    pub fn roll(&self, old: u8, new: u8) -> i8 {
        // SAFETY: plain numbers.
        unsafe { (self.0.roll)(old, new) }
    }

    /// Where an access lands.
    #[inline]
    #[must_use = "it may have been refused"]
    pub fn reach(&self, access: &Access) -> Reply {
        let Access { sizes, paging, address } = *access;
        let [f0, f1, f2, f3] = paging.maps;
        // SAFETY: plain numbers.
        Reply(unsafe { (self.0.reach)(sizes.internal, sizes.total, f0, f1, f2, f3, paging.lock, address) })
    }

    /// Writes an archive of no frames.
    #[inline]
    #[must_use = "it may have been refused"]
    pub fn archive_start(&self, room: &mut [u8]) -> Reply {
        // SAFETY: the slice lives through the call.
        Reply(unsafe { (self.0.archive_start)(room.as_mut_ptr(), room.len()) })
    }

    /// How many frames an archive holds.
    #[inline]
    #[must_use = "it may have been refused"]
    pub fn archive_count(&self, archive: &[u8]) -> Reply {
        // SAFETY: the slice is only read.
        Reply(unsafe { (self.0.archive_count)(archive.as_ptr(), archive.len()) })
    }

    /// Bench, number and shown lines of entry k.
    #[inline]
    #[must_use = "it may have been refused"]
    pub fn archive_entry(&self, archive: &[u8], k: u32) -> Reply {
        // SAFETY: the slice is only read.
        Reply(unsafe { (self.0.archive_entry)(archive.as_ptr(), archive.len(), k) })
    }

    /// Which entry has a bench and number.
    #[inline]
    #[must_use = "it may have been refused"]
    pub fn archive_find(&self, archive: &[u8], bench: u32, number: u32) -> Reply {
        // SAFETY: the slice is only read.
        Reply(unsafe { (self.0.archive_find)(archive.as_ptr(), archive.len(), bench, number) })
    }

    /// Writes the shown lines of entry k to a picture.
    #[inline]
    #[must_use = "it may have been refused"]
    pub fn archive_read(&self, archive: &[u8], k: u32, picture: &mut [u8]) -> Reply {
        let (at, len) = (picture.as_mut_ptr(), picture.len());
        // SAFETY: the slices live through the call and do not overlap.
        Reply(unsafe { (self.0.archive_read)(archive.as_ptr(), archive.len(), k, at, len) })
    }

    /// Writes an archive with one frame more.
    #[inline]
    #[must_use = "it may have been refused"]
    pub fn archive_add(&self, archive: &[u8], fields: Fields, picture: &[u8], room: &mut [u8]) -> Reply {
        let Fields { bench, number, shown } = fields;
        // SAFETY: the slices live through the call, and the room overlaps neither of the others.
        Reply(unsafe {
            (self.0.archive_add)(
                archive.as_ptr(),
                archive.len(),
                bench,
                number,
                shown,
                picture.as_ptr(),
                picture.len(),
                room.as_mut_ptr(),
                room.len(),
            )
        })
    }
}
