//! The proved library behind its C interface.

use crate::interface::{Functions, Interface};
use crate::record::Board;

// The library is for machines of 64 bits: lengths are handed over as such.
const _: () = assert!(core::mem::size_of::<usize>() == 8);

extern "C" {
    fn joyce_version() -> u32;
    fn joyce_power_on(
        board: *mut Board,
        internal: u8,
        total: u8,
        rate: u8,
        f0: u8,
        f1: u8,
        f2: u8,
        f3: u8,
        lock: u8,
        f5: u8,
        f6: u8,
    ) -> u64;
    fn joyce_step(
        board: *mut Board,
        kind: u32,
        number: u32,
        value: u32,
        ram: *mut u8,
        ram_len: usize,
        boot: *const u8,
        boot_len: usize,
    ) -> u64;
    fn joyce_draw(board: *const Board, ram: *const u8, ram_len: usize, picture: *mut u8, picture_len: usize) -> u64;
    fn joyce_refresh(board: *mut Board, ram: *const u8, ram_len: usize, picture: *mut u8, picture_len: usize) -> u64;
    fn joyce_next_dirty(board: *const Board, n: u32) -> u64;
    fn joyce_first_difference(a: *const u8, a_len: usize, b: *const u8, b_len: usize) -> u64;
    fn joyce_widen(line: *const u8, line_len: usize, out: *mut u8, out_len: usize) -> u8;
    fn joyce_make_pointer(block: u32, start: u32) -> u64;
    fn joyce_read_pointer(word: u16) -> u64;
    fn joyce_roll(old_top: u8, new_top: u8) -> i8;
    fn joyce_reach(internal: u8, total: u8, f0: u8, f1: u8, f2: u8, f3: u8, lock: u8, address: u16) -> u64;
    fn joyce_archive_start(room: *mut u8, room_len: usize) -> u64;
    fn joyce_archive_count(archive: *const u8, archive_len: usize) -> u64;
    fn joyce_archive_entry(archive: *const u8, archive_len: usize, k: u32) -> u64;
    fn joyce_archive_find(archive: *const u8, archive_len: usize, bench: u32, number: u32) -> u64;
    fn joyce_archive_read(archive: *const u8, archive_len: usize, k: u32, picture: *mut u8, picture_len: usize) -> u64;
    fn joyce_archive_add(
        archive: *const u8,
        archive_len: usize,
        bench: u32,
        number: u32,
        shown: u32,
        picture: *const u8,
        picture_len: usize,
        room: *mut u8,
        room_len: usize,
    ) -> u64;
}

/// The linked library, as calls that give the whole reply.
// SAFETY: the functions of libjoyce.a are proved to keep to what joyce.h says; who brings others in their place (the
// feature `unlinked`) answers for those.
pub const LIBRARY: Interface = unsafe { Interface::new(FUNCTIONS) };

const FUNCTIONS: Functions = Functions {
    version: joyce_version,
    power_on: joyce_power_on,
    step: joyce_step,
    draw: joyce_draw,
    refresh: joyce_refresh,
    next_dirty: joyce_next_dirty,
    first_difference: joyce_first_difference,
    widen: joyce_widen,
    make_pointer: joyce_make_pointer,
    read_pointer: joyce_read_pointer,
    roll: joyce_roll,
    reach: joyce_reach,
    archive_start: joyce_archive_start,
    archive_count: joyce_archive_count,
    archive_entry: joyce_archive_entry,
    archive_find: joyce_archive_find,
    archive_read: joyce_archive_read,
    archive_add: joyce_archive_add,
};
