//! The model behind the C interface, to be timed beside the library, and for `standin-c` to export. Archives are those of
//! `archive_fast`: the plain ones build a whole archive to look one over.

use crate::machine::{Machine, Model};
use crate::model::{archive_fast, Packed};
use joyce::archive::Fields;
use joyce::interface::{Functions, Interface};
use joyce::{Access, Board, Paging, PowerOn, Sizes, StepNumbers};

/// The model's functions, called as the library's are.
// SAFETY: they hand what they are lent to the model, which is safe code, and nothing else.
pub const C_MODEL: Interface = unsafe { Interface::new(FUNCTIONS) };

const FUNCTIONS: Functions = Functions {
    version: joyce_version,
    power_on: joyce_power_on,
    step: joyce_step,
    draw: joyce_draw,
    refresh: joyce_refresh,
    next_dirty: joyce_next_dirty,
    first_difference: joyce_first_difference,
    widen: joyce_widen,
    make_pointer: joyce_make_pointer,
    read_pointer: joyce_read_pointer,
    roll: joyce_roll,
    reach: joyce_reach,
    archive_start: joyce_archive_start,
    archive_count: joyce_archive_count,
    archive_entry: joyce_archive_entry,
    archive_find: joyce_archive_find,
    archive_read: joyce_archive_read,
    archive_add: joyce_archive_add,
};

/// The bytes lent by pointer and length. No bytes may be lent from an address at which there are none.
unsafe fn lent<'a>(at: *const u8, len: usize) -> &'a [u8] {
    if len == 0 {
        &[]
    } else {
        std::slice::from_raw_parts(at, len)
    }
}

unsafe fn lent_mut<'a>(at: *mut u8, len: usize) -> &'a mut [u8] {
    if len == 0 {
        &mut []
    } else {
        std::slice::from_raw_parts_mut(at, len)
    }
}

#[cfg_attr(feature = "standin", no_mangle)]
pub extern "C" fn joyce_version() -> u32 {
    Model.version()
}

/// # Safety
/// What is lent must be as include/joyce.h asks.
#[cfg_attr(feature = "standin", no_mangle)]
pub unsafe extern "C" fn joyce_power_on(
    board: *mut Board,
    internal: u8,
    total: u8,
    rate: u8,
    f0: u8,
    f1: u8,
    f2: u8,
    f3: u8,
    lock: u8,
    f5: u8,
    f6: u8,
) -> u64 {
    let sizes = Sizes { internal, total };
    let on = PowerOn { sizes, rate, maps: [f0, f1, f2, f3], lock, table: f5, top: f6 };
    Model.power_on(&mut *board, &on).0
}

/// # Safety
/// What is lent must be as include/joyce.h asks.
#[cfg_attr(feature = "standin", no_mangle)]
pub unsafe extern "C" fn joyce_step(
    board: *mut Board,
    kind: u32,
    number: u32,
    value: u32,
    ram: *mut u8,
    ram_len: usize,
    boot: *const u8,
    boot_len: usize,
) -> u64 {
    Model.step(&mut *board, StepNumbers::new(kind, number, value), lent_mut(ram, ram_len), lent(boot, boot_len)).0
}

/// # Safety
/// What is lent must be as include/joyce.h asks.
#[cfg_attr(feature = "standin", no_mangle)]
pub unsafe extern "C" fn joyce_draw(
    board: *const Board,
    ram: *const u8,
    ram_len: usize,
    picture: *mut u8,
    picture_len: usize,
) -> u64 {
    Model.draw(&*board, lent(ram, ram_len), lent_mut(picture, picture_len)).0
}

/// # Safety
/// What is lent must be as include/joyce.h asks.
#[cfg_attr(feature = "standin", no_mangle)]
pub unsafe extern "C" fn joyce_refresh(
    board: *mut Board,
    ram: *const u8,
    ram_len: usize,
    picture: *mut u8,
    picture_len: usize,
) -> u64 {
    Model.refresh(&mut *board, lent(ram, ram_len), lent_mut(picture, picture_len)).0
}

/// # Safety
/// What is lent must be as include/joyce.h asks.
#[cfg_attr(feature = "standin", no_mangle)]
pub unsafe extern "C" fn joyce_next_dirty(board: *const Board, n: u32) -> u64 {
    Model.next_dirty(&*board, n).0
}

/// # Safety
/// What is lent must be as include/joyce.h asks.
#[cfg_attr(feature = "standin", no_mangle)]
pub unsafe extern "C" fn joyce_first_difference(a: *const u8, a_len: usize, b: *const u8, b_len: usize) -> u64 {
    Model.first_difference(lent(a, a_len), lent(b, b_len)).0
}

/// # Safety
/// What is lent must be as include/joyce.h asks.
#[cfg_attr(feature = "standin", no_mangle)]
pub unsafe extern "C" fn joyce_widen(line: *const u8, line_len: usize, out: *mut u8, out_len: usize) -> u8 {
    Model.widen(lent(line, line_len), lent_mut(out, out_len))
}

#[cfg_attr(feature = "standin", no_mangle)]
pub extern "C" fn joyce_make_pointer(block: u32, start: u32) -> u64 {
    Model.make_pointer(block, start).0
}

#[cfg_attr(feature = "standin", no_mangle)]
pub extern "C" fn joyce_read_pointer(word: u16) -> u64 {
    Model.read_pointer(word).0
}

#[cfg_attr(feature = "standin", no_mangle)]
pub extern "C" fn joyce_roll(old_top: u8, new_top: u8) -> i8 {
    Model.roll(old_top, new_top)
}

#[cfg_attr(feature = "standin", no_mangle)]
pub extern "C" fn joyce_reach(internal: u8, total: u8, f0: u8, f1: u8, f2: u8, f3: u8, lock: u8, address: u16) -> u64 {
    let paging = Paging { maps: [f0, f1, f2, f3], lock };
    Model.reach(&Access { sizes: Sizes { internal, total }, paging, address }).0
}

/// # Safety
/// What is lent must be as include/joyce.h asks.
#[cfg_attr(feature = "standin", no_mangle)]
pub unsafe extern "C" fn joyce_archive_start(room: *mut u8, room_len: usize) -> u64 {
    archive_fast::start(lent_mut(room, room_len)).packed().0
}

/// # Safety
/// What is lent must be as include/joyce.h asks.
#[cfg_attr(feature = "standin", no_mangle)]
pub unsafe extern "C" fn joyce_archive_count(archive: *const u8, archive_len: usize) -> u64 {
    archive_fast::count(lent(archive, archive_len)).packed().0
}

/// # Safety
/// What is lent must be as include/joyce.h asks.
#[cfg_attr(feature = "standin", no_mangle)]
pub unsafe extern "C" fn joyce_archive_entry(archive: *const u8, archive_len: usize, k: u32) -> u64 {
    archive_fast::entry(lent(archive, archive_len), k).packed().0
}

/// # Safety
/// What is lent must be as include/joyce.h asks.
#[cfg_attr(feature = "standin", no_mangle)]
pub unsafe extern "C" fn joyce_archive_find(archive: *const u8, archive_len: usize, bench: u32, number: u32) -> u64 {
    archive_fast::find(lent(archive, archive_len), bench, number).packed().0
}

/// # Safety
/// What is lent must be as include/joyce.h asks.
#[cfg_attr(feature = "standin", no_mangle)]
pub unsafe extern "C" fn joyce_archive_read(
    archive: *const u8,
    archive_len: usize,
    k: u32,
    picture: *mut u8,
    picture_len: usize,
) -> u64 {
    archive_fast::read(lent(archive, archive_len), k, lent_mut(picture, picture_len)).packed().0
}

/// # Safety
/// What is lent must be as include/joyce.h asks.
#[cfg_attr(feature = "standin", no_mangle)]
pub unsafe extern "C" fn joyce_archive_add(
    archive: *const u8,
    archive_len: usize,
    bench: u32,
    number: u32,
    shown: u32,
    picture: *const u8,
    picture_len: usize,
    room: *mut u8,
    room_len: usize,
) -> u64 {
    let (archive, picture) = (lent(archive, archive_len), lent(picture, picture_len));
    let room = lent_mut(room, room_len);
    archive_fast::add(archive, Fields::new(bench, number, shown), picture, room).packed().0
}
