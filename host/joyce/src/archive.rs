//! Archives: pictures kept in one run of bytes, which is a file as it is.
//!
//! An archive holds up to 1,000 *frames*. A frame is a bench (1 to 65,535), a number (any of 32 bits) and its shown
//! lines, 200 or 256 of them; a bench and number stand once. The caller lends the archive, and room for the next one:
//!
//! ```
//! use joyce::archive::{self, Fields, HEADER};
//! use joyce::PICTURE;
//!
//! let mut empty = [0; HEADER];
//! archive::start(&mut empty).accepted()?;
//!
//! let picture = [0x5A; PICTURE];
//! let mut one = [0; archive::length(1)];
//! archive::add(&empty, Fields::new(12, 345, 256), &picture, &mut one).accepted()?;
//!
//! let mut again = [0; PICTURE];
//! let found = archive::find(&one, 12, 345).accepted()?.index;
//! assert_eq!(found, Some(0));
//! assert_eq!(archive::read(&one, 0, &mut again).accepted()?.shown, 256);
//! assert_eq!(again, picture);
//! # Ok::<(), joyce::Refusal>(())
//! ```
//!
//! # The form
//!
//! Every number is four bytes, low first; the archive has n frames.
//!
//! | part | bytes | what |
//! |---|---|---|
//! | header | 20 | form 1, n, offset of entries 20, offset of pictures 20 + 16n, whole length 20 + 23,056n |
//! | entries | n x 16 | bench, number, shown lines, offset of the picture |
//! | pictures | n x 23,040 | in entry order, unshown lines zero |
//!
//! Every call that is lent an archive looks the whole of it over, and refuses with
//! [`BAD_ARCHIVE`](crate::Refusal::BAD_ARCHIVE) what is not *sound*: of another form or length, with a field out of
//! range, a bench and number twice, or an unshown line that is not zero. So two sound archives of the same frames are
//! the same bytes. A call that is refused writes nothing.

use crate::ffi::LIBRARY;
use crate::record::PICTURE;
pub use crate::reply::archive::{Count, Entry, Found, Length};

/// Frames in the largest archive.
pub const MOST_FRAMES: usize = 1_000;
/// Bytes in the header: form, count, offset of entries, offset of pictures, whole length.
pub const HEADER: usize = 20;
/// Bytes in an entry: bench, number, shown lines, offset of the picture.
pub const ENTRY: usize = 16;
/// The one form there is.
pub const FORM: u32 = 1;
/// The largest bench; the smallest is 1.
pub const MOST_BENCH: u32 = 65_535;

/// What a frame is told by, beside its lines. Any numbers; whether they are in range is for [`add`] to say.
#[derive(Clone, Copy, PartialEq, Eq, Debug, Default)]
pub struct Fields {
    /// 1 to [`MOST_BENCH`].
    pub bench: u32,
    /// Any number.
    pub number: u32,
    /// Shown lines, 200 or 256.
    pub shown: u32,
}

impl Fields {
    /// Bench, number and shown lines.
    #[inline]
    pub const fn new(bench: u32, number: u32, shown: u32) -> Fields {
        Fields { bench, number, shown }
    }
}

/// Bytes in an archive of as many frames.
#[inline]
pub const fn length(frames: usize) -> usize {
    pictures_at(frames) + PICTURE * frames
}

/// Where the pictures of an archive of as many frames begin.
#[inline]
pub const fn pictures_at(frames: usize) -> usize {
    entry_at(frames)
}

/// Where entry k begins.
#[inline]
pub const fn entry_at(k: usize) -> usize {
    HEADER + ENTRY * k
}

/// Where the picture of entry k begins, in an archive of as many frames.
#[inline]
pub const fn picture_at(frames: usize, k: usize) -> usize {
    pictures_at(frames) + PICTURE * k
}

/// Writes the archive of no frames to the front of the room.
///
/// Refused with [`NO_ROOM`](crate::Refusal::NO_ROOM), if that is shorter than [`HEADER`].
#[inline]
#[must_use = "it may have been refused"]
pub fn start(room: &mut [u8]) -> Length {
    LIBRARY.archive_start(room).into()
}

/// How many frames an archive holds.
///
/// Refused with [`BAD_ARCHIVE`](crate::Refusal::BAD_ARCHIVE).
#[inline]
#[must_use = "it may have been refused"]
pub fn count(archive: &[u8]) -> Count {
    LIBRARY.archive_count(archive).into()
}

/// Bench, number and shown lines of entry k, from 0.
///
/// Refused with [`BAD_ARCHIVE`](crate::Refusal::BAD_ARCHIVE), and with [`BAD_FRAME`](crate::Refusal::BAD_FRAME), if
/// there is no entry k.
#[inline]
#[must_use = "it may have been refused"]
pub fn entry(archive: &[u8], k: u32) -> Entry {
    LIBRARY.archive_entry(archive, k).into()
}

/// Which entry has a bench and number, if one has.
///
/// Refused with [`BAD_ARCHIVE`](crate::Refusal::BAD_ARCHIVE).
#[inline]
#[must_use = "it may have been refused"]
pub fn find(archive: &[u8], bench: u32, number: u32) -> Found {
    LIBRARY.archive_find(archive, bench, number).into()
}

/// Writes the shown lines of entry k to the front of a picture, and no other byte of it.
///
/// Refused with [`BAD_LENGTH`](crate::Refusal::BAD_LENGTH), if the picture is not of [`PICTURE`]; with
/// [`BAD_ARCHIVE`](crate::Refusal::BAD_ARCHIVE); and with [`BAD_FRAME`](crate::Refusal::BAD_FRAME), if there is no
/// entry k.
#[inline]
#[must_use = "it may have been refused"]
pub fn read(archive: &[u8], k: u32, picture: &mut [u8]) -> Entry {
    LIBRARY.archive_read(archive, k, picture).into()
}

/// Writes an archive with one frame more, its last, to the front of the room, and nothing behind it; the archive lent
/// stays as it is. The frame has the first 200 or 256 lines of the picture. [`length`] says how much room that takes.
///
/// Refused with [`BAD_LENGTH`](crate::Refusal::BAD_LENGTH), if the picture is not of [`PICTURE`]; with
/// [`BAD_ARCHIVE`](crate::Refusal::BAD_ARCHIVE); with [`BAD_FRAME`](crate::Refusal::BAD_FRAME), if a field is out of
/// range or the bench and number are there already; and with [`NO_ROOM`](crate::Refusal::NO_ROOM), if there are
/// [`MOST_FRAMES`] already or the room is too short.
#[inline]
#[must_use = "it may have been refused"]
pub fn add(archive: &[u8], fields: Fields, picture: &[u8], room: &mut [u8]) -> Length {
    LIBRARY.archive_add(archive, fields, picture, room).into()
}
