//! The calls that take no record.

use crate::ffi::LIBRARY;
use crate::record::{Paging, Sizes};
use crate::refusal::Refusal;
use crate::reply::{Difference, MadePointer, Pointer, Reach};

/// An access of the Z80, under some sizes, maps and lock.
#[derive(Clone, Copy, PartialEq, Eq, Debug, Default)]
pub struct Access {
    /// How much RAM there is.
    pub sizes: Sizes,
    /// Maps and lock.
    pub paging: Paging,
    /// The address.
    pub address: u16,
}

/// The version of the C interface that the linked library was built with. If it is not [`VERSION`](crate::VERSION),
/// records and replies of this crate are not the library's.
///
/// ```
/// assert_eq!(joyce::version(), joyce::VERSION);
/// ```
#[inline]
#[must_use]
pub fn version() -> u32 {
    LIBRARY.version()
}

/// The first position, in reading order, where two pictures differ. All 256 lines count.
///
/// Refused with [`BAD_LENGTH`](Refusal::BAD_LENGTH), if one is not of [`PICTURE`](crate::PICTURE).
///
/// ```
/// let a = [0; joyce::PICTURE];
/// let mut b = a;
/// b[90 * 3 + 2] = 0x01;
/// assert_eq!(joyce::first_difference(&a, &b).accepted()?.at, Some((3, 23)));
/// # Ok::<(), joyce::Refusal>(())
/// ```
#[inline]
#[must_use = "it may have been refused"]
pub fn first_difference(a: &[u8], b: &[u8]) -> Difference {
    LIBRARY.first_difference(a, b).into()
}

/// Widens one line of [`LINE_BYTES`](crate::LINE_BYTES) to [`WIDE_LINE_BYTES`](crate::WIDE_LINE_BYTES), each pixel
/// twice.
///
/// # Errors
///
/// [`Refusal::BAD_LENGTH`], if one has another length.
///
/// ```
/// let mut wide = [0; joyce::WIDE_LINE_BYTES];
/// joyce::widen(&[0xA5; joyce::LINE_BYTES], &mut wide)?;
/// assert_eq!(wide[..2], [0xCC, 0x33]);
/// # Ok::<(), joyce::Refusal>(())
/// ```
#[inline]
pub fn widen(line: &[u8], out: &mut [u8]) -> Result<(), Refusal> {
    match LIBRARY.widen(line, out) {
        0 => Ok(()),
        number => Err(Refusal(number)),
    }
}

/// The pointer word for a line that starts in a block (0 to 7) at a start (0 to 16,383, bit 3 clear). [`read_pointer`]
/// gives both back.
///
/// Refused with [`BAD_NUMBER`](Refusal::BAD_NUMBER), if one is out of range.
///
/// ```
/// assert_eq!(joyce::make_pointer(1, 0x1930).accepted()?.word, 0x2C98);
/// # Ok::<(), joyce::Refusal>(())
/// ```
#[inline]
#[must_use = "it may have been refused"]
pub fn make_pointer(block: u32, start: u32) -> MadePointer {
    LIBRARY.make_pointer(block, start).into()
}

/// Block and start of any pointer word.
#[inline]
#[must_use]
pub fn read_pointer(word: u16) -> Pointer {
    LIBRARY.read_pointer(word).into()
}

/// The number from -128 to 127 that added to the old top line gives the new one, mod 256: by how many lines the picture
/// rolls up.
///
/// ```
/// assert_eq!((joyce::roll(250, 2), joyce::roll(0, 255)), (8, -1));
/// ```
#[inline]
#[must_use]
pub fn roll(old: u8, new: u8) -> i8 {
    LIBRARY.roll(old, new)
}

/// Where an access lands: the place in the block, and the blocks that are read and written.
///
/// Refused with [`BAD_SIZES`](Refusal::BAD_SIZES), if the sizes are not allowed.
///
/// ```
/// use joyce::{Access, Paging, Reach, Sizes};
///
/// // Bank 4000h reads block 2 and writes block 5.
/// let paging = Paging { maps: [0x80, 0x25, 0x82, 0x83], lock: 0 };
/// let access = Access { sizes: Sizes { internal: 8, total: 8 }, paging, address: 0x4001 };
/// assert_eq!(joyce::reach(&access), Reach { place: 1, read: 2, write: 5, refusal: 0 });
/// ```
#[inline]
#[must_use = "it may have been refused"]
pub fn reach(access: &Access) -> Reach {
    LIBRARY.reach(access).into()
}
