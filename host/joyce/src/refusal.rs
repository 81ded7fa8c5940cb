//! Why a call was refused.

use core::fmt;

/// The number of a refusal. A call that is refused has changed nothing.
///
/// ```
/// use joyce::Refusal;
///
/// assert_eq!(Refusal::BAD_LENGTH.to_string(), "refused with 2: a lent buffer has the wrong length");
/// ```
#[derive(Clone, Copy, PartialEq, Eq, Debug)]
pub struct Refusal(
    /// Never 0 in what a call gives: that says accepted.
    pub u8,
);

impl Refusal {
    /// The record is not good.
    pub const BAD_RECORD: Refusal = Refusal(1);
    /// A lent buffer has the wrong length.
    pub const BAD_LENGTH: Refusal = Refusal(2);
    /// A number is out of range, or is given where none is taken.
    pub const BAD_NUMBER: Refusal = Refusal(3);
    /// A fetch in boot mode, at or past the boot stream's end.
    pub const STREAM_ENDED: Refusal = Refusal(4);
    /// Not a port of this board.
    pub const NO_PORT: Refusal = Refusal(5);
    /// Sizes that are not allowed, or a rate other than 50 or 60.
    pub const BAD_SIZES: Refusal = Refusal(6);
    /// Not a sound archive.
    pub const BAD_ARCHIVE: Refusal = Refusal(10);
    /// The bench and number are there already, a field is out of range, or there is no such entry.
    pub const BAD_FRAME: Refusal = Refusal(11);
    /// The archive is full, or its new length is over the room lent.
    pub const NO_ROOM: Refusal = Refusal(12);

    fn meaning(self) -> &'static str {
        match self {
            Refusal::BAD_RECORD => "the record is not good",
            Refusal::BAD_LENGTH => "a lent buffer has the wrong length",
            Refusal::BAD_NUMBER => "a number is out of range, or is given where none is taken",
            Refusal::STREAM_ENDED => "the boot stream has ended",
            Refusal::NO_PORT => "the board has no such port",
            Refusal::BAD_SIZES => "the sizes are not allowed, or the rate is neither 50 nor 60",
            Refusal::BAD_ARCHIVE => "not a sound archive",
            Refusal::BAD_FRAME => "the frame is there already, a field is out of range, or there is no such entry",
            Refusal::NO_ROOM => "the archive is full, or its new length is over the room lent",
            _ => "no refusal of this version",
        }
    }
}

/// Number and meaning.
impl fmt::Display for Refusal {
    fn fmt(&self, f: &mut fmt::Formatter<'_>) -> fmt::Result {
        write!(f, "refused with {}: {}", self.0, self.meaning())
    }
}
