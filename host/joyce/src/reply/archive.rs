//! The answers about archives. A refused one carries its refusal and nothing else.

use super::Reply;

/// What a start or an add gives.
#[derive(Clone, Copy, PartialEq, Eq, Debug, Default)]
pub struct Length {
    /// The bytes of the archive that was written.
    pub length: u32,
    /// The number of the refusal, 0 for none.
    pub refusal: u8,
}

impl From<Reply> for Length {
    #[inline]
    fn from(r: Reply) -> Length {
        Length { length: r.0 as u32, refusal: r.refusal() }
    }
}

/// What a count gives.
#[derive(Clone, Copy, PartialEq, Eq, Debug, Default)]
pub struct Count {
    /// How many frames the archive holds.
    pub frames: u32,
    /// The number of the refusal, 0 for none.
    pub refusal: u8,
}

impl From<Reply> for Count {
    #[inline]
    fn from(r: Reply) -> Count {
        Count { frames: r.0 as u32, refusal: r.refusal() }
    }
}

/// What a find gives.
#[derive(Clone, Copy, PartialEq, Eq, Debug, Default)]
pub struct Found {
    /// The entry that has the bench and number, if one has.
    pub index: Option<u16>,
    /// The number of the refusal, 0 for none.
    pub refusal: u8,
}

impl From<Reply> for Found {
    #[inline]
    fn from(r: Reply) -> Found {
        Found { index: r.found().then_some(r.value()), refusal: r.refusal() }
    }
}

/// What an entry or a read gives.
#[derive(Clone, Copy, PartialEq, Eq, Debug, Default)]
pub struct Entry {
    /// The frame's bench, 1 to 65,535.
    pub bench: u16,
    /// The frame's number.
    pub number: u32,
    /// Shown lines: 200 or 256; 0 where refused.
    pub shown: u16,
    /// The number of the refusal, 0 for none.
    pub refusal: u8,
}

impl From<Reply> for Entry {
    #[inline]
    fn from(r: Reply) -> Entry {
        let shown = match r.0 >> 56 & 3 {
            0 => 0,
            1 => 200,
            _ => 256,
        };
        Entry { bench: r.pixel(), number: r.0 as u32, shown, refusal: r.refusal() }
    }
}
