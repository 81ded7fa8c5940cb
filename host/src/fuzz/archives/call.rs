//! One call on an archive, kept as plain values.

use joyce::archive::Fields;
use std::fmt;

#[derive(Clone, Copy, PartialEq, Eq, Debug)]
pub enum Call {
    Start {
        room: usize,
    },
    Count,
    Entry {
        k: u32,
    },
    Find {
        bench: u32,
        number: u32,
    },
    /// The picture lent has this length.
    Read {
        k: u32,
        picture: usize,
    },
    Add {
        fields: Fields,
        picture: usize,
        /// Where in the random bytes the picture is taken from, so that pictures differ.
        from: usize,
        room: usize,
    },
}

impl Call {
    /// Whether an accepted call writes to lent memory.
    pub fn writes(&self) -> bool {
        matches!(self, Call::Start { .. } | Call::Read { .. } | Call::Add { .. })
    }
}

impl fmt::Display for Call {
    fn fmt(&self, f: &mut fmt::Formatter<'_>) -> fmt::Result {
        match self {
            Call::Start { room } => write!(f, "start an archive; lent room {room}"),
            Call::Count => write!(f, "count"),
            Call::Entry { k } => write!(f, "entry {k}"),
            Call::Find { bench, number } => write!(f, "find bench {bench}, number {number}"),
            Call::Read { k, picture } => write!(f, "read entry {k}; lent picture {picture}"),
            Call::Add { fields: Fields { bench, number, shown }, picture, from, room } => write!(
                f,
                "add bench {bench}, number {number}, shown {shown}; lent picture {picture} (from {from}), room {room}"
            ),
        }
    }
}
