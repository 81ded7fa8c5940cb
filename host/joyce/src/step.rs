//! The nine kinds of step.

/// One thing that happens to a board, to be made by [`Board::step`](crate::Board::step).
///
/// The board answers these ports itself; their values stand in the record.
///
/// | port | out | in |
/// |---|---|---|
/// | F0 to F3 | [`maps`](crate::Paging::maps) | |
/// | F4 | [`lock`](crate::Paging::lock) | the status byte, and then the counter is 0 |
/// | F5, F6, F7 | [`table`](crate::Video::table), [`top`](crate::Video::top), [`control`](crate::Video::control) | |
/// | F8 | a command, the value's low four bits | the status byte |
/// | FA, FB | accepted, to no effect | |
///
/// The status byte is the counter, plus 16 on 50 Hz, plus 32 while the disc line is on, plus 64 while the beam is
/// before scan 26. Commands are 0 end boot mode; 1 reset; 2 route the disc line to NMI, 3 to INT, 4 to neither; and, on
/// and off, 5 and 6 terminal count, 7 and 8 the video driven, 9 and 10 the motor, 11 and 12 the bleeper. A reset is the
/// Z80's too, which the host sees to: the answer does not say so.
///
/// Ports 00 (in), 01, 80 to EF, FC and FD belong to other devices: the step is accepted, changes nothing, and its
/// answer says `forwarded`. Every other port is refused. A port is the low eight bits of the Z80's port address.
#[derive(Clone, Copy, PartialEq, Eq, Debug)]
pub enum Step {
    /// The Z80 fetches an opcode from an address; in boot mode it gets the boot stream's next byte, and operand bytes
    /// are fetches too.
    Fetch(u16),
    /// The Z80 reads a byte from an address.
    Read(u16),
    /// The Z80 writes a byte to an address.
    Write(u16, u8),
    /// The Z80 reads a port.
    PortIn(u8),
    /// The Z80 writes a byte to a port.
    PortOut(u8, u8),
    /// The beam goes on by one scan, which takes 64 us, 256 T-states of the Z80. One scan in 52 brings a tick of the
    /// timer.
    Scan,
    /// The keyboard stores a byte in its table, at an offset from 0 to 15. The table is at the end of block 3.
    Keyboard(u8, u8),
    /// The disc controller turns its interrupt line on or off.
    DiscLine(bool),
    /// The external interrupt line goes on or off.
    ExternalLine(bool),
}

/// A step as the C interface takes it: any numbers. What is no step is refused with
/// [`Refusal::BAD_NUMBER`](crate::Refusal::BAD_NUMBER).
///
/// ```
/// use joyce::{Step, StepNumbers};
///
/// assert_eq!(StepNumbers::from(Step::Write(0x4000, 7)), StepNumbers::new(3, 0x4000, 7));
/// ```
#[derive(Clone, Copy, PartialEq, Eq, Debug, Default)]
pub struct StepNumbers {
    /// 1 to 9, in the order of [`Step`].
    pub kind: u32,
    /// The address, port or offset; 0 where there is none.
    pub number: u32,
    /// The byte, or 1 for on; 0 where there is none.
    pub value: u32,
}

impl StepNumbers {
    /// The step of a kind, number and value.
    #[inline]
    pub const fn new(kind: u32, number: u32, value: u32) -> StepNumbers {
        StepNumbers { kind, number, value }
    }
}

impl From<Step> for StepNumbers {
    #[inline]
    fn from(step: Step) -> StepNumbers {
        let (kind, number, value) = match step {
            Step::Fetch(address) => (1, address.into(), 0),
            Step::Read(address) => (2, address.into(), 0),
            Step::Write(address, value) => (3, address.into(), value),
            Step::PortIn(port) => (4, port.into(), 0),
            Step::PortOut(port, value) => (5, port.into(), value),
            Step::Scan => (6, 0, 0),
            Step::Keyboard(offset, value) => (7, offset.into(), value),
            Step::DiscLine(on) => (8, 0, on.into()),
            Step::ExternalLine(on) => (9, 0, on.into()),
        };
        StepNumbers { kind, number, value: value.into() }
    }
}
