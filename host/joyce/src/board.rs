//! The calls on a record.

use crate::ffi::LIBRARY;
use crate::record::{Board, Sizes};
use crate::refusal::Refusal;
use crate::reply::{Answer, Drawn, NextLine};
use crate::step::StepNumbers;

/// What the host gives at power-on. The rest of a record starts the same each time.
#[derive(Clone, Copy, PartialEq, Eq, Debug, Default)]
pub struct PowerOn {
    /// How much RAM there is.
    pub sizes: Sizes,
    /// Frames in a second, 50 or 60.
    pub rate: u8,
    /// [`Paging::maps`](crate::Paging::maps).
    pub maps: [u8; 4],
    /// [`Paging::lock`](crate::Paging::lock).
    pub lock: u8,
    /// [`Video::table`](crate::Video::table).
    pub table: u8,
    /// [`Video::top`](crate::Video::top).
    pub top: u8,
}

impl Board {
    /// Powers a board on: in boot mode, at the boot stream's first byte; nothing shown, the video driven, terminal
    /// count on; all else off or 0, and all shown lines dirty.
    ///
    /// # Errors
    ///
    /// [`Refusal::BAD_SIZES`]: the sizes are not allowed, or the rate is neither 50 nor 60.
    ///
    /// ```
    /// use joyce::{Board, PowerOn, Refusal, Sizes};
    ///
    /// let on = PowerOn { sizes: Sizes { internal: 16, total: 32 }, rate: 60, ..PowerOn::default() };
    /// let board = Board::power_on(&on)?;
    /// assert_eq!((board.boot.mode, board.dirty.count()), (1, 200));
    /// let refused = Board::power_on(&PowerOn { rate: 55, ..on });
    /// assert_eq!(refused, Err(Refusal::BAD_SIZES));
    /// # Ok::<(), Refusal>(())
    /// ```
    #[inline]
    pub fn power_on(on: &PowerOn) -> Result<Board, Refusal> {
        let mut board = Board::default();
        Answer::from(LIBRARY.power_on(&mut board, on)).accepted().map(|_| board)
    }

    /// Makes one step on the record and the RAM. Of the boot stream only a fetch in boot mode takes a byte; where there
    /// is none, lend `&[]`.
    ///
    /// A step makes a shown line dirty exactly if it alters what the line is drawn from: table, top,
    /// [`REVERSE`](crate::REVERSE) or [`ENABLE`](crate::ENABLE), the line's pointer, or a byte that the pointer named
    /// before the step. Storing an equal byte alters nothing.
    ///
    /// A host may do without a step: read, and out of boot mode fetch, from the RAM's byte that [`reach`](crate::reach)
    /// names, and store there in blocks from 8 on. The step would do just that and leave the record as it is. But a
    /// byte that gets into blocks 0 to 7 without a step may never be drawn.
    ///
    /// Refused with [`BAD_RECORD`](Refusal::BAD_RECORD); with [`BAD_LENGTH`](Refusal::BAD_LENGTH), if the RAM is not of
    /// [`Sizes::ram_bytes`] or the boot stream is over [`BOOT_MAX`](crate::BOOT_MAX); with
    /// [`BAD_NUMBER`](Refusal::BAD_NUMBER), for a keyboard offset over 15 or numbers that are no step; with
    /// [`STREAM_ENDED`](Refusal::STREAM_ENDED); and with [`NO_PORT`](Refusal::NO_PORT). Then record and RAM are as they
    /// were.
    ///
    /// ```
    /// # use joyce::{Board, PowerOn, Refusal, Sizes, Step, BLOCK};
    /// # let on = PowerOn { sizes: Sizes { internal: 8, total: 8 }, rate: 50, maps: [0x80; 4], ..PowerOn::default() };
    /// # let (mut board, mut ram) = (Board::power_on(&on)?, vec![0; 8 * BLOCK]);
    /// let boot = [0x3E, 0x07];
    /// let fetched = board.step(Step::Fetch(0), &mut ram, &boot).accepted()?;
    /// assert_eq!((fetched.byte, board.boot.at), (0x3E, 1));
    ///
    /// board.step(Step::Write(0x1234, 0x99), &mut ram, &[]).accepted()?;
    /// assert_eq!(ram[0x1234], 0x99);
    ///
    /// let other = board.step(Step::PortIn(0xFC), &mut ram, &[]).accepted()?;
    /// assert!(other.forwarded);
    ///
    /// let answer = board.step(Step::PortIn(0xF0), &mut ram, &[]);
    /// assert_eq!(answer.accepted(), Err(Refusal::NO_PORT));
    /// # Ok::<(), Refusal>(())
    /// ```
    #[inline]
    #[must_use = "it may have been refused"]
    pub fn step(&mut self, step: impl Into<StepNumbers>, ram: &mut [u8], boot: &[u8]) -> Answer {
        LIBRARY.step(self, step.into(), ram, boot).into()
    }

    /// Draws all shown lines of a picture, and writes no other byte of it.
    ///
    /// Byte i of a line, from 0 to 89, is drawn from the RAM's byte at block x 16,384 + start + 8i, mod 131,072, block
    /// and start being those of the line's pointer: 0 without [`ENABLE`](crate::ENABLE), and every bit inverted with
    /// [`REVERSE`](crate::REVERSE).
    ///
    /// Refused with [`BAD_RECORD`](Refusal::BAD_RECORD), and with [`BAD_LENGTH`](Refusal::BAD_LENGTH), if the RAM is
    /// not of [`Sizes::ram_bytes`] or the picture not of [`PICTURE`](crate::PICTURE). Then nothing is written.
    #[inline]
    #[must_use = "it may have been refused"]
    pub fn draw(&self, ram: &[u8], picture: &mut [u8]) -> Drawn {
        LIBRARY.draw(self, ram, picture).into()
    }

    /// Draws the dirty lines as [`Board::draw`] would, and writes no other byte of the picture; no line is dirty
    /// afterwards. So if a board has had the same RAM and picture from power-on on, and nobody else has written on
    /// them, the picture is after each refresh what a draw would make of it. With another picture, or a record and RAM
    /// that were saved before, draw once.
    ///
    /// Refused as a draw is; then record and picture are as they were.
    ///
    /// ```
    /// # use joyce::{Board, PowerOn, Refusal, Sizes, Step, BLOCK, PICTURE};
    /// # let on = PowerOn { sizes: Sizes { internal: 8, total: 8 }, rate: 50, maps: [0x80; 4], ..PowerOn::default() };
    /// # let (mut board, mut ram) = (Board::power_on(&on)?, vec![0; 8 * BLOCK]);
    /// let mut picture = vec![0; PICTURE];
    /// assert_eq!(board.refresh(&ram, &mut picture).accepted()?.count, 256);
    ///
    /// // The table is at the front of block 0, so this alters the pointer of line 3.
    /// board.step(Step::Write(6, 1), &mut ram, &[]).accepted()?;
    /// assert_eq!(board.refresh(&ram, &mut picture).accepted()?.count, 1);
    /// # Ok::<(), Refusal>(())
    /// ```
    #[inline]
    #[must_use = "it may have been refused"]
    pub fn refresh(&mut self, ram: &[u8], picture: &mut [u8]) -> Drawn {
        LIBRARY.refresh(self, ram, picture).into()
    }

    /// The first dirty line at or after line n.
    ///
    /// Refused with [`BAD_RECORD`](Refusal::BAD_RECORD), and with [`BAD_NUMBER`](Refusal::BAD_NUMBER), if n is over
    /// 255.
    ///
    /// ```
    /// # use joyce::{Board, PowerOn, Refusal, Sizes};
    /// # let on = PowerOn { sizes: Sizes { internal: 8, total: 8 }, rate: 60, ..PowerOn::default() };
    /// # let board = Board::power_on(&on)?;
    /// // On 60 Hz lines from 200 on are not shown, and never dirty.
    /// assert_eq!(board.next_dirty(199).accepted()?.line, Some(199));
    /// assert_eq!(board.next_dirty(200).accepted()?.line, None);
    /// # Ok::<(), Refusal>(())
    /// ```
    #[inline]
    #[must_use = "it may have been refused"]
    pub fn next_dirty(&self, n: u32) -> NextLine {
        LIBRARY.next_dirty(self, n).into()
    }
}
