//! Writes text on a board's screen through the board's own steps.
//!
//! The screen is that of standard CP/M: 32 rows of 90 cells that follow each other without a gap, from block 1, 1930h, to
//! block 2, 332Fh, and the pointer table in block 2 at 3600h. Row 13 runs over the end of block 1, from column 72 on.

use super::font::Font;
use joyce::{Answer, Board, Drawn, MadePointer, NextLine, PowerOn, Sizes, Step, StepNumbers};
use joyce::{BLOCK, LINES, LINE_BYTES, PICTURE};
use joyce_host::machine::Machine;

pub const COLUMNS: usize = 90;
pub const ROWS: usize = 32;
/// The row that starts in block 1 and ends in block 2, and the first of its columns that is in block 2.
pub const ROW_ACROSS: usize = 13;
pub const COLUMN_ACROSS: usize = 72;
const ROW_BYTES: usize = 8 * COLUMNS;
/// The index of block 1, 1930h.
const FIRST_ROW: usize = BLOCK + 0x1930;
/// F5 for block 2, 3600h.
const TABLE: u8 = 2 << 5 | 27;
const TABLE_ADDRESS: u16 = 0x8000 + 0x3600;

pub struct Screen<'m> {
    pub machine: &'m dyn Machine,
    font: Font,
    pub board: Board,
    pub ram: Vec<u8>,
    pub picture: Vec<u8>,
    pub steps: u64,
}

/// Block and place of a row.
pub fn row_place(row: usize) -> (u32, u32) {
    let index = FIRST_ROW + ROW_BYTES * row;
    ((index / BLOCK) as u32, (index % BLOCK) as u32)
}

impl<'m> Screen<'m> {
    /// Powers a board on, ends boot mode, lays the pointer table and turns the video on.
    pub fn start(machine: &'m dyn Machine) -> Result<Screen<'m>, String> {
        let on = PowerOn {
            sizes: Sizes { internal: 16, total: 16 },
            rate: 50,
            // Block 1 at 4000h and block 2 at 8000h: the screen as the standard software maps it.
            maps: [0x80, 0x81, 0x82, 0x87],
            lock: 0,
            table: TABLE,
            top: 0,
        };
        let mut board = Board::default();
        let refusal = machine.power_on(&mut board, &on).refusal();
        if refusal != 0 {
            return Err(format!("power-on refused with {refusal}"));
        }
        let ram = vec![0; 16 * BLOCK];
        let mut screen = Screen { machine, font: Font::new(), board, ram, picture: vec![0; PICTURE], steps: 0 };
        screen.step(Step::PortOut(0xF8, 0))?;
        screen.lay_table()?;
        screen.step(Step::PortOut(0xF7, 0x40))?;
        Ok(screen)
    }

    pub fn step(&mut self, step: Step) -> Result<Answer, String> {
        let step = StepNumbers::from(step);
        let answer = Answer::from(self.machine.step(&mut self.board, step, &mut self.ram, &[]));
        self.steps += 1;
        match answer.refusal {
            0 => Ok(answer),
            refusal => Err(format!("{step:?} refused with {refusal}")),
        }
    }

    fn lay_table(&mut self) -> Result<(), String> {
        for line in 0..256u16 {
            let (block, start) = row_place(line as usize / 8);
            let made = MadePointer::from(self.machine.make_pointer(block, start + line as u32 % 8));
            if made.refusal != 0 {
                return Err(format!("pointer of line {line} refused with {}", made.refusal));
            }
            let [low, high] = made.word.to_le_bytes();
            self.step(Step::Write(TABLE_ADDRESS + 2 * line, low))?;
            self.step(Step::Write(TABLE_ADDRESS + 2 * line + 1, high))?;
        }
        Ok(())
    }

    /// Writes the eight bytes of a cell, every bit inverted on demand.
    pub fn cell(&mut self, row: usize, column: usize, character: char, inverted: bool) -> Result<(), String> {
        let (block, place) = row_place(row);
        let address = block * BLOCK as u32 + place + 8 * column as u32;
        let glyph = self.font.glyph(character);
        for (line, bits) in glyph.into_iter().enumerate() {
            let value = if inverted { !bits } else { bits };
            self.step(Step::Write(address as u16 + line as u16, value))?;
        }
        Ok(())
    }

    /// Writes a row of text, blanks to its end.
    pub fn row(&mut self, row: usize, text: &str) -> Result<(), String> {
        let mut characters = text.chars();
        (0..COLUMNS).try_for_each(|column| self.cell(row, column, characters.next().unwrap_or(' '), false))
    }

    /// Whether the picture shows a text from a cell on, each of its letters whole. The top line must be 0.
    pub fn shows(&self, row: usize, column: usize, text: &str) -> bool {
        text.chars().zip(column..).all(|(letter, column)| {
            let cell = 8 * row * LINE_BYTES + column;
            (0..8).all(|line| self.picture[cell + line * LINE_BYTES] == self.font.glyph(letter)[line])
        })
    }

    /// The lines that the next refresh will draw, in order.
    pub fn dirty_lines(&self) -> Result<Vec<u8>, String> {
        let mut lines = Vec::new();
        let mut from = 0;
        while from < LINES as u32 {
            let next = NextLine::from(self.machine.next_dirty(&self.board, from));
            match (next.refusal, next.line) {
                (0, Some(line)) => {
                    lines.push(line);
                    from = u32::from(line) + 1;
                }
                (0, None) => break,
                (refusal, _) => return Err(format!("the next dirty line refused with {refusal}")),
            }
        }
        Ok(lines)
    }

    /// Brings the picture up to date.
    pub fn refresh(&mut self) -> Result<Drawn, String> {
        let drawn = Drawn::from(self.machine.refresh(&mut self.board, &self.ram, &mut self.picture));
        match drawn.refusal {
            0 => Ok(drawn),
            refusal => Err(format!("refresh refused with {refusal}")),
        }
    }
}

#[cfg(test)]
mod tests {
    use super::*;
    use joyce_host::machine::Model;

    #[test]
    fn rows_follow_each_other() {
        assert_eq!(row_place(0), (1, 0x1930));
        assert_eq!(row_place(ROW_ACROSS), (1, 0x3DC0));
        assert_eq!(0x3DC0 + 8 * COLUMN_ACROSS, BLOCK);
        assert_eq!(row_place(ROWS), (2, 0x3330));
    }

    #[test]
    fn cells_are_looked_at_whole() {
        let mut screen = Screen::start(&Model).expect("a screen");
        let text = "0123456789".repeat(9);
        screen.row(ROW_ACROSS, &text).expect("a row");
        screen.refresh().expect("a picture");
        let end = &text[COLUMN_ACROSS..];
        assert!(screen.shows(ROW_ACROSS, COLUMN_ACROSS, end));
        for (line, column) in (0..8).flat_map(|line| (0..COLUMNS).map(move |column| (line, column))) {
            let at = (8 * ROW_ACROSS + line) * LINE_BYTES + column;
            screen.picture[at] ^= 0x10;
            assert_eq!(screen.shows(ROW_ACROSS, COLUMN_ACROSS, end), column < COLUMN_ACROSS);
            screen.picture[at] ^= 0x10;
        }
    }
}
