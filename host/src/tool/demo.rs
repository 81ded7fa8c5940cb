//! `joyce demo`: a ledger page on a board's screen, kept up to date by refreshes.

mod page;
mod places;
mod refreshed;

use super::archive::Kept;
use super::args::Args;
use super::files::Batch;
use super::out::Out;
use super::screen::{row_place, Screen, COLUMNS, COLUMN_ACROSS, ROW_ACROSS};
use super::{ledger, picture, preview};
use joyce::archive::Fields;
use joyce::{Difference, Step};
use joyce_host::machine::Machine;
use places::Places;
use refreshed::Refreshed;

const FRAME: u32 = 312;
/// Bench and number that the entered line's screen is kept under, and its lines at 50 Hz.
const KEPT: Fields = Fields { bench: 12, number: 345, shown: 256 };
/// Which of the refreshes shows the entered line.
const ENTERED: usize = 1;

pub fn run(machine: &dyn Machine, args: &Args) -> Result<bool, String> {
    args.expect_words(0, "no file but those of -o and --html")?;
    let places = Places::of(machine, args)?;
    let out = places.out();
    let mut demo = Demo { screen: Screen::start(machine)?, out, refreshed: Vec::new() };
    demo.play()?;

    let Demo { screen, refreshed, .. } = &demo;
    let entered = &refreshed[ENTERED].picture;
    let mut batch = Batch::default();
    batch.add(&places.picture, &picture::encode(&places.picture.name, &screen.picture))?;
    if let Some(archive) = &places.archive {
        batch.add(archive, &Kept::started(machine, &archive.name)?.with(KEPT, entered)?)?;
    }
    if let Some(page) = &places.page {
        batch.add(page, page::html(refreshed).as_bytes())?;
    }

    preview::write(out, &screen.picture)?;
    out.line(&format!("{} steps made; picture {}", screen.steps, places.picture.place()))?;
    if let Some(archive) = &places.archive {
        out.line(&looked_up(&Kept::of(machine, &archive.name, batch.read_back(archive)?), entered)?)?;
    }
    if let Some(page) = &places.page {
        out.line(&format!("{} pictures on the page {}", refreshed.len(), page.place()))?;
    }
    batch.done()?;
    Ok(true)
}

/// Looks the kept screen up in its archive.
fn looked_up(kept: &Kept, screen: &[u8]) -> Result<String, String> {
    let path = kept.path;
    let (entry, read) = kept.read(0)?;
    let difference = Difference::from(kept.machine.first_difference(&read, screen));
    if difference != Difference::default() {
        return Err(format!("{path}: read back, the screen is another: {difference:?}"));
    }
    Ok(format!(
        "the screen with the line entered is kept in {path}: bench {}, number {}; read back, it is the same",
        entry.bench, entry.number
    ))
}

struct Demo<'m> {
    screen: Screen<'m>,
    out: Out,
    refreshed: Vec<Refreshed>,
}

impl Demo<'_> {
    fn play(&mut self) -> Result<(), String> {
        write_page(&mut self.screen)?;
        self.refresh("the page is put up", "The screen was dark. The whole page is new, so every line is sent.")?;
        self.out.line(&look_across(&self.screen)?)?;
        enter_line(&mut self.screen)?;
        let why = "A row of letters is eight lines high. Only those eight have changed.";
        self.refresh("the clerk enters a line", why)?;
        invert_cell(&mut self.screen)?;
        let why = "A block, one letter wide, is lit behind the entry, as a cursor is. It is in the same eight lines.";
        self.refresh("one cell is inverted", why)?;
        let ticks = scan_frames(&mut self.screen, 50)?;
        let why = "A second goes by. The monitor shows the picture fifty times and a timer ticks, but no dot changes.";
        self.refresh(&format!("50 frames are scanned, {ticks} ticks counted"), why)?;
        let roll = roll_up(&mut self.screen)?;
        let why = "The page moves up by a row. Every line of the screen now has another line of the page, and is sent.";
        self.refresh(&format!("the page rolls up by {roll} lines"), why)?;
        same_again(&mut self.screen)?;
        let why = "The same letters are written over themselves. No dot changes, and the box notices that.";
        self.refresh("two rows are written again as they stand", why)
    }

    /// Refreshes the picture, after something has happened, and tells what that sent.
    fn refresh(&mut self, what: &str, why: &'static str) -> Result<(), String> {
        let lines = self.screen.dirty_lines()?;
        let drawn = self.screen.refresh()?;
        if drawn.count as usize != lines.len() {
            return Err(format!("{what}: {} lines drawn, but {} were dirty", drawn.count, lines.len()));
        }
        let (what, picture) = (what.to_string(), self.screen.picture.clone());
        let refreshed = Refreshed { what, why, lines, floating: drawn.floating, picture };
        self.out.line(&format!("{}: {}", refreshed.what, refreshed.sums()))?;
        self.refreshed.push(refreshed);
        Ok(())
    }
}

fn write_page(screen: &mut Screen) -> Result<(), String> {
    let page = ledger::page();
    page.iter().enumerate().try_for_each(|(row, text)| screen.row(row, text))
}

/// Looks in the picture at the row that runs over the end of a block: what is past it must be there, and whole.
fn look_across(screen: &Screen) -> Result<String, String> {
    let (block, place) = row_place(ROW_ACROSS);
    let row = format!("{:<COLUMNS$}", ledger::page()[ROW_ACROSS]);
    let (end, last) = (&row[COLUMN_ACROSS..], COLUMNS - 1);
    let across = format!("row {ROW_ACROSS} runs from block {block}, {place:04X}h, on into block {}", block + 1);
    if !screen.shows(ROW_ACROSS, COLUMN_ACROSS, end) {
        return Err(format!("{across}, but columns {COLUMN_ACROSS} to {last} of the picture do not read \"{end}\""));
    }
    Ok(format!("{across}: columns {COLUMN_ACROSS} to {last} read \"{end}\""))
}

fn enter_line(screen: &mut Screen) -> Result<(), String> {
    let (row, text) = ledger::entered();
    screen.row(row, &text)
}

fn invert_cell(screen: &mut Screen) -> Result<(), String> {
    let (row, text) = ledger::entered();
    let end = text.len();
    screen.cell(row, end, ' ', true)
}

/// Scans whole frames, the counter read after each; gives the ticks read.
fn scan_frames(screen: &mut Screen, frames: u32) -> Result<u32, String> {
    let mut ticks = 0;
    for _ in 0..frames {
        for _ in 0..FRAME {
            screen.step(Step::Scan)?;
        }
        ticks += (screen.step(Step::PortIn(0xF4))?.byte & 15) as u32;
    }
    Ok(ticks)
}

/// Clears the top row, which becomes the bottom one, and moves the top line on by eight.
fn roll_up(screen: &mut Screen) -> Result<i8, String> {
    screen.row(0, "")?;
    let old = screen.board.video.top;
    let new = old.wrapping_add(8);
    screen.step(Step::PortOut(0xF6, new))?;
    Ok(screen.machine.roll(old, new))
}

/// Bytes equal to those already there go down no cable.
fn same_again(screen: &mut Screen) -> Result<(), String> {
    let page = ledger::page();
    [1, 2].into_iter().try_for_each(|row| screen.row(row, &page[row]))
}

#[cfg(all(test, feature = "standin"))]
mod tests {
    use super::*;
    use joyce_host::standin::{Faulty, BOARD_FAULTS};

    #[test]
    fn a_line_that_wraps_in_its_block_is_seen() {
        assert_eq!(BOARD_FAULTS[17 - 1], "a line wraps in its block");
        for (fault, whole) in [(0, true), (17, false)] {
            let machine = Faulty(fault);
            let mut screen = Screen::start(&machine).expect("a screen");
            write_page(&mut screen).expect("a page");
            screen.refresh().expect("a picture");
            assert_eq!(look_across(&screen).is_ok(), whole);
        }
    }
}
