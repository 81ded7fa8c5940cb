//! A board from power-on to its first picture: cargo run -p joyce --example page

use joyce::{Answer, Board, PowerOn, Refusal, Sizes, Step, BLOCK, ENABLE, LINE_BYTES, PICTURE};

/// Where the picture's bytes are: from block 1, 0000h, on. A row of eight lines has 720 bytes, and they go by cells:
/// the eight bytes of a cell stand one after the other, and are one below the other on the screen.
const SCREEN: u32 = BLOCK as u32;
const ROW: u32 = 8 * LINE_BYTES as u32;
/// The pointer table is in block 3, at 0000h: it has a pointer for each line.
const TABLE: u8 = 3 << 5;

/// The eight bytes of a letter J.
const LETTER: [u8; 8] = [0x1E, 0x0C, 0x0C, 0x0C, 0xCC, 0xCC, 0x78, 0x00];

/// A board, and all the memory that it is lent. The library has none of its own.
struct Host {
    board: Board,
    ram: Vec<u8>,
    picture: Vec<u8>,
}

impl Host {
    /// Whatever the Z80 does is a step. One that is refused has changed nothing, so that the host may go on with
    /// another.
    fn step(&mut self, step: Step) -> Result<Answer, Refusal> {
        self.board.step(step, &mut self.ram, &[]).accepted()
    }

    /// Draws what may have changed. Only these lines need go to the screen.
    fn refresh(&mut self, what: &str) -> Result<(), Refusal> {
        let drawn = self.board.refresh(&self.ram, &mut self.picture).accepted()?;
        println!("{what}: {} lines drawn", drawn.count);
        Ok(())
    }
}

fn power_on() -> Result<Host, Refusal> {
    let on = PowerOn {
        // 8 blocks of 16,384 bytes: all of it the board's own.
        sizes: Sizes { internal: 8, total: 8 },
        rate: 50,
        // With bit 7 set, a map names the block for reads and writes: blocks 0 to 3, one behind the other.
        maps: [0x80, 0x81, 0x82, 0x83],
        lock: 0,
        table: TABLE,
        top: 0,
    };
    let board = Board::power_on(&on)?;
    Ok(Host { board, ram: vec![0; on.sizes.ram_bytes()], picture: vec![0; PICTURE] })
}

/// Lays the pointer table, as the Z80 would: block 3 is at C000h.
fn lay_table(host: &mut Host) -> Result<(), Refusal> {
    for line in 0..256 {
        let at = SCREEN + line / 8 * ROW + line % 8;
        let pointer = joyce::make_pointer(at / BLOCK as u32, at % BLOCK as u32).accepted()?;
        let [low, high] = pointer.word.to_le_bytes();
        let address = 0xC000 + 2 * line as u16;
        host.step(Step::Write(address, low))?;
        host.step(Step::Write(address + 1, high))?;
    }
    Ok(())
}

/// Writes a letter into the first cell of the second row; block 1 is at 4000h.
fn write_letter(host: &mut Host) -> Result<(), Refusal> {
    let cell = (SCREEN + ROW) as u16;
    (cell..).zip(LETTER).try_for_each(|(address, byte)| host.step(Step::Write(address, byte)).map(drop))
}

/// The lines of the second row, the first 16 pixels of each.
fn print_row(picture: &[u8]) {
    for line in picture.chunks(LINE_BYTES).skip(8).take(8) {
        println!("    {:08b}{:08b}", line[0], line[1]);
    }
}

fn page() -> Result<(), Refusal> {
    let mut host = power_on()?;
    // Fetches come from the boot stream until command 0 ends boot mode.
    host.step(Step::PortOut(0xF8, 0))?;
    lay_table(&mut host)?;
    host.step(Step::PortOut(0xF7, ENABLE))?;
    host.refresh("power-on, table and video")?;

    write_letter(&mut host)?;
    let first = host.board.next_dirty(0).accepted()?.line;
    println!("a letter is written; the first dirty line is {first:?}");
    // Seven lines, not eight: the last byte of the letter is 0, as it was before.
    host.refresh("letter")?;
    print_row(&host.picture);

    // The same bytes again change nothing, so there is nothing to draw.
    write_letter(&mut host)?;
    host.refresh("the same letter again")?;

    // What is not accepted says why.
    if let Err(refusal) = host.step(Step::PortIn(0xF0)) {
        println!("port F0 cannot be read: {refusal}");
    }
    // A port of another device is the host's to serve.
    let answer = host.step(Step::PortIn(0xFC))?;
    println!("port FC: forwarded {}", answer.forwarded);
    Ok(())
}

fn main() {
    if let Err(refusal) = page() {
        eprintln!("page: {refusal}");
        std::process::exit(1);
    }
}
