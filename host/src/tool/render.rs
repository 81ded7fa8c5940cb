//! `joyce render`: draws the screen of a RAM file.

use super::args::Args;
use super::destination::Destination;
use super::input::{self, Length};
use super::picture;
use joyce::{Board, Drawn, PowerOn, Sizes, Step, BLOCK, LINES, LINE_BYTES, PICTURE};
use joyce_host::machine::Machine;

const MOST_BLOCKS: usize = 128;

/// The sizes a RAM of this length can have; drawing is the same for each of them.
fn sizes_of(length: Length) -> Result<Sizes, String> {
    let total = (8..=MOST_BLOCKS).find(|total| length == Length::Exactly((total * BLOCK) as u64));
    let total = total.ok_or(format!("a RAM of {length}; it must be 8 to {MOST_BLOCKS} blocks of {BLOCK}"))?;
    Ok(Sizes { internal: 8, total: total as u8 })
}

pub fn run(machine: &dyn Machine, args: &Args) -> Result<bool, String> {
    args.expect_words(1, "one RAM file")?;
    let table = args.hex_byte("--f5", 0x5B)?;
    let top = args.hex_byte("--f6", 0x00)?;
    let control = args.hex_byte("--f7", 0x40)?;
    let (rate, shown) = match args.number("--rate", 50)? {
        50 => (50, LINES),
        60 => (60, 200),
        other => return Err(format!("--rate: {other} is neither 50 nor 60")),
    };
    let name = args.words[0].as_str();
    let output = Destination::of(args.text("-o").unwrap_or("screen.pbm"))?;
    if output.replaces(name) {
        return Err(format!("-o: {} is the RAM itself", output.name));
    }
    let (mut ram, sizes) = input::read(name, MOST_BLOCKS * BLOCK, sizes_of)?;

    let on = PowerOn { sizes, rate, table, top, ..PowerOn::default() };
    let picture = drawn(machine, &on, control, &mut ram)?;
    // A person sees the shown lines; the bare bits have them all.
    let lines = if picture::is_png_name(&output.name) { shown } else { LINES };
    picture::write(&output, &picture[..lines * LINE_BYTES], &format!("{shown} lines shown"))?;
    Ok(true)
}

fn drawn(machine: &dyn Machine, on: &PowerOn, control: u8, ram: &mut [u8]) -> Result<Vec<u8>, String> {
    let mut board = Board::default();
    let mut picture = vec![0; PICTURE];
    let powered = machine.power_on(&mut board, on).refusal();
    let video = machine.step(&mut board, Step::PortOut(0xF7, control).into(), ram, &[]).refusal();
    let draw = Drawn::from(machine.draw(&board, ram, &mut picture)).refusal;
    match powered.max(video).max(draw) {
        0 => Ok(picture),
        refusal => Err(format!("refused with {refusal}")),
    }
}
