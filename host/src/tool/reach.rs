//! `joyce reach`: the reach list of what comes from standard input.

use super::args::Args;
use super::input::Input;
use super::out;
use joyce::Reach;
use joyce_host::machine::Machine;
use joyce_host::model::{reach_lines, GROUP, REACH_HEAD};

/// Bytes that are worked through at a time: whole groups.
const PIECE: usize = 4_096 * GROUP;

pub fn run(machine: &dyn Machine, args: &Args) -> Result<bool, String> {
    args.expect_words(0, "groups on standard input")?;
    let mut input = Input::open("-")?;
    let mut text = String::from(REACH_HEAD);
    loop {
        let piece = input.piece(PIECE)?;
        text += &reach_lines(&piece, |access| Reach::from(machine.reach(access)));
        out::write(&text)?;
        text.clear();
        if piece.len() < PIECE {
            return Ok(true);
        }
    }
}
