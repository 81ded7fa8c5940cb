//! `joyce stack`: the bytes of stack that each function of the header uses on the linked library, and each kind of step.

mod caller;
mod functions;
mod lent;
mod made_up;
mod report;
mod scene;
mod scenes;
mod values;

use super::args::Args;
use super::out;
use caller::Stack;
use functions::{Function, FUNCTIONS};
use joyce_host::fuzz::Rng;
use joyce_host::machine::Machine;
use report::Row;
use values::Source;

/// Bytes of stack on the small box, for all that runs there.
const BOX: usize = 2_048;
/// What the caller keeps of them, for its own frames and an interrupt's.
const KEPT: usize = 1_024;
/// What a call may use.
const MOST: usize = BOX - KEPT;

/// The function that has scenes.
const STEP: &str = "joyce_step";

/// True if no function uses more than a call may.
pub fn run(_: &dyn Machine, args: &Args) -> Result<bool, String> {
    args.expect_words(0, "flags only")?;
    let limit = args.number("--limit", MOST as u64)? as usize;
    let rows = rows()?;
    out::write(&report::text(&rows, limit))?;
    Ok(report::within(&rows, limit))
}

fn rows() -> Result<Vec<Row>, String> {
    if !FUNCTIONS.iter().any(|function| function.name == STEP) {
        return Err(format!("stack: the header has no {STEP}, so no kind of step was measured"));
    }
    let (mut stack, source) = (Stack::new(), Source::new(&mut Rng::new(0)));
    FUNCTIONS.iter().map(|function| row(&mut stack, function, &source)).collect()
}

fn row(stack: &mut Stack, function: &Function, source: &Source) -> Result<Row, String> {
    let mut row = Row { name: function.name, used: made_up::measure(stack, function, source)?, scenes: Vec::new() };
    if function.name == STEP {
        for scene in scenes::all() {
            let used = scene::measure(stack, function, &scene)?;
            row.scenes.push((scene.name, used));
            row.used = row.used.max(used);
        }
    }
    Ok(row)
}
