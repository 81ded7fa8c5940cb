//! `joyce diff`: where two pictures differ first.

use super::args::Args;
use super::{out, picture};
use joyce::Difference;
use joyce_host::machine::Machine;

/// True if the pictures are equal.
pub fn run(machine: &dyn Machine, args: &Args) -> Result<bool, String> {
    args.expect_words(2, "two pictures")?;
    let (a, b) = (args.words[0].as_str(), args.words[1].as_str());
    if (a, b) == ("-", "-") {
        return Err("only one of the two pictures can come from standard input".to_string());
    }
    let (a, b) = (picture::read(a)?, picture::read(b)?);
    let difference = Difference::from(machine.first_difference(&a, &b));
    match (difference.refusal, difference.at) {
        (0, None) => out::line("the pictures are equal")?,
        (0, Some((line, pixel))) => out::line(&format!("they differ first at line {line}, pixel {pixel}"))?,
        (refusal, _) => return Err(format!("refused with {refusal}")),
    }
    Ok(difference.at.is_none())
}
