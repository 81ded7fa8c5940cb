//! `joyce stack` where there is nothing to measure: the stand-in is not what ships, and the calls are those of x86-64.

use super::args::Args;
use joyce_host::machine::Machine;

pub fn run(_: &dyn Machine, args: &Args) -> Result<bool, String> {
    args.expect_words(0, "flags only")?;
    args.number("--limit", 0)?;
    Err("stack: measured only on the linked library (not with --features standin), and on x86-64".to_string())
}
