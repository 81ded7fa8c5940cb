//! `joyce archive`: frames kept in a file. Every operation is the library's; the tool reads and writes the file.

mod check;
mod extract;
mod kept;

use super::args::Args;
use super::destination::Destination;
use super::lock::Lock;
use super::out::Out;
use super::{files, input, out, picture, preview};
pub use check::run as check;
pub use extract::run as extract;
use joyce::archive::{Entry, Fields};
use joyce::{LINE_BYTES, PICTURE};
use joyce_host::machine::Machine;
pub use kept::Kept;
use std::fs;

pub fn new(machine: &dyn Machine, args: &Args) -> Result<bool, String> {
    args.expect_words(1, "one FILE")?;
    let path = args.words[0].as_str();
    let there = || format!("{path}: there already; it is left as it is");
    if fs::symlink_metadata(path).is_ok() {
        return Err(there());
    }
    let file = Destination::file_of(path)?;
    let _lock = Lock::take(&file)?;
    // Another may have made it in between.
    if fs::symlink_metadata(path).is_ok() {
        return Err(there());
    }
    files::write(&file, &Kept::started(machine, path)?.bytes, &format!("{path}: an archive of no frames"))?;
    Ok(true)
}

/// A number of 32 bits that must be given.
fn number(args: &Args, flag: &str) -> Result<u32, String> {
    if args.text(flag).is_none() {
        return Err(format!("{flag} is needed"));
    }
    let number = args.number(flag, 0)?;
    u32::try_from(number).map_err(|_| format!("{flag}: {number} is over {}", u32::MAX))
}

/// The index of an entry.
fn index(text: &str) -> Result<u32, String> {
    text.parse().map_err(|_| format!("{text} is not the index of an entry; they count from 0"))
}

pub fn add(machine: &dyn Machine, args: &Args) -> Result<bool, String> {
    args.expect_words(2, "FILE and PICTURE")?;
    let (path, picture) = (args.words[0].as_str(), args.words[1].as_str());
    let (bench, number) = (number(args, "--bench")?, number(args, "--number")?);
    let file = Destination::file_of(path)?;
    let lines = picture::read_lines(picture)?;
    let shown = shown_lines(args, input::shown(picture), lines.len() / LINE_BYTES)?;
    let mut whole = lines;
    whole.resize(PICTURE, 0);

    Kept::open(machine, path)?;
    let _lock = Lock::take(&file)?;
    // Another may have added to it in between.
    let kept = Kept::open(machine, path)?;
    let next = kept.with(Fields::new(bench, number, shown), &whole)?;
    let entry = format!("entry {}: bench {bench}, number {number}, {shown} lines", kept.count()?);
    files::write(&file, &next, &format!("{path}: {entry}; {} bytes", next.len()))?;
    Ok(true)
}

/// How many lines are kept of a picture that has as many.
fn shown_lines(args: &Args, picture: &str, lines: usize) -> Result<u32, String> {
    match (args.number("--shown", lines as u64)?, lines) {
        (256, 200) => Err(format!("{picture}: a picture of 200 lines, and --shown 256")),
        (shown @ (200 | 256), _) => Ok(shown as u32),
        (other, _) => Err(format!("--shown: {other} is neither 200 nor 256")),
    }
}

pub fn list(machine: &dyn Machine, args: &Args) -> Result<bool, String> {
    args.expect_words(1, "one FILE")?;
    let kept = Kept::open(machine, &args.words[0])?;
    let count = kept.count()?;
    out::line(&format!("{:>5}{:>8}{:>13}{:>8}", "index", "bench", "number", "shown"))?;
    for k in 0..count {
        let Entry { bench, number, shown, .. } = kept.entry(k)?;
        out::line(&format!("{k:>5}{bench:>8}{number:>13}{shown:>8}"))?;
    }
    Ok(true)
}

pub fn show(machine: &dyn Machine, args: &Args) -> Result<bool, String> {
    args.expect_words(2, "FILE and the index of an entry")?;
    let k = index(&args.words[1])?;
    let (entry, lines) = Kept::open(machine, &args.words[0])?.read(k)?;
    preview::write(Out::Standard, &lines)?;
    out::line(&format!("entry {k}: bench {}, number {}, {} lines", entry.bench, entry.number, entry.shown))?;
    Ok(true)
}

/// True if the frame is there.
pub fn find(machine: &dyn Machine, args: &Args) -> Result<bool, String> {
    args.expect_words(1, "one FILE")?;
    let (bench, number) = (number(args, "--bench")?, number(args, "--number")?);
    let index = Kept::open(machine, &args.words[0])?.find(bench, number)?;
    match index {
        Some(k) => out::line(&format!("entry {k}"))?,
        None => out::line(&format!("bench {bench}, number {number} is not there"))?,
    }
    Ok(index.is_some())
}
