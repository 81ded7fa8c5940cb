//! `joyce archive extract`: frames as pictures in files of their own.

use super::{index, Kept};
use crate::tool::args::Args;
use crate::tool::destination::Destination;
use crate::tool::files::Batch;
use crate::tool::{out, picture};
use joyce::archive::Entry;
use joyce_host::machine::Machine;
use std::fs;
use std::path::Path;

pub fn run(machine: &dyn Machine, args: &Args) -> Result<bool, String> {
    let all = args.has("--all");
    let (words, what) = if all { (1, "FILE, as --all is given") } else { (2, "FILE and an index, or FILE and --all") };
    args.expect_words(words, what)?;
    let output = args.text("-o").ok_or("-o is needed: the picture's file, or with --all a folder")?;
    let path = args.words[0].as_str();
    if all {
        extract_all(machine, path, output)?;
    } else {
        extract_one(machine, path, index(&args.words[1])?, output)?;
    }
    Ok(true)
}

fn extract_one(machine: &dyn Machine, path: &str, k: u32, output: &str) -> Result<(), String> {
    let output = Destination::of(output)?;
    if output.replaces(path) {
        return Err(format!("-o: {} is the archive itself", output.name));
    }
    let (Entry { bench, number, .. }, lines) = Kept::open(machine, path)?.read(k)?;
    picture::write(&output, &lines, &format!("bench {bench}, number {number}"))
}

fn name(entry: &Entry) -> String {
    format!("bench-{:05}-number-{:010}.pbm", entry.bench, entry.number)
}

fn extract_all(machine: &dyn Machine, path: &str, folder: &str) -> Result<(), String> {
    if folder == "-" {
        return Err("-o: with --all it is a folder; standard output has room for one picture".to_string());
    }
    let kept = Kept::open(machine, path)?;
    let count = kept.count()?;
    fs::create_dir_all(folder).map_err(|error| format!("{folder}: {error}"))?;
    let mut batch = Batch::default();
    // Some ten lines of progress, however many frames there are.
    let step = (count / 10).max(1);
    for k in 0..count {
        let (entry, lines) = kept.read(k)?;
        let file = Path::new(folder).join(name(&entry)).display().to_string();
        batch.add(&Destination::of(&file)?, &picture::encode(&file, &lines))?;
        if (k + 1) % step == 0 || k + 1 == count {
            out::note(&format!("{} of {count} frames\n", k + 1));
        }
    }
    let pictures = if count == 1 { "picture" } else { "pictures" };
    out::line(&format!("{folder}: {count} {pictures}"))?;
    batch.done()
}
