//! The rows about archives. The model here is the one written for speed, `archive_fast`; adding is also held against a plain copy
//! of as many bytes.

use super::Bench;
use crate::tool::timing::{black_box, keep, nanoseconds};
use joyce::archive::{Fields, MOST_FRAMES};
use joyce::{LINE_BYTES, PICTURE};
use joyce_host::machine::Machine;
use joyce_host::model::archive::{written, Frame};
use joyce_host::model::archive_fast;
use joyce_host::model_c::C_MODEL;
use std::time::{Duration, Instant};

/// What frame k is told by. Frames of 200 and 256 lines take turns.
fn fields(k: usize) -> Fields {
    Fields::new(1 + k as u32 % 50, k as u32, if k % 2 == 0 { 200 } else { 256 })
}

fn picture() -> Vec<u8> {
    (0..PICTURE).map(|at| ((at * 31) >> 3) as u8).collect()
}

/// An archive of as many frames.
fn archive(frames: usize) -> Vec<u8> {
    let picture = picture();
    let frame = |k| {
        let Fields { bench, number, shown } = fields(k);
        Frame { bench, number, lines: &picture[..LINE_BYTES * shown as usize] }
    };
    written(&(0..frames).map(frame).collect::<Vec<_>>())
}

/// Times some calls of one candidate.
fn timed(calls: u64, mut work: impl FnMut()) -> Duration {
    let start = Instant::now();
    for _ in 0..calls {
        work();
    }
    start.elapsed()
}

impl Bench<'_> {
    /// Times the same work on the library, on the model and on the model called from Rust itself.
    fn archive_row(
        &self,
        name: &str,
        mut work: impl FnMut(&dyn Machine),
        mut inlined: impl FnMut(),
    ) -> Result<(), String> {
        let taken = self.best(nanoseconds(self.budget, |which, calls| match which {
            0 => timed(calls, || work(black_box(self.library))),
            1 => timed(calls, || work(black_box(&C_MODEL))),
            _ => timed(calls, &mut inlined),
        }));
        self.print(name, taken)
    }

    /// Adding to an archive, and copying as many bytes as that writes.
    fn add_row(&self, name: &str, archive: &[u8], next: &[u8]) -> Result<(), String> {
        let (picture, fields) = (picture(), Fields::new(60_000, 7, 200));
        let mut room = vec![0; next.len()];
        let taken = self.best(nanoseconds(self.budget, |which, calls| match which {
            0 => timed(calls, || keep(black_box(self.library).archive_add(archive, fields, &picture, &mut room))),
            1 => timed(calls, || keep(C_MODEL.archive_add(black_box(archive), fields, &picture, &mut room))),
            2 => timed(calls, || keep(archive_fast::add(black_box(archive), fields, &picture, &mut room))),
            _ => timed(calls, || {
                room.copy_from_slice(black_box(next));
                keep(&room);
            }),
        }));
        let [library, model, inlined, copied] = taken;
        self.print(name, [library, model, inlined])?;
        let rate = |time: f64| next.len() as f64 / time;
        let (library, copied) = (rate(library), rate(copied));
        let part = 100.0 * library / copied;
        self.line(&format!("    {library:.2} GB/s; memcpy of as many bytes {copied:.2} GB/s: {part:.0} % of its rate"))
    }
}

pub(super) fn rows(bench: &Bench) -> Result<(), String> {
    let full = archive(MOST_FRAMES);
    let last = black_box(fields(MOST_FRAMES - 1));
    let mut picture = picture();
    bench.archive_row(
        "archive count, 1,000 frames",
        |machine| keep(machine.archive_count(&full)),
        || keep(archive_fast::count(&full)),
    )?;
    bench.archive_row(
        "archive find, the last of 1,000 frames",
        |machine| keep(machine.archive_find(&full, last.bench, last.number)),
        || keep(archive_fast::find(&full, last.bench, last.number)),
    )?;
    let k = MOST_FRAMES as u32 - 1;
    let mut other = picture.clone();
    bench.archive_row(
        "archive read, the last of 1,000 frames",
        |machine| keep(machine.archive_read(&full, k, &mut picture)),
        || keep(archive_fast::read(&full, k, &mut other)),
    )?;
    bench.add_row("archive add to 10 frames", &archive(10), &archive(11))?;
    bench.add_row("archive add to 999 frames", &archive(MOST_FRAMES - 1), &full)
}
