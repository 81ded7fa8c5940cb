//! The largest archives: 999 frames, 1,000 and 1,001. Each is 23 MB, so few calls are made.

use super::both::Both;
use super::call::Call;
use super::shapes::{add, archive, fresh, pair};
use super::Tally;
use crate::machine::Machine;
use joyce::archive::{entry_at, length, picture_at, Fields, MOST_FRAMES};
use joyce::PICTURE;

/// Frames of 200 and 256 lines in turn; the last has 200.
fn mixed(n: usize) -> Vec<u8> {
    let shown: Vec<u32> = (0..n).map(|k| if (n - k) % 2 == 1 { 200 } else { 256 }).collect();
    archive(&shown)
}

pub fn sweep(library: &dyn Machine) -> Result<Tally, String> {
    let mut both = Both::new(library, MOST_FRAMES + 1, 1);
    one_to_go(&mut both)?;
    let mut full = mixed(MOST_FRAMES);
    both.make_all(&full, &on_full(both.most_room()), || "archive of 1,000 frames".to_string())?;
    damaged(&mut both, &mut full)?;
    let over = mixed(MOST_FRAMES + 1);
    let room = both.most_room();
    let calls = [Call::Count, Call::Read { k: 0, picture: PICTURE }, add(fresh(), room)];
    both.make_all(&over, &calls, || "archive of 1,001 frames".to_string())?;
    Ok(both.tally)
}

/// 999 frames: one more has place, and then the archive is full.
fn one_to_go(both: &mut Both) -> Result<(), String> {
    let archive = mixed(MOST_FRAMES - 1);
    let full = length(MOST_FRAMES);
    let calls = [
        Call::Count,
        add(fresh(), full),
        add(Fields { shown: 200, ..fresh() }, both.most_room()),
        add(fresh(), full - 1),
        add(Fields { bench: 0, ..fresh() }, 0),
        Call::Entry { k: 998 },
        Call::Entry { k: 999 },
    ];
    both.make_all(&archive, &calls, || "archive of 999 frames".to_string())
}

fn on_full(room: usize) -> Vec<Call> {
    let (bench, number) = pair(MOST_FRAMES - 1);
    let there = Fields::new(bench, number, 256);
    vec![
        Call::Count,
        Call::Entry { k: 256 },
        Call::Entry { k: 999 },
        Call::Entry { k: 1_000 },
        Call::Find { bench, number },
        Call::Find { bench, number: number ^ 1 },
        Call::Read { k: 998, picture: PICTURE },
        Call::Read { k: 999, picture: PICTURE },
        Call::Read { k: 1_000, picture: PICTURE },
        add(fresh(), room),
        add(fresh(), 0),
        add(there, room),
        add(Fields { shown: 255, ..fresh() }, room),
        Call::Add { fields: fresh(), picture: PICTURE + 1, from: 0, room },
    ]
}

/// One thing wrong at a time, at the far end; each is put right again.
fn damaged(both: &mut Both, full: &mut Vec<u8>) -> Result<(), String> {
    let n = MOST_FRAMES;
    let mut check = |what: &str, archive: &[u8]| {
        both.make_all(archive, &[Call::Count], || format!("archive of 1,000 frames, {what}"))
    };
    let last = length(n) - 1;
    check("the last byte cut off", &full[..last])?;
    full.push(0);
    check("one byte too long", full)?;
    full.pop();
    full[last] = 1;
    check("its last byte not zero", full)?;
    full[last] = 0;
    for (from, what) in [(0, "the first pair again in the last"), (n - 2, "the last pair twice")] {
        let kept = full[entry_at(n - 1)..][..8].to_vec();
        full.copy_within(entry_at(from)..entry_at(from) + 8, entry_at(n - 1));
        check(what, full)?;
        full[entry_at(n - 1)..][..8].copy_from_slice(&kept);
    }
    let offset = picture_at(n, n - 1) as u32;
    full[entry_at(n - 1) + 12..][..4].copy_from_slice(&(offset - PICTURE as u32).to_le_bytes());
    check("the last picture's offset that of the one before", full)?;
    full[entry_at(n - 1) + 12..][..4].copy_from_slice(&offset.to_le_bytes());
    check("put right again", full)
}
