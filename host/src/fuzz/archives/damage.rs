//! Archives that are sound but for one thing: a byte, a number, the length, an unshown line, a pair that stands twice.

use super::both::Both;
use super::call::Call;
use super::shapes::{add, archive, fresh, pair};
use joyce::archive::{entry_at, length, picture_at, Fields, HEADER};
use joyce::{LINE_BYTES, PICTURE};

/// Every call once, and those that meet 10 beside another refusal.
fn probes(room: usize) -> Vec<Call> {
    let (bench, number) = pair(0);
    vec![
        Call::Count,
        Call::Entry { k: 0 },
        Call::Entry { k: u32::MAX },
        Call::Find { bench, number },
        Call::Read { k: 0, picture: PICTURE },
        Call::Read { k: 0, picture: PICTURE + 1 },
        add(fresh(), room),
        add(Fields { shown: 200, ..fresh() }, room),
        add(Fields { bench: 0, ..fresh() }, room),
        add(fresh(), 0),
        Call::Add { fields: fresh(), picture: PICTURE - 1, from: 0, room },
    ]
}

fn number_at(archive: &[u8], at: usize) -> u32 {
    u32::from_le_bytes(archive[at..at + 4].try_into().expect("four bytes"))
}

/// The archive with a number put elsewhere.
fn with_number(archive: &[u8], at: usize, number: u32) -> Vec<u8> {
    let mut altered = archive.to_vec();
    altered[at..at + 4].copy_from_slice(&number.to_le_bytes());
    altered
}

pub fn sweep(both: &mut Both) -> Result<(), String> {
    let calls = probes(both.most_room());
    let shapes: [&[u32]; 6] = [&[], &[200], &[256], &[256, 200], &[200, 256, 200], &[200, 200, 256]];
    for shown in shapes {
        let sound = archive(shown);
        let mut check = |what: &str, at: usize, altered: &[u8]| {
            both.make_all(altered, &calls, || format!("archive of frames with {shown:?} lines, {what} {at}"))
        };
        bytes(&sound, shown.len(), &mut check)?;
        numbers(&sound, shown.len(), &mut check)?;
        lengths(&sound, shown.len(), &mut check)?;
        pictures(&sound, shown.len(), &mut check)?;
        pairs(&sound, shown.len(), &mut check)?;
    }
    every_unshown_byte(both)?;
    every_couple(both)
}

/// Each unshown byte by itself not zero.
fn every_unshown_byte(both: &mut Both) -> Result<(), String> {
    let mut altered = archive(&[200, 200]);
    for (k, byte) in (0..2).flat_map(|k| (200 * LINE_BYTES..PICTURE).map(move |byte| (k, byte))) {
        let at = picture_at(2, k) + byte;
        altered[at] = 1 << (byte % 8);
        both.make_all(&altered, &[Call::Count], || format!("archive of two frames, byte {at} not zero"))?;
        altered[at] = 0;
    }
    Ok(())
}

/// Any two of some entries with one pair.
fn every_couple(both: &mut Both) -> Result<(), String> {
    let n = 24;
    let sound = archive(&vec![256; n]);
    for (a, b) in couples(n) {
        let mut altered = sound.clone();
        altered.copy_within(entry_at(a)..entry_at(a) + 8, entry_at(b));
        both.make_all(&altered, &[Call::Count], || format!("archive of {n} frames, {a} and {b} with one pair"))?;
    }
    Ok(())
}

/// Takes what was altered, where, and the altered archive.
type Check<'c> = &'c mut dyn FnMut(&str, usize, &[u8]) -> Result<(), String>;

/// Every byte of header and entries set to other values.
fn bytes(sound: &[u8], n: usize, check: Check) -> Result<(), String> {
    let mut altered = sound.to_vec();
    for at in 0..entry_at(n) {
        let byte = sound[at];
        for value in [byte.wrapping_add(1), byte.wrapping_sub(1), byte ^ 0x80, 0, 0xFF] {
            altered[at] = value;
            check("another byte at", at, &altered)?;
        }
        altered[at] = byte;
    }
    Ok(())
}

/// Every number of header and entries set to others, near it and at limits.
fn numbers(sound: &[u8], n: usize, check: Check) -> Result<(), String> {
    let limits = [0, 1, 2, 199, 200, 201, 255, 256, 257, 999, 1_000, 1_001, 65_535, 65_536, 65_736, u32::MAX];
    for at in (0..entry_at(n)).step_by(4) {
        let number = number_at(sound, at);
        let near = [1, 16, 90, 23_040, 23_056, 1 << 16, 1 << 24, 1 << 31];
        let near = near.iter().flat_map(|&by| [number.wrapping_add(by), number.wrapping_sub(by)]);
        for value in near.chain(limits).chain([number.swap_bytes()]) {
            check("another number at", at, &with_number(sound, at, value))?;
        }
    }
    Ok(())
}

/// Cut short or too long near every boundary, and the whole length altered to fit.
fn lengths(sound: &[u8], n: usize, check: Check) -> Result<(), String> {
    let boundaries = (0..=n).map(entry_at).chain((0..=n).map(|k| picture_at(n, k)));
    let near = boundaries.flat_map(|at| [at - 1, at, at + 1]);
    for len in (0..=HEADER + 1).chain(near).chain([length(n) + 16, length(n + 1)]) {
        let mut altered = sound.to_vec();
        altered.resize(len, 0);
        check("length", len, &altered)?;
        if len >= HEADER {
            check("length and whole length", len, &with_number(&altered, 16, len as u32))?;
        }
    }
    Ok(())
}

/// Bytes of pictures altered, shown and unshown, and pictures' offsets exchanged.
fn pictures(sound: &[u8], n: usize, check: Check) -> Result<(), String> {
    let lines = [0, 1, 199, 200, 201, 228, 254, 255];
    let mut altered = sound.to_vec();
    for (k, line) in (0..n).flat_map(|k| lines.map(|line| (k, line))) {
        for byte in [0, LINE_BYTES / 2, LINE_BYTES - 1] {
            let at = picture_at(n, k) + line * LINE_BYTES + byte;
            for bit in [0x01, 0x80] {
                altered[at] ^= bit;
                check("another byte at", at, &altered)?;
                altered[at] ^= bit;
            }
        }
    }
    for (a, b) in couples(n) {
        let (at_a, at_b) = (entry_at(a) + 12, entry_at(b) + 12);
        let moved = with_number(sound, at_a, number_at(sound, at_b));
        check("one picture twice, of entry", b, &moved)?;
        check("pictures exchanged, with entry", b, &with_number(&moved, at_b, number_at(sound, at_a)))?;
    }
    Ok(())
}

fn couples(n: usize) -> Vec<(usize, usize)> {
    (0..n).flat_map(|a| (a + 1..n).map(move |b| (a, b))).collect()
}

/// Any two entries with one bench, with one number, and with both.
fn pairs(sound: &[u8], n: usize, check: Check) -> Result<(), String> {
    for (a, b) in couples(n) {
        let (at_a, at_b) = (entry_at(a), entry_at(b));
        let one_bench = with_number(sound, at_b, number_at(sound, at_a));
        check("the bench of another in entry", b, &one_bench)?;
        check("the number of another in entry", b, &with_number(sound, at_b + 4, number_at(sound, at_a + 4)))?;
        check("a pair twice, in entry", b, &with_number(&one_bench, at_b + 4, number_at(sound, at_a + 4)))?;
    }
    Ok(())
}
