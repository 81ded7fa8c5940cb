//! Sound archives of many shapes, each with every call and with numbers and lengths at their limits.

use super::both::{Both, SHIFTS};
use super::call::Call;
use crate::fuzz::rng::Rng;
use crate::model::archive::{written, Frame};
use joyce::archive::{length, Fields, HEADER};
use joyce::{LINE_BYTES, PICTURE};

/// Benches and numbers at their limits; some share a bench, some a number.
const PAIRS: [(u32, u32); 4] = [(1, 0), (65_535, u32::MAX), (1, u32::MAX), (258, 0x0102_0304)];

/// Bench and number of frame k; no two are alike.
pub fn pair(k: usize) -> (u32, u32) {
    PAIRS.get(k).copied().unwrap_or((1 + k as u32 % 50, 0x1_0001 * k as u32))
}

/// A frame that no archive here has.
pub fn fresh() -> Fields {
    Fields::new(7, 7, 256)
}

/// A sound archive (or one of too many frames) with these shown lines, no two pictures alike.
pub fn archive(shown: &[u32]) -> Vec<u8> {
    let mut source = vec![0; PICTURE + SHIFTS];
    Rng::new(shown.len() as u64).fill(&mut source);
    let frames: Vec<Frame> = shown
        .iter()
        .enumerate()
        .map(|(k, &shown)| {
            let (bench, number) = pair(k);
            Frame { bench, number, lines: &source[k..k + LINE_BYTES * shown as usize] }
        })
        .collect();
    written(&frames)
}

/// The call that adds a frame, with memory as it ought to be.
pub fn add(fields: Fields, room: usize) -> Call {
    Call::Add { fields, picture: PICTURE, from: fields.number as usize % SHIFTS, room }
}

/// Every list of up to three frames of 200 and 256 lines.
fn shapes() -> Vec<Vec<u32>> {
    let mut shapes = vec![Vec::new()];
    for n in 1..=3 {
        let of = |bits: u32| (0..n).map(|k| if bits >> k & 1 == 0 { 200 } else { 256 }).collect();
        shapes.extend((0..1u32 << n).map(of));
    }
    shapes
}

pub fn sweep(both: &mut Both) -> Result<(), String> {
    for room in (0..=21).chain([100, both.most_room()]) {
        both.make(&[], &Call::Start { room })?;
    }
    for shown in shapes() {
        let archive = archive(&shown);
        let mut calls = looking(shown.len());
        calls.extend(adding_fields(shown.len()));
        calls.extend(adding_lengths(shown.len(), both.most_room()));
        both.make_all(&archive, &calls, || format!("archive of frames with {shown:?} lines"))?;
        // The same at an address that is no multiple of anything.
        let behind = [&[0xFF], &archive[..]].concat();
        both.make_all(&behind[1..], &calls, || format!("archive of frames with {shown:?} lines, odd address"))?;
    }
    Ok(())
}

/// The calls that alter no archive, k and pairs near the right ones.
fn looking(n: usize) -> Vec<Call> {
    let mut calls = vec![Call::Count];
    let wide = [1_000, 0x1_0000, 0x1_0001, 1 << 31, u32::MAX];
    for k in (0..n as u32 + 2).chain(wide) {
        calls.push(Call::Entry { k });
        for picture in [PICTURE, 0, 1, PICTURE - 1, PICTURE + 1, 200 * LINE_BYTES] {
            calls.push(Call::Read { k, picture });
        }
    }
    for (bench, number) in (0..=n).map(pair).chain([(0, 0), (0, u32::MAX), (u32::MAX, u32::MAX)]) {
        for bench in [bench, bench ^ 1, bench.wrapping_add(0x1_0000), number] {
            for number in [number, number ^ 1, number ^ 0x8000_0000, number & 0xFFFF, bench] {
                calls.push(Call::Find { bench, number });
            }
        }
    }
    calls
}

/// Adding with every field at its limits, with just the room that is needed and with none.
fn adding_fields(n: usize) -> Vec<Call> {
    let mut calls = Vec::new();
    let shown_lines = [0, 1, 199, 200, 201, 255, 256, 257, 200 + 0x1_0000, 256 << 8, u32::MAX];
    for bench in [0, 1, 258, 65_535, 65_536, 65_537, u32::MAX] {
        for number in [0, 0x0102_0304, u32::MAX] {
            for shown in shown_lines {
                let fields = Fields::new(bench, number, shown);
                calls.push(add(fields, length(n + 1)));
                calls.push(add(fields, 0));
            }
        }
    }
    calls
}

/// Adding with rooms and pictures of lengths near the right ones, frames taken and not.
fn adding_lengths(n: usize, most: usize) -> Vec<Call> {
    let mut calls = Vec::new();
    let right = length(n + 1);
    let rooms = [0, HEADER, length(n), right - PICTURE, right - 16, right - 1, right, right + 1, right + 50, most];
    for fields in [fresh(), Fields { shown: 200, ..fresh() }, Fields { bench: 0, ..fresh() }] {
        for room in rooms {
            calls.push(add(fields, room));
        }
        for picture in [0, 1, 200 * LINE_BYTES, PICTURE - 1, PICTURE + 1] {
            calls.push(Call::Add { fields, picture, from: 3, room: right });
            calls.push(Call::Add { fields, picture, from: 3, room: 0 });
        }
    }
    calls
}
