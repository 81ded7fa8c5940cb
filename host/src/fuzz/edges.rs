//! The edges of what is accepted, from end to end: each field of a record damaged by itself, each
//! length near the right one, each kind of step with numbers at their limits.

use super::pair::Side;
use super::sweep::{board_in_use, same};
use crate::machine::{Machine, Model};
use joyce::{Board, Step, StepNumbers, BLOCK, LINE_BYTES, PICTURE};

/// Sets one field of one byte.
type Set = fn(&mut Board, u8);

const FIELDS: [Set; 22] = [
    |b, v| b.sizes.internal = v,
    |b, v| b.sizes.total = v,
    |b, v| b.rate = v,
    |b, v| b.paging.maps[0] = v,
    |b, v| b.paging.maps[3] = v,
    |b, v| b.paging.lock = v,
    |b, v| b.video.table = v,
    |b, v| b.video.top = v,
    |b, v| b.video.control = v,
    |b, v| b.clock.counter = v,
    |b, v| b.boot.mode = v,
    |b, v| b.disc.route = v,
    |b, v| b.disc.line = v,
    |b, v| b.disc.terminal_count = v,
    |b, v| b.disc.motor = v,
    |b, v| b.external = v,
    |b, v| b.driven = v,
    |b, v| b.bleeper = v,
    |b, v| b.dirty.words[0] ^= 1 << (v % 64),
    |b, v| b.dirty.words[1] ^= 1 << (v % 64),
    |b, v| b.dirty.words[2] ^= 1 << (v % 64),
    |b, v| b.dirty.words[3] ^= 1 << (v % 64),
];

/// Every value of every field, from sound records of both rates and each route.
pub fn damaged_fields(library: &dyn Machine) -> Result<u64, String> {
    let mut calls = 0;
    let mut check = |board: Board| {
        calls += 1;
        same(|| format!("next dirty line of {board:?}"), library.next_dirty(&board, 0), Model.next_dirty(&board, 0))
    };
    for (rate, route, line) in [(50, 0, 1), (60, 2, 1), (50, 1, 0), (60, 1, 0)] {
        let sound = board_in_use(rate, route, line);
        for (set, value) in FIELDS.iter().flat_map(|set| (0..=255).map(move |value| (set, value))) {
            let mut board = sound;
            set(&mut board, value);
            check(board)?;
        }
        for value in 0..=0xFFFF {
            let (mut beam, mut at) = (sound, sound);
            beam.clock.beam = value;
            at.boot.at = value;
            check(beam)?;
            check(at)?;
        }
    }
    Ok(calls)
}

const RAM: usize = 8 * BLOCK;
const ROOM: usize = 8;

/// Library and model with the same record, and with room behind what is lent.
fn sides(board: Board) -> (Side, Side) {
    let side = Side { board, ram: vec![0x55; RAM + BLOCK], picture: vec![0x33; PICTURE + ROOM] };
    (side.clone(), side)
}

/// Lengths near a right one, and empty ones.
fn near(right: usize) -> impl Iterator<Item = usize> + Clone {
    (0..3).chain(right - 3..=right + 3)
}

pub fn lengths(library: &dyn Machine) -> Result<u64, String> {
    Ok(boot_streams(library)? + lent_memory(library)? + widened_lengths(library)? + compared_lengths(library)?)
}

/// A fetch with boot streams of every length, from several positions.
fn boot_streams(library: &dyn Machine) -> Result<u64, String> {
    let boot: Vec<u8> = (0..1_031).map(|at| at as u8).collect();
    let mut ram = vec![0; RAM];
    for len in 0..=1_030 {
        for at in [0, 5, 1_023, 1_024] {
            let mut theirs = board_in_use(50, 0, 1);
            theirs.boot.at = at;
            let mut ours = theirs;
            let replies = (
                library.step(&mut theirs, Step::Fetch(3).into(), &mut ram, &boot[..len]),
                Model.step(&mut ours, Step::Fetch(3).into(), &mut ram, &boot[..len]),
            );
            same(|| format!("fetch of byte {at} of {len}"), (replies.0, theirs), (replies.1, ours))?;
        }
    }
    Ok(1_031 * 4)
}

/// Each step, draw and refresh with RAM and picture of lengths near the right ones.
fn lent_memory(library: &dyn Machine) -> Result<u64, String> {
    let (mut theirs, mut ours) = sides(board_in_use(60, 0, 1));
    let mut calls = 0;
    for ram in near(RAM).chain([RAM - BLOCK, RAM + BLOCK]) {
        for kind in 1..=9 {
            // Scan and the lines take no number.
            let number = u32::from(!matches!(kind, 6 | 8 | 9));
            let make = |machine: &dyn Machine, side: &mut Side| {
                machine.step(&mut side.board, StepNumbers::new(kind, number, 0), &mut side.ram[..ram], &[9; 64])
            };
            let replies = (make(library, &mut theirs), make(&Model, &mut ours));
            same(|| format!("kind {kind}, RAM {ram}"), replies.0, replies.1)?;
            calls += 1;
        }
        for picture in near(PICTURE).chain([LINE_BYTES, 200 * LINE_BYTES]) {
            let make = |machine: &dyn Machine, side: &mut Side| {
                side.board.dirty.words[3] |= 0x81;
                let Side { board, ram: all, picture: lines } = side;
                let refreshed = machine.refresh(board, &all[..ram], &mut lines[..picture]);
                (refreshed, machine.draw(board, &all[..ram], &mut lines[..picture]))
            };
            let replies = (make(library, &mut theirs), make(&Model, &mut ours));
            same(|| format!("refresh and draw, RAM {ram}, picture {picture}"), replies.0, replies.1)?;
            calls += 2;
        }
        if theirs != ours {
            return Err(format!("record, RAM or picture after calls lent a RAM of {ram}"));
        }
    }
    Ok(calls)
}

fn widened_lengths(library: &dyn Machine) -> Result<u64, String> {
    for line in 0..=184 {
        for out in 0..=184 {
            let (mut theirs, mut ours) = ([7; 184], [7; 184]);
            let refusals = (
                library.widen(&[0xA5; 184][..line], &mut theirs[..out]),
                Model.widen(&[0xA5; 184][..line], &mut ours[..out]),
            );
            same(|| format!("widen {line} to {out}"), (refusals.0, theirs), (refusals.1, ours))?;
        }
    }
    Ok(185 * 185)
}

fn compared_lengths(library: &dyn Machine) -> Result<u64, String> {
    let (a, b) = (vec![1; PICTURE + ROOM], vec![2; PICTURE + ROOM]);
    let mut calls = 0;
    for (first, second) in near(PICTURE).flat_map(|first| near(PICTURE).map(move |second| (first, second))) {
        let replies =
            (library.first_difference(&a[..first], &b[..second]), Model.first_difference(&a[..first], &b[..second]));
        same(|| format!("first difference of {first} and {second} bytes"), replies.0, replies.1)?;
        calls += 1;
    }
    Ok(calls)
}

/// Every kind with every pair of numbers at a limit.
pub fn numbers(library: &dyn Machine) -> Result<u64, String> {
    const EDGES: [u32; 14] = [0, 1, 2, 3, 15, 16, 17, 255, 256, 257, 0xFFFF, 0x1_0000, 0x1_0001, u32::MAX];
    let (mut theirs, mut ours) = sides(board_in_use(50, 0, 0));
    let mut calls = 0;
    for kind in (0..=12).chain([255, 256, 257, u32::MAX]) {
        for (number, value) in EDGES.iter().flat_map(|&number| EDGES.map(|value| (number, value))) {
            let step = StepNumbers::new(kind, number, value);
            let make = |machine: &dyn Machine, side: &mut Side| {
                machine.step(&mut side.board, step, &mut side.ram[..RAM], &[9; 64])
            };
            let replies = (make(library, &mut theirs), make(&Model, &mut ours));
            same(|| format!("{step:?}"), (replies.0, theirs.board), (replies.1, ours.board))?;
            calls += 1;
        }
        if theirs != ours {
            return Err(format!("RAM after steps of kind {kind}"));
        }
    }
    Ok(calls)
}
