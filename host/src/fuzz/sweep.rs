//! Small domains from end to end: every pointer, every roll, every size, every port and value.

use super::{edges, lines};
use crate::machine::{Machine, Model};
use crate::model::{self, LineSets};
use joyce::{Access, Board, Lines, Paging, PowerOn, Reply, Sizes, Step, StepNumbers, BLOCK};

/// Makes the whole sweep; gives the number of calls, or the first difference.
pub fn sweep(library: &dyn Machine) -> Result<u64, String> {
    let parts = [
        pointers,
        rolls,
        bytes_widened,
        sizes,
        reaches,
        ports,
        next_dirty_lines,
        lines::every_pointer,
        lines::block_ends,
        edges::damaged_fields,
        edges::lengths,
        edges::numbers,
    ];
    parts.iter().try_fold(0, |calls, part| Ok(calls + part(library)?))
}

pub fn same<T: PartialEq + std::fmt::Debug>(what: impl Fn() -> String, theirs: T, ours: T) -> Result<(), String> {
    if theirs == ours {
        return Ok(());
    }
    Err(format!("{}: library {theirs:02X?}, model {ours:02X?}", what()))
}

fn pointers(library: &dyn Machine) -> Result<u64, String> {
    for word in 0..=0xFFFF {
        let what = || format!("read pointer {word:04X}h");
        same(what, library.read_pointer(word), Model.read_pointer(word))?;
    }
    let far = [16_384, 32_768, 65_536, 65_536 + 16, u32::MAX];
    for block in (0..9).chain([255, 256, u32::MAX]) {
        for start in (0..16_400).chain(far) {
            let what = || format!("make pointer of block {block}, start {start}");
            same(what, library.make_pointer(block, start), Model.make_pointer(block, start))?;
        }
    }
    Ok(65_536 + 12 * 16_405)
}

fn rolls(library: &dyn Machine) -> Result<u64, String> {
    for pair in 0..=0xFFFFu16 {
        let [old, new] = pair.to_le_bytes();
        same(|| format!("roll from {old} to {new}"), library.roll(old, new), Model.roll(old, new))?;
    }
    Ok(65_536)
}

fn bytes_widened(library: &dyn Machine) -> Result<u64, String> {
    for byte in 0..=255 {
        let (mut theirs, mut ours) = ([1; 180], [2; 180]);
        let line: [u8; 90] = std::array::from_fn(|index| byte ^ index as u8);
        let refusals = (library.widen(&line, &mut theirs), Model.widen(&line, &mut ours));
        same(|| format!("widen from {byte:02X}h"), (refusals.0, theirs), (refusals.1, ours))?;
    }
    Ok(256)
}

fn sizes(library: &dyn Machine) -> Result<u64, String> {
    for pair in 0..=0xFFFFu16 {
        let [internal, total] = pair.to_le_bytes();
        for rate in [50, 60, 55] {
            let on = PowerOn { sizes: Sizes { internal, total }, rate, maps: [1, 2, 3, 4], lock: 5, table: 6, top: 7 };
            let (mut theirs, mut ours) = (Board { bleeper: 9, ..Board::default() }, Board::default());
            let replies = (library.power_on(&mut theirs, &on), Model.power_on(&mut ours, &on));
            same(|| format!("{on:?}"), (replies.0, theirs), (replies.1, ours))?;
        }
    }
    Ok(3 * 65_536)
}

fn reaches(library: &dyn Machine) -> Result<u64, String> {
    let mut calls = 0;
    for (internal, total) in [(8, 8), (8, 9), (16, 16), (32, 40), (32, 128), (16, 15), (9, 9)] {
        for bits in 0..=0xFFFFu16 {
            let [map, low] = bits.to_le_bytes();
            let (bank, lock) = (low as u16 & 3, low & 0xF0);
            let access = Access {
                sizes: Sizes { internal, total },
                paging: Paging { maps: std::array::from_fn(|at| map ^ (bank as u8 ^ at as u8)), lock },
                address: bank << 14 | ((low as u16 * 0x41) & 0x3FFF),
            };
            same(|| format!("reach {access:?}"), library.reach(&access), Model.reach(&access))?;
            calls += 1;
        }
    }
    Ok(calls)
}

/// Every port and value both ways, from records with each route and disc line.
fn ports(library: &dyn Machine) -> Result<u64, String> {
    let mut ram = vec![0; 8 * BLOCK];
    let mut calls = 0;
    for (rate, route, line) in [(50, 0, 1), (60, 2, 1), (50, 1, 0)] {
        let start = board_in_use(rate, route, line);
        for pair in 0..=0xFFFFu16 {
            let [port, value] = pair.to_le_bytes();
            for step in [Step::PortOut(port, value), Step::PortIn(port)].map(StepNumbers::from) {
                let theirs = stepped(library, start, step, &mut ram);
                let ours = stepped(&Model, start, step, &mut ram);
                same(|| format!("{step:?} from {start:?}"), theirs, ours)?;
                calls += 1;
            }
        }
    }
    Ok(calls)
}

pub fn board_in_use(rate: u8, route: u8, line: u8) -> Board {
    let on = PowerOn { sizes: Sizes { internal: 8, total: 8 }, rate, ..PowerOn::default() };
    let (mut board, _) = model::power_on(&on);
    board.video.control = 0xC0;
    board.clock.counter = 7;
    board.boot.at = 99;
    board.disc.route = route;
    board.disc.line = line;
    board.dirty = Lines::single(13);
    board
}

fn stepped(machine: &dyn Machine, mut board: Board, step: StepNumbers, ram: &mut [u8]) -> (Reply, Board) {
    let reply = machine.step(&mut board, step, ram, &[]);
    (reply, board)
}

fn next_dirty_lines(library: &dyn Machine) -> Result<u64, String> {
    let mut board = board_in_use(50, 0, 0);
    for line in 0..=255 {
        board.dirty = Lines::single(line);
        for n in (0..260).chain([65_536, u32::MAX]) {
            let what = || format!("next dirty line from {n}, line {line} dirty");
            same(what, library.next_dirty(&board, n), Model.next_dirty(&board, n))?;
        }
    }
    Ok(256 * 262)
}
