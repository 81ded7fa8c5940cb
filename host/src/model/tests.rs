//! The bench cases, the refusals in their order, and the dirty lines.

use super::*;
use joyce::{Access, Drawn, Lines, MadePointer, Pointer, Reach, Sizes, Step, StepNumbers, BLOCK, PICTURE};

fn on(internal: u8, total: u8, rate: u8) -> PowerOn {
    PowerOn { sizes: Sizes { internal, total }, rate, ..PowerOn::default() }
}

/// A small board out of boot mode, with its RAM.
fn board(rate: u8) -> (Board, Vec<u8>) {
    let (mut board, answer) = power_on(&on(8, 8, rate));
    assert_eq!(answer, Answer::default());
    board.boot.mode = 0;
    board.paging.maps = [0x80, 0x81, 0x82, 0x83];
    (board, vec![0; 8 * BLOCK])
}

fn landing(internal: u8, total: u8, maps: [u8; 4], lock: u8, address: u16) -> (u8, u8, u16) {
    let Reach { place, read, write, refusal } =
        reach(&Access { sizes: Sizes { internal, total }, paging: Paging { maps, lock }, address });
    assert_eq!(refusal, 0);
    (read, write, place)
}

#[test]
fn p1_to_p5_and_the_last_address() {
    assert_eq!(landing(16, 16, [0x98; 4], 0, 0), (8, 8, 0));
    assert_eq!(landing(32, 32, [0x98; 4], 0, 0), (24, 24, 0));
    assert_eq!(landing(32, 40, [0xA7; 4], 0, 0), (39, 39, 0));
    assert_eq!(landing(32, 40, [0xA8; 4], 0, 0), (8, 8, 0));
    let f1 = [0, 0x25, 0, 0];
    assert_eq!(landing(8, 8, f1, 0, 0x4000), (2, 5, 0));
    assert_eq!(landing(8, 8, f1, 0x10, 0x4000), (5, 5, 0));
    assert_eq!(landing(8, 8, f1, 0x20, 0x4000), (2, 5, 0));
    assert_eq!(landing(8, 8, [0, 0, 0, 0x87], 0, 0xFFFF), (7, 7, 0x3FFF));
}

#[test]
fn each_lock_bit_has_its_bank() {
    for (bank, bit) in [(3, 0x80), (0, 0x40), (2, 0x20), (1, 0x10)] {
        for other in 0..4 {
            let read = landing(8, 8, [0x25; 4], bit, other * 0x4000).0;
            assert_eq!(read, if other == bank { 5 } else { 2 });
        }
    }
}

#[test]
fn p6_and_p7_pointers() {
    assert_eq!(read_pointer(0x2C98), Pointer { block: 1, start: 0x1930 });
    assert_eq!(read_pointer(0xFFFF), Pointer { block: 7, start: 0x3FF7 });
    for word in 0..=0xFFFF {
        let Pointer { block, start } = read_pointer(word);
        assert_eq!(make_pointer(block as u32, start as u32).word, word);
    }
    for (block, start) in [(8, 0), (0, 16_384), (0, 8), (u32::MAX, u32::MAX)] {
        assert_eq!(make_pointer(block, start), MadePointer { word: 0, refusal: 3 });
    }
}

#[test]
fn p8_a_line_runs_on_into_the_next_block() {
    let (mut board, mut ram) = board(50);
    board.video = Video { table: 0, top: 0, control: 0x40 };
    let pointer = read_pointer(0x3EE0);
    assert_eq!((pointer.block, pointer.start + 8 * 71), (1, 0x3FF8));
    ram[..2].copy_from_slice(&0x3EE0u16.to_le_bytes());
    ram[BLOCK + 0x3FF8] = 0x71;
    ram[2 * BLOCK] = 0x72;
    let mut picture = vec![0; PICTURE];
    assert_eq!(draw(&board, &ram, &mut picture), Drawn::default());
    assert_eq!(picture[71..73], [0x71, 0x72]);
    // Line 0 has a byte at the start of block 2, and none at the start of block 1.
    for (address, dirty) in [(0x8000, Lines::single(0)), (0x4000, Lines::default())] {
        board.dirty = Lines::default();
        assert_eq!(step(&mut board, Step::Write(address, 1), &mut ram, &[]).refusal, 0);
        assert_eq!(board.dirty, dirty);
    }
}

/// Every byte of a line from the end of block 7: 72 of them there, 18 in block 0, none in a block 8.
#[test]
fn block_7_runs_on_into_block_0() {
    let (mut board, _) = power_on(&on(8, 9, 50));
    board.boot.mode = 0;
    board.paging.maps = [0x80, 0x87, 0x88, 0x81];
    // Table at block 1, 0000h, all of its other lines from block 1, 0000h, too.
    board.video = Video { table: 0x20, top: 0, control: 0x40 };
    let mut ram = vec![0; 9 * BLOCK];
    (0..512).step_by(2).for_each(|at| ram[BLOCK + at..][..2].copy_from_slice(&0x2000u16.to_le_bytes()));
    ram[BLOCK..][..2].copy_from_slice(&make_pointer(7, 0x3DC5).word.to_le_bytes());
    ram[8 * BLOCK..].fill(0xEE);
    let mut picture = vec![0; PICTURE];
    for i in 0..90u16 {
        let address = if i < 72 { 0x4000 + 0x3DC5 + 8 * i } else { 8 * (i - 72) + 5 };
        board.dirty = Lines::default();
        assert_eq!(step(&mut board, Step::Write(address, i as u8 + 1), &mut ram, &[]).refusal, 0);
        assert_eq!(board.dirty, Lines::single(0), "byte {i}");
    }
    assert_eq!(draw(&board, &ram, &mut picture), Drawn::default());
    assert!((1..=90).eq(picture[..90].iter().copied()));
    board.dirty = Lines::default();
    // Block 8 from end to end, and the bytes of block 0 behind the line and beside it.
    for address in (0x8000..=0xBFFF).chain(8 * 18..8 * 20).chain(0..5) {
        assert_eq!(step(&mut board, Step::Write(address, 0x77), &mut ram, &[]).refusal, 0);
        assert_eq!(board.dirty, Lines::default(), "{address:04X}h");
    }
    assert_eq!(draw(&board, &ram, &mut picture), Drawn::default());
    assert!((1..=90).eq(picture[..90].iter().copied()));
}

#[test]
fn p9_and_p10_table_and_entry() {
    let (mut board, mut ram) = board(50);
    board.video = Video { table: 0x99, top: 0xFF, control: 0x40 };
    assert_eq!(table_index(&board.video), 4 * BLOCK + 0x3200);
    board.dirty = Lines::default();
    board.paging.maps[0] = 0x84;
    assert_eq!(step(&mut board, Step::Write(0x3200, 1), &mut ram, &[]).refusal, 0);
    assert_eq!(board.dirty, Lines::single(1));
}

#[test]
fn p11_counter() {
    let (mut board, mut ram) = board(50);
    board.clock.counter = 3;
    let mut read = |port| step(&mut board, Step::PortIn(port), &mut ram, &[]);
    let seen = [read(0xF8), read(0xF4), read(0xF4)].map(|answer| (answer.byte, answer.int));
    assert_eq!(seen, [(0x53, true), (0x53, false), (0x50, false)]);
}

#[test]
fn p12_drawn_bytes_and_widening() {
    let (mut board, mut ram) = board(50);
    ram[2 * BLOCK] = 0xA5;
    ram[..2].copy_from_slice(&(2u16 << 13).to_le_bytes());
    let mut picture = vec![0; PICTURE];
    for (control, byte) in [(0x40, 0xA5), (0xC0, 0x5A), (0x00, 0x00), (0x80, 0xFF)] {
        board.video.control = control;
        assert_eq!(draw(&board, &ram, &mut picture), Drawn::default());
        assert_eq!(picture[0], byte);
    }
    let mut wide = [0; 180];
    assert_eq!(widen(&[0xA5; 90], &mut wide), 0);
    assert_eq!(wide[..2], [0xCC, 0x33]);
    assert_eq!(widen(&[0; 89], &mut wide), 2);
}

#[test]
fn p13_beam() {
    for (rate, last) in [(50, 311), (60, 259)] {
        let (mut board, mut ram) = board(rate);
        let mut scan = |beam| {
            board.clock = Clock { counter: 0, beam };
            assert_eq!(step(&mut board, Step::Scan, &mut ram, &[]).refusal, 0);
            (board.clock.beam, board.clock.counter)
        };
        assert_eq!([scan(1), scan(2), scan(last)], [(2, 1), (3, 0), (0, 0)]);
    }
}

#[test]
fn p14_rolls() {
    assert_eq!([roll(255, 0), roll(0, 255), roll(0, 128)], [1, -1, -128]);
}

#[test]
fn reach_sample() {
    let input = [
        0x10, 0x10, 0x80, 0x25, 0x98, 0x87, 0x00, 0x00, 0x80, 0x10, 0x10, 0x80, 0x25, 0x98, 0x87, 0x00, 0x05, 0x40,
        0x10,
    ];
    let text = reach_lines(&input, reach);
    assert_eq!(text, "R 08 0000 W 08 0000\nR 02 0005 W 05 0005\nX 2\n");
    assert_eq!(reach_lines(&[], reach), "");
    assert_eq!(reach_lines(&[7; 9], reach), "X 6\n");
}

#[test]
fn refusals_in_order() {
    let (good, mut ram) = board(50);
    let mut bad = good;
    bad.clock.counter = 16;
    let mut boot = good;
    boot.boot = Boot { mode: 1, at: 5 };
    boot.external = 1;
    let long = [0; 1_025];
    let mut refusal = |mut board: Board, numbers: (u32, u32, u32), ram_len: usize, boot: &[u8]| {
        let before = board;
        let numbers = StepNumbers::new(numbers.0, numbers.1, numbers.2);
        let answer = step_numbers(&mut board, numbers, &mut ram[..ram_len], boot);
        assert_eq!(board, before);
        (answer.refusal, answer.int)
    };
    let all = 8 * BLOCK;
    assert_eq!(refusal(bad, (99, 0, 0), 0, &long), (1, false));
    assert_eq!(refusal(boot, (99, 0, 0), all - 1, &[]), (2, true));
    assert_eq!(refusal(boot, (1, 65_536, 0), all, &long), (2, true));
    assert_eq!(refusal(boot, (1, 65_536, 0), all, &[]), (3, true));
    assert_eq!(refusal(boot, (1, 65_535, 0), all, &[0; 5]), (4, true));
    assert_eq!(refusal(boot, (4, 0xF0, 0), all, &[]), (5, true));
    assert_eq!(refusal(good, (5, 0x00, 0), all, &[]), (5, false));
    assert_eq!(refusal(good, (7, 16, 0), all, &[]), (3, false));
    assert_eq!(refusal(good, (8, 0, 2), all, &[]), (3, false));
    assert_eq!(power_on(&on(8, 7, 50)).1.refusal, 6);
    assert_eq!(power_on(&on(8, 8, 51)), (Board::default(), Answer { refusal: 6, ..Answer::default() }));
    assert_eq!(next_dirty(&bad, 256).refusal, 1);
    assert_eq!(next_dirty(&good, 256).refusal, 3);
}

#[test]
fn nmi_is_shown_once() {
    let (mut board, mut ram) = board(50);
    let mut make = |next| step(&mut board, next, &mut ram, &[]);
    assert_eq!(make(Step::PortOut(0xF8, 2)), Answer::default());
    let lines = |answer: Answer| (answer.int, answer.nmi);
    assert_eq!(lines(make(Step::DiscLine(true))), (false, true));
    assert_eq!(lines(make(Step::Scan)), (false, false));
    assert_eq!(lines(make(Step::PortOut(0xF8, 0x12))), (false, true));
    assert_eq!(lines(make(Step::PortOut(0xF8, 3))), (true, false));
}

/// Dirty lines by the rule as it is written, each line compared before and after.
#[test]
fn stores_make_dirty_what_the_rule_says() {
    let (mut board, mut ram) = board(60);
    board.video = Video { table: 0x7F, top: 0xF0, control: 0x40 };
    for (index, byte) in ram.iter_mut().enumerate() {
        *byte = (index * 7 + index / 256) as u8 & 0x6F;
    }
    // Half of the lines start near the end of a block, and are there to run on.
    for entry in (0..256).step_by(2) {
        let word = make_pointer([0, 1, 2, 7][entry / 2 % 4], (0x3D00 + entry as u32 * 3) & !8).word;
        ram[table_index(&board.video) + 2 * entry..][..2].copy_from_slice(&word.to_le_bytes());
    }
    let mut run_on = 0;
    for round in 0..600u32 {
        board.dirty = Lines::default();
        let (before, before_ram) = (board, ram.clone());
        let next = match round % 3 {
            0 => Step::Keyboard((round / 3 % 16) as u8, round as u8),
            1 => Step::Write((round * 167) as u16, round as u8),
            _ => Step::Write((round % 4 * 0x4000 + round * 7 % 0x2C0) as u16, round as u8),
        };
        assert_eq!(step(&mut board, next, &mut ram, &[]).refusal, 0);
        for line in 0..=255 {
            let (word, bytes) = bytes_of(&before, &before_ram, line);
            let altered = bytes.iter().find(|&&at| ram[at] != before_ram[at]);
            let differs = word != bytes_of(&before, &ram, line).0 || altered.is_some();
            assert_eq!(board.dirty.has(line), line < 200 && differs, "line {line} after {next:?}");
            run_on += altered.map_or(0, |at| (at / BLOCK != bytes[0] / BLOCK) as u32);
        }
    }
    assert!(run_on > 300, "{run_on}");
}

/// A line's pointer word and the indexes of its bytes.
fn bytes_of(board: &Board, ram: &[u8], line: u8) -> (u16, Vec<usize>) {
    let entry = table_index(&board.video) + 2 * board.video.top.wrapping_add(line) as usize;
    let word = u16::from_le_bytes([ram[entry], ram[entry + 1]]);
    let Pointer { block, start } = read_pointer(word);
    (word, (0..90).map(|i| (block as usize * BLOCK + start as usize + 8 * i) % STANDARD_RAM).collect())
}
