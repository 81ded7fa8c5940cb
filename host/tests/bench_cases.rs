//! The bench cases, run on the library and on the model through the same trait.

use joyce::{Access, Board, Difference, Lines, MadePointer, NextLine, Paging, Pointer, PowerOn, Reach, Sizes, Step};
use joyce::{BLOCK, LIBRARY, LINE_BYTES, PICTURE, WIDE_LINE_BYTES};
use joyce_host::machine::{Machine, Model};
use joyce_host::model::LineSets;

fn both(case: impl Fn(&dyn Machine)) {
    case(&Model);
    case(&LIBRARY);
}

fn blocks(machine: &dyn Machine, internal: u8, total: u8, maps: [u8; 4], lock: u8, address: u16) -> (u8, u8, u16) {
    let access = Access { sizes: Sizes { internal, total }, paging: Paging { maps, lock }, address };
    let reach = Reach::from(machine.reach(&access));
    assert_eq!(reach.refusal, 0);
    (reach.read, reach.write, reach.place)
}

/// A board of 8 blocks out of boot mode, no line dirty, and its RAM.
fn board(machine: &dyn Machine, rate: u8, table: u8, top: u8) -> (Board, Vec<u8>) {
    let maps = [0x80, 0x81, 0x84, 0x87];
    let on = PowerOn { sizes: Sizes { internal: 8, total: 8 }, rate, maps, lock: 0, table, top };
    let (mut board, mut ram) = (Board::default(), vec![0; 8 * BLOCK]);
    assert_eq!(machine.power_on(&mut board, &on).0, 0);
    assert_eq!(machine.step(&mut board, Step::PortOut(0xF8, 0).into(), &mut ram, &[]).0, 0);
    board.dirty = Lines::default();
    (board, ram)
}

#[test]
fn p1_to_p5_and_ffff() {
    both(|machine| {
        assert_eq!(blocks(machine, 16, 16, [0x98; 4], 0, 0), (8, 8, 0));
        assert_eq!(blocks(machine, 32, 32, [0x98; 4], 0, 0), (24, 24, 0));
        assert_eq!(blocks(machine, 32, 40, [0xA7; 4], 0, 0), (39, 39, 0));
        assert_eq!(blocks(machine, 32, 40, [0xA8; 4], 0, 0), (8, 8, 0));
        assert_eq!(blocks(machine, 8, 8, [0, 0x25, 0, 0], 0x00, 0x4000), (2, 5, 0));
        assert_eq!(blocks(machine, 8, 8, [0, 0x25, 0, 0], 0x10, 0x4000), (5, 5, 0));
        assert_eq!(blocks(machine, 8, 8, [0, 0x25, 0, 0], 0x20, 0x4000), (2, 5, 0));
        assert_eq!(blocks(machine, 8, 8, [0, 0, 0, 0x87], 0, 0xFFFF), (7, 7, 0x3FFF));
    });
}

#[test]
fn p6_to_p8_pointers() {
    both(|machine| {
        let read = |word| Pointer::from(machine.read_pointer(word));
        assert_eq!(read(u16::from_le_bytes([0x98, 0x2C])), Pointer { block: 1, start: 0x1930 });
        assert_eq!(read(0xFFFF), Pointer { block: 7, start: 0x3FF7 });
        assert_eq!(MadePointer::from(machine.make_pointer(7, 0x3FF7)), MadePointer { word: 0xFFFF, refusal: 0 });
        let (mut board, mut ram) = board(machine, 50, 0, 0);
        ram[..2].copy_from_slice(&0x3EE0u16.to_le_bytes());
        ram[BLOCK + 0x3FF8] = 71;
        ram[2 * BLOCK] = 72;
        let mut picture = vec![0; PICTURE];
        assert_eq!(machine.step(&mut board, Step::PortOut(0xF7, 0x40).into(), &mut ram, &[]).refusal(), 0);
        assert_eq!(machine.draw(&board, &ram, &mut picture).0, 0);
        assert_eq!(picture[71..73], [71, 72]);
        // Block 2 at 8000h in place of block 4: line 0 has a byte at its start, and none at the start of block 1.
        assert_eq!(machine.step(&mut board, Step::PortOut(0xF2, 0x82).into(), &mut ram, &[]).refusal(), 0);
        for (address, dirty) in [(0x8000, Lines::single(0)), (0x4000, Lines::default())] {
            board.dirty = Lines::default();
            assert_eq!(machine.step(&mut board, Step::Write(address, 1).into(), &mut ram, &[]).refusal(), 0);
            assert_eq!(board.dirty, dirty);
        }
    });
}

#[test]
fn p9_and_p10_the_table() {
    both(|machine| {
        let (mut board, mut ram) = board(machine, 50, 0x99, 0xFF);
        // Block 4 is at 8000h; its place 3200h is entry 0, which line 1 uses.
        assert_eq!(machine.step(&mut board, Step::Write(0x8000 + 0x3200, 1).into(), &mut ram, &[]).refusal(), 0);
        assert_eq!(NextLine::from(machine.next_dirty(&board, 0)), NextLine { line: Some(1), refusal: 0 });
        assert_eq!(board.dirty, Lines::single(1));
    });
}

#[test]
fn p11_the_counter() {
    both(|machine| {
        let (mut board, mut ram) = board(machine, 50, 0, 0);
        board.clock.counter = 3;
        let seen =
            [0xF8, 0xF4, 0xF4].map(|port| machine.step(&mut board, Step::PortIn(port).into(), &mut ram, &[]).value());
        assert_eq!(seen, [0x53, 0x53, 0x50]);
    });
}

#[test]
fn p12_drawn_and_widened() {
    both(|machine| {
        let (mut board, mut ram) = board(machine, 50, 0x40, 0);
        ram[0] = 0xA5;
        let mut picture = vec![0; PICTURE];
        for (control, byte) in [(0x40, 0xA5), (0xC0, 0x5A), (0x00, 0x00), (0x80, 0xFF)] {
            assert_eq!(machine.step(&mut board, Step::PortOut(0xF7, control).into(), &mut ram, &[]).refusal(), 0);
            assert_eq!(machine.refresh(&mut board, &ram, &mut picture).refusal(), 0);
            assert_eq!(picture[0], byte);
        }
        let mut wide = [0; WIDE_LINE_BYTES];
        assert_eq!(machine.widen(&[0xA5; LINE_BYTES], &mut wide), 0);
        assert_eq!(wide, [0xCC, 0x33].repeat(LINE_BYTES)[..]);
    });
}

#[test]
fn p13_the_beam() {
    both(|machine| {
        for (rate, last) in [(50, 311), (60, 259)] {
            let (mut board, mut ram) = board(machine, rate, 0, 0);
            let beams = [1, 2, last].map(|beam| {
                board.clock.beam = beam;
                board.clock.counter = 0;
                assert_eq!(machine.step(&mut board, Step::Scan.into(), &mut ram, &[]).refusal(), 0);
                (board.clock.beam, board.clock.counter)
            });
            assert_eq!(beams, [(2, 1), (3, 0), (0, 0)]);
        }
    });
}

#[test]
fn p14_rolls() {
    both(|machine| assert_eq!([machine.roll(255, 0), machine.roll(0, 255), machine.roll(0, 128)], [1, -1, -128]));
}

#[test]
fn first_difference_in_reading_order() {
    both(|machine| {
        let a = vec![0; PICTURE];
        let mut b = a.clone();
        b[PICTURE - 1] = 1;
        assert_eq!(Difference::from(machine.first_difference(&a, &b)).at, Some((255, 719)));
        b[89] = 0x80;
        assert_eq!(Difference::from(machine.first_difference(&a, &b)).at, Some((0, 712)));
    });
}
