//! The bytes between a record's fields carry nothing: no reply and no field depends on them.

use joyce::{Board, PowerOn, Reply, Sizes, StepNumbers, BLOCK, LIBRARY, PICTURE};
use joyce_host::fuzz::Rng;

const PADDING: [usize; 8] = [11, 13, 17, 27, 28, 29, 30, 31];

/// A record as its 64 bytes.
#[derive(Clone, Copy)]
#[repr(C, align(8))]
struct Raw([u8; 64]);

impl Raw {
    fn padded(mut self, fill: u8) -> Raw {
        PADDING.iter().for_each(|&at| self.0[at] = fill);
        self
    }

    fn board(&mut self) -> &mut Board {
        // SAFETY: as large as a record and aligned as one, and every content of the bytes is a record.
        unsafe { &mut *self.0.as_mut_ptr().cast() }
    }
}

/// Every function that is lent a record, and the record after each.
fn replies(raw: Raw, step: StepNumbers) -> (Vec<Reply>, Vec<Board>) {
    let mut raw = raw;
    let board = raw.board();
    let (mut ram, mut picture) = (vec![0x5A; 8 * BLOCK], vec![0; PICTURE]);
    let (mut replies, mut boards) = (Vec::new(), Vec::new());
    replies.push(LIBRARY.next_dirty(board, 0));
    replies.push(LIBRARY.step(board, step, &mut ram, &[1, 2, 3]));
    boards.push(*board);
    replies.push(LIBRARY.draw(board, &ram, &mut picture));
    replies.push(LIBRARY.refresh(board, &ram, &mut picture));
    boards.push(*board);
    let on = PowerOn { sizes: Sizes { internal: 8, total: step.kind as u8 }, rate: 50, ..PowerOn::default() };
    replies.push(LIBRARY.power_on(board, &on));
    boards.push(*board);
    (replies, boards)
}

#[test]
fn padding_carries_nothing() {
    assert_eq!(std::mem::size_of::<Board>(), 64);
    let mut rng = Rng::new(11);
    let mut accepted = 0;
    for turn in 0..6_000 {
        let mut raw = Raw([0; 64]);
        rng.fill(&mut raw.0);
        // Half of the records are good ones; random bytes hardly ever are.
        if turn % 2 == 0 {
            let rate = rng.pick(&[50, 60]);
            let on = PowerOn { sizes: Sizes { internal: 8, total: 8 }, rate, ..PowerOn::default() };
            assert_eq!(LIBRARY.power_on(raw.board(), &on).refusal(), 0);
            raw.board().clock.counter = rng.byte() % 16;
            raw.board().video.control = rng.byte();
            raw.board().disc.line = rng.byte() % 2;
        }
        let kind = 1 + rng.below(9) as u32;
        let (number, value) = match kind {
            6 => (0, 0),
            8 | 9 => (0, rng.below(2) as u32),
            7 => (rng.below(16) as u32, rng.byte() as u32),
            3 | 5 => (rng.byte() as u32, rng.byte() as u32),
            _ => (rng.byte() as u32, 0),
        };
        let step = StepNumbers::new(kind, number, value);
        let (zeros, ones) = (replies(raw.padded(0x00), step), replies(raw.padded(0xFF), step));
        accepted += (zeros.0[1].refusal() == 0) as u32;
        assert!(zeros == ones, "turn {turn}: {step:?} on {:?}", raw.board());
    }
    assert!(accepted > 1_500);
}
