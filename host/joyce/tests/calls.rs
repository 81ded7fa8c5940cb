//! The typed calls hand over what they are given, and give what is in the whole reply. (What the library itself does is
//! held to the rules elsewhere.)

use joyce::archive::{self, Count, Entry, Fields, Found, Length};
use joyce::{Access, Answer, Difference, Drawn, MadePointer, NextLine, Paging, Pointer, Reach};
use joyce::{Board, PowerOn, Refusal, Reply, Sizes, Step, StepNumbers, BLOCK, LIBRARY, PICTURE};

const ON: PowerOn = PowerOn {
    sizes: Sizes { internal: 8, total: 9 },
    rate: 60,
    maps: [0x80, 0x25, 0x82, 0x88],
    lock: 0x20,
    table: 0x5B,
    top: 0xF8,
};

fn board() -> (Board, Vec<u8>) {
    (Board::power_on(&ON).expect("powered on"), (0..9 * BLOCK).map(|at| ((at * 31) >> 3) as u8).collect())
}

/// No two of the values are alike, so that one handed over in another's place shows.
#[test]
fn power_on_gives_each_value_its_place() {
    let (board, _) = board();
    assert_eq!((board.sizes, board.rate), (ON.sizes, ON.rate));
    assert_eq!(board.paging, Paging { maps: ON.maps, lock: ON.lock });
    assert_eq!((board.video.table, board.video.top), (ON.table, ON.top));
    assert_eq!((board.boot.mode, board.driven, board.disc.terminal_count), (1, 1, 1));
    assert_eq!((board.dirty.count(), board.dirty.has(199), board.dirty.has(200)), (200, true, false));
    let large = PowerOn { sizes: Sizes { internal: 8, total: 129 }, ..ON };
    assert_eq!(Board::power_on(&large), Err(Refusal::BAD_SIZES));
    let mut other = board;
    assert_eq!(LIBRARY.power_on(&mut other, &large), Reply(6 << 32));
    assert_eq!(other, Board::default());
}

/// Steps, and the numbers that each must be handed over as.
const STEPS: [(Step, [u32; 3]); 14] = [
    (Step::Fetch(0xFFFF), [1, 0xFFFF, 0]),
    (Step::Read(0x1234), [2, 0x1234, 0]),
    (Step::Write(0x8001, 0xA5), [3, 0x8001, 0xA5]),
    (Step::PortIn(0xF4), [4, 0xF4, 0]),
    (Step::PortOut(0xF8, 2), [5, 0xF8, 2]),
    (Step::Scan, [6, 0, 0]),
    (Step::Keyboard(15, 0x5A), [7, 15, 0x5A]),
    (Step::DiscLine(true), [8, 0, 1]),
    (Step::ExternalLine(true), [9, 0, 1]),
    (Step::Keyboard(16, 0), [7, 16, 0]),
    (Step::PortIn(0x02), [4, 0x02, 0]),
    (Step::PortOut(0xFC, 1), [5, 0xFC, 1]),
    (Step::Fetch(1), [1, 1, 0]),
    (Step::DiscLine(false), [8, 0, 0]),
];

/// Each step typed and by numbers, on equal records and RAMs.
#[test]
fn steps_are_the_interface() {
    let (mut one, mut one_ram) = board();
    let (mut other, mut other_ram) = (one, one_ram.clone());
    for (step, [kind, number, value]) in STEPS {
        let answer = one.step(step, &mut one_ram, &[0x3E]);
        let reply = LIBRARY.step(&mut other, StepNumbers::new(kind, number, value), &mut other_ram, &[0x3E]);
        assert_eq!(answer, Answer::from(reply), "{step:?}");
        assert!(one == other && one_ram == other_ram, "{step:?}");
    }
    let kind_10 = one.step(StepNumbers::new(10, 0, 0), &mut one_ram, &[]);
    assert_eq!(kind_10.accepted(), Err(Refusal::BAD_NUMBER));
    let short = one.step(Step::Scan, &mut one_ram[1..], &[]);
    assert_eq!((short.accepted(), short.int), (Err(Refusal::BAD_LENGTH), true));
}

#[test]
fn parts_of_a_reply_go_to_their_fields() {
    let all = Reply(0x0012_3402_001F_ABCD);
    let answer = Answer { byte: 0xCD, int: true, nmi: true, forwarded: true, refusal: 2 };
    assert_eq!(Answer::from(all), answer);
    assert_eq!(Answer::from(Reply(0x02_0000)), Answer { nmi: true, ..Answer::default() });
    assert_eq!(Answer::from(Reply(0x04_0000)), Answer { forwarded: true, ..Answer::default() });
    assert_eq!(Drawn::from(all), Drawn { count: 0xABCD, floating: true, refusal: 2 });
    assert_eq!(NextLine::from(all), NextLine { line: Some(0xCD), refusal: 2 });
    assert_eq!(NextLine::from(Reply(0)), NextLine { line: None, refusal: 0 });
    assert_eq!(Difference::from(all), Difference { at: Some((0xCD, 0x1234)), refusal: 2 });
    assert_eq!(MadePointer::from(all), MadePointer { word: 0xABCD, refusal: 2 });
    assert_eq!(Pointer::from(all), Pointer { block: 0x34, start: 0xABCD });
    assert_eq!(Reach::from(all), Reach { place: 0xABCD, read: 0x34, write: 0x12, refusal: 2 });
    assert_eq!(Length::from(all), Length { length: 0x001F_ABCD, refusal: 2 });
    assert_eq!(Count::from(all), Count { frames: 0x001F_ABCD, refusal: 2 });
    assert_eq!(Found::from(all), Found { index: Some(0xABCD), refusal: 2 });
    let entry = Entry { bench: 0x1234, number: 0x001F_ABCD, shown: 200, refusal: 2 };
    assert_eq!(Entry::from(Reply(all.0 | 1 << 56)), entry);
    assert_eq!(Entry::from(Reply(all.0 | 2 << 56)), Entry { shown: 256, ..entry });
    assert_eq!(Entry::from(all).shown, 0);
    let text = format!("{all:?}");
    assert_eq!(text, "00123402001FABCD (value ABCD, INT, NMI, forwarded, floating, found, upper part 1234, refusal 2)");
}

#[test]
fn pictures() {
    let (mut board, ram) = board();
    let (mut drawn, mut refreshed) = (vec![1; PICTURE], vec![1; PICTURE]);
    assert_eq!(board.draw(&ram, &mut drawn).accepted(), Ok(Drawn::default()));
    assert_eq!(board.next_dirty(7).accepted().map(|next| next.line), Ok(Some(7)));
    assert_eq!(board.next_dirty(256).accepted(), Err(Refusal::BAD_NUMBER));
    assert_eq!(board.refresh(&ram, &mut refreshed[1..]).accepted(), Err(Refusal::BAD_LENGTH));
    assert_eq!(board.refresh(&ram, &mut refreshed).accepted().map(|drawn| drawn.count), Ok(200));
    assert_eq!(joyce::first_difference(&drawn, &refreshed).accepted().map(|difference| difference.at), Ok(None));
    assert_eq!(board.next_dirty(0).accepted().map(|next| next.line), Ok(None));
    refreshed[91] ^= 0x01;
    assert_eq!(joyce::first_difference(&drawn, &refreshed).at, Some((1, 15)));
    assert_eq!(joyce::first_difference(&drawn, &[]).accepted(), Err(Refusal::BAD_LENGTH));
    board.rate = 55;
    assert_eq!(board.draw(&ram, &mut drawn).accepted(), Err(Refusal::BAD_RECORD));
}

#[test]
fn plain_numbers() {
    assert_eq!(joyce::version(), joyce::VERSION);
    assert_eq!((joyce::roll(3, 5), joyce::roll(5, 3)), (2, -2));
    assert_eq!(joyce::read_pointer(0x2C98), Pointer { block: 1, start: 0x1930 });
    assert_eq!(joyce::make_pointer(1, 0x1930).accepted().map(|made| made.word), Ok(0x2C98));
    assert_eq!(joyce::make_pointer(0, 8).accepted(), Err(Refusal::BAD_NUMBER));
    assert_eq!(joyce::widen(&[0; 90], &mut [0; 179]), Err(Refusal::BAD_LENGTH));
    let paging = Paging { maps: ON.maps, lock: ON.lock };
    let access = Access { sizes: ON.sizes, paging, address: 0x4002 };
    assert_eq!(joyce::reach(&access), Reach { place: 2, read: 2, write: 5, refusal: 0 });
    // The lock bit of 4000h, and not that of 8000h.
    let locked = Access { paging: Paging { lock: 0x10, ..paging }, ..access };
    assert_eq!(joyce::reach(&locked).read, 5);
    assert_eq!(joyce::reach(&Access { sizes: Sizes::default(), ..access }).accepted(), Err(Refusal::BAD_SIZES));
}

#[test]
fn archives() {
    let (mut empty, mut one) = (vec![0; archive::length(0)], vec![0xEE; archive::length(1) + 1]);
    assert_eq!(archive::start(&mut empty[1..]).accepted(), Err(Refusal::NO_ROOM));
    assert_eq!(archive::start(&mut empty).accepted().map(|started| started.length), Ok(20));
    let (picture, fields) = (vec![0x5A; PICTURE], Fields::new(258, 0x0102_0304, 200));
    assert_eq!(archive::add(&empty, fields, &picture, &mut one).length as usize, archive::length(1));
    assert_eq!(one.pop(), Some(0xEE));
    let (pair, again) = (archive::find(&one, 258, 0x0102_0304), archive::add(&one, fields, &picture, &mut []));
    assert_eq!((pair.index, again.accepted()), (Some(0), Err(Refusal::BAD_FRAME)));
    assert_eq!(archive::find(&one, 0x0102_0304, 258).accepted().map(|found| found.index), Ok(None));
    assert_eq!(archive::count(&one).accepted().map(|count| count.frames), Ok(1));
    assert_eq!(archive::count(&one[1..]).accepted(), Err(Refusal::BAD_ARCHIVE));
    let mut read = vec![0x11; PICTURE];
    let entry = Entry { bench: 258, number: 0x0102_0304, shown: 200, refusal: 0 };
    assert_eq!((archive::entry(&one, 0), archive::read(&one, 0, &mut read)), (entry, entry));
    assert_eq!((read[17_999], read[18_000]), (0x5A, 0x11));
    assert_eq!(archive::read(&one, 1, &mut read).accepted(), Err(Refusal::BAD_FRAME));
}
