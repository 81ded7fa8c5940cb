//! Archives worked out by hand from document 02, on the library, on the model and on the model behind the C interface.

use joyce::archive::{length, Count, Entry, Fields, Found, Length};
use joyce::{LIBRARY, PICTURE};
use joyce_host::machine::{Machine, Model};
use joyce_host::model_c::C_MODEL;

fn each(case: impl Fn(&dyn Machine)) {
    case(&Model);
    case(&C_MODEL);
    case(&LIBRARY);
}

fn numbers(numbers: &[u32]) -> Vec<u8> {
    numbers.iter().flat_map(|number| number.to_le_bytes()).collect()
}

fn started(machine: &dyn Machine) -> Vec<u8> {
    let mut room = vec![0; 20];
    assert_eq!(machine.archive_start(&mut room).0, 20);
    room
}

/// The next archive, in room of just its length.
fn added(machine: &dyn Machine, archive: &[u8], fields: Fields, picture: &[u8]) -> Vec<u8> {
    let mut room = vec![0xEE; archive.len() + 23_056];
    let reply = Length::from(machine.archive_add(archive, fields, picture, &mut room));
    assert_eq!(reply, Length { length: room.len() as u32, refusal: 0 });
    room
}

#[test]
fn no_frames() {
    each(|machine| {
        let mut room = [0xEE; 24];
        assert_eq!(machine.archive_start(&mut room[..19]).0, 12 << 32);
        assert_eq!(room, [0xEE; 24]);
        assert_eq!(machine.archive_start(&mut room).0, 20);
        assert_eq!(room[..20], numbers(&[1, 0, 20, 20, 20]));
        assert_eq!(room[20..], [0xEE; 4]);
        assert_eq!(machine.archive_count(&room[..20]).0, 0);
        assert_eq!(machine.archive_find(&room[..20], 1, 1).0, 0);
        assert_eq!(machine.archive_entry(&room[..20], 0).0, 11 << 32);
    });
}

#[test]
fn two_frames_byte_by_byte() {
    each(|machine| {
        let (first, second) = (vec![0xA5; PICTURE], vec![0x3C; PICTURE]);
        let one = added(machine, &started(machine), Fields::new(258, 0x0102_0304, 200), &first);
        let two = added(machine, &one, Fields::new(65_535, u32::MAX, 256), &second);
        let mut right = numbers(&[1, 2, 20, 52, 46_132]);
        right.extend(numbers(&[258, 0x0102_0304, 200, 52, 65_535, u32::MAX, 256, 23_092]));
        right.extend(&first[..18_000]);
        right.extend([0; 5_040]);
        right.extend(&second);
        assert_eq!(two, right);
        assert_eq!(right.len(), length(2));
        assert_eq!(Count::from(machine.archive_count(&two)), Count { frames: 2, refusal: 0 });
        // Shown lines are 1 for 200 and 2 for 256.
        assert_eq!(machine.archive_entry(&two, 0).0, 1 << 56 | 258 << 40 | 0x0102_0304);
        assert_eq!(machine.archive_entry(&two, 1).0, 2 << 56 | 65_535 << 40 | u32::MAX as u64);
        assert_eq!(machine.archive_find(&two, 65_535, u32::MAX).0, 1 << 20 | 1);
        assert_eq!(Found::from(machine.archive_find(&two, 258, 1)), Found { index: None, refusal: 0 });
        let mut picture = vec![0x11; PICTURE];
        let read = Entry::from(machine.archive_read(&two, 0, &mut picture));
        assert_eq!(read, Entry { bench: 258, number: 0x0102_0304, shown: 200, refusal: 0 });
        assert_eq!((picture[17_999], picture[18_000]), (0xA5, 0x11));
    });
}

#[test]
fn refusals_in_order() {
    each(|machine| {
        let (picture, bad) = (vec![1; PICTURE + 1], vec![0; 20]);
        let one = added(machine, &started(machine), Fields::new(3, 4, 256), &picture[..PICTURE]);
        let refusal = |archive: &[u8], fields: (u32, u32, u32), picture: &[u8], room: usize| {
            let mut lent = vec![0xEE; room];
            let fields = Fields::new(fields.0, fields.1, fields.2);
            let reply = machine.archive_add(archive, fields, picture, &mut lent);
            assert!(lent.iter().all(|&byte| byte == 0xEE), "refused, and written");
            reply.0
        };
        assert_eq!(refusal(&bad, (0, 4, 256), &picture, 0), 2 << 32);
        assert_eq!(refusal(&bad, (0, 4, 256), &picture[..PICTURE], 0), 10 << 32);
        assert_eq!(refusal(&one, (0, 4, 256), &picture[..PICTURE], 0), 11 << 32);
        assert_eq!(refusal(&one, (3, 4, 200), &picture[..PICTURE], 0), 11 << 32);
        assert_eq!(refusal(&one, (3, 5, 201), &picture[..PICTURE], 0), 11 << 32);
        assert_eq!(refusal(&one, (3, 5, 200), &picture[..PICTURE], length(2) - 1), 12 << 32);
        let mut short = vec![0; PICTURE - 1];
        assert_eq!(machine.archive_read(&bad, 9, &mut short).0, 2 << 32);
        assert_eq!(machine.archive_read(&bad, 9, &mut vec![0; PICTURE]).0, 10 << 32);
        assert_eq!(machine.archive_read(&one, 1, &mut vec![0; PICTURE]).0, 11 << 32);
        assert_eq!(machine.archive_find(&bad, 3, 4).0, 10 << 32);
    });
}
