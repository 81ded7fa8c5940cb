//! Archives once more, for speed and with the same checks: to be timed beside the library. A test holds it to the plain one.

use super::FieldsRules;
use joyce::archive::{
    entry_at, length, picture_at, pictures_at, Count, Entry, Fields, Found, Length, ENTRY, FORM, HEADER, MOST_BENCH,
    MOST_FRAMES,
};
use joyce::{Refusal, LINE_BYTES, PICTURE};

fn word(bytes: &[u8], at: usize) -> u32 {
    u32::from_le_bytes(bytes[at..at + 4].try_into().expect("four bytes"))
}

/// Bench and number of an entry as one word.
fn pair(entry: &[u8]) -> u64 {
    u64::from_le_bytes(entry[..8].try_into().expect("eight bytes"))
}

fn pair_of(bench: u32, number: u32) -> u64 {
    bench as u64 | (number as u64) << 32
}

/// The header of an archive.
fn header(frames: usize) -> [u32; 5] {
    [FORM, frames as u32, HEADER as u32, pictures_at(frames) as u32, length(frames) as u32]
}

/// The number of frames, if header and length are right.
fn framed(archive: &[u8]) -> Option<usize> {
    if archive.len() < HEADER {
        return None;
    }
    let n = word(archive, 4) as usize;
    if n > MOST_FRAMES || archive.len() != length(n) {
        return None;
    }
    let right = header(n).iter().enumerate().all(|(index, &number)| word(archive, 4 * index) == number);
    right.then_some(n)
}

/// The number of frames of a sound archive.
fn sound(archive: &[u8]) -> Option<usize> {
    let n = framed(archive)?;
    let mut pairs = [0; MOST_FRAMES];
    let entries = archive[HEADER..pictures_at(n)].chunks_exact(ENTRY);
    let pictures = archive[pictures_at(n)..].chunks_exact(PICTURE);
    for (k, (entry, picture)) in entries.zip(pictures).enumerate() {
        let fields = Fields::new(word(entry, 0), word(entry, 4), word(entry, 8));
        if !fields.in_range() || word(entry, 12) as usize != picture_at(n, k) {
            return None;
        }
        let pair = pair(entry);
        if contains(&pairs[..k], pair) || !zero(&picture[LINE_BYTES * fields.shown as usize..]) {
            return None;
        }
        pairs[k] = pair;
    }
    Some(n)
}

/// Looks at every word and not only up to the first, so that several are compared at once.
fn contains(pairs: &[u64], pair: u64) -> bool {
    pairs.iter().fold(false, |found, &other| found | (other == pair))
}

fn zero(bytes: &[u8]) -> bool {
    bytes.iter().fold(0, |all, byte| all | byte) == 0
}

fn position(archive: &[u8], n: usize, bench: u32, number: u32) -> Option<usize> {
    let sought = pair_of(bench, number);
    archive[HEADER..pictures_at(n)].chunks_exact(ENTRY).position(|entry| pair(entry) == sought)
}

fn put(bytes: &mut [u8], at: usize, number: u32) {
    bytes[at..at + 4].copy_from_slice(&number.to_le_bytes());
}

pub fn start(room: &mut [u8]) -> Length {
    if room.len() < HEADER {
        return Length { length: 0, refusal: Refusal::NO_ROOM.0 };
    }
    header(0).iter().enumerate().for_each(|(index, &number)| put(room, 4 * index, number));
    Length { length: HEADER as u32, refusal: 0 }
}

pub fn count(archive: &[u8]) -> Count {
    match sound(archive) {
        Some(n) => Count { frames: n as u32, refusal: 0 },
        None => Count { frames: 0, refusal: Refusal::BAD_ARCHIVE.0 },
    }
}

pub fn entry(archive: &[u8], k: u32) -> Entry {
    let refused = |refusal: Refusal| Entry { refusal: refusal.0, ..Entry::default() };
    match sound(archive) {
        None => refused(Refusal::BAD_ARCHIVE),
        Some(n) if k as usize >= n => refused(Refusal::BAD_FRAME),
        Some(_) => {
            let at = entry_at(k as usize);
            let (bench, number, shown) = (word(archive, at), word(archive, at + 4), word(archive, at + 8));
            Entry { bench: bench as u16, number, shown: shown as u16, refusal: 0 }
        }
    }
}

pub fn find(archive: &[u8], bench: u32, number: u32) -> Found {
    match sound(archive) {
        None => Found { index: None, refusal: Refusal::BAD_ARCHIVE.0 },
        Some(n) => Found { index: position(archive, n, bench, number).map(|k| k as u16), refusal: 0 },
    }
}

pub fn read(archive: &[u8], k: u32, picture: &mut [u8]) -> Entry {
    if picture.len() != PICTURE {
        return Entry { refusal: Refusal::BAD_LENGTH.0, ..Entry::default() };
    }
    let entry = entry(archive, k);
    if entry.refusal == 0 {
        let at = word(archive, entry_at(k as usize) + 12) as usize;
        let len = LINE_BYTES * entry.shown as usize;
        picture[..len].copy_from_slice(&archive[at..at + len]);
    }
    entry
}

pub fn add(archive: &[u8], fields: Fields, picture: &[u8], room: &mut [u8]) -> Length {
    let refused = |refusal: Refusal| Length { length: 0, refusal: refusal.0 };
    if picture.len() != PICTURE {
        return refused(Refusal::BAD_LENGTH);
    }
    let n = match sound(archive) {
        Some(n) => n,
        None => return refused(Refusal::BAD_ARCHIVE),
    };
    if !fields.in_range() || position(archive, n, fields.bench, fields.number).is_some() {
        return refused(Refusal::BAD_FRAME);
    }
    if n == MOST_FRAMES || length(n + 1) > room.len() {
        return refused(Refusal::NO_ROOM);
    }
    write_next(archive, n, fields, picture, &mut room[..length(n + 1)]);
    Length { length: length(n + 1) as u32, refusal: 0 }
}

/// The archive with one frame more, in room of just its length.
fn write_next(archive: &[u8], n: usize, fields: Fields, picture: &[u8], room: &mut [u8]) {
    debug_assert!(fields.bench <= MOST_BENCH);
    let (front, pictures) = room.split_at_mut(pictures_at(n + 1));
    header(n + 1).iter().enumerate().for_each(|(index, &number)| put(front, 4 * index, number));
    let (old, new) = front[HEADER..].split_at_mut(ENTRY * n);
    old.copy_from_slice(&archive[HEADER..pictures_at(n)]);
    // One entry more stands before the pictures.
    old.chunks_exact_mut(ENTRY).for_each(|entry| put(entry, 12, word(entry, 12) + ENTRY as u32));
    let last = [fields.bench, fields.number, fields.shown, picture_at(n + 1, n) as u32];
    last.iter().enumerate().for_each(|(index, &number)| put(new, 4 * index, number));
    let (kept, added) = pictures.split_at_mut(PICTURE * n);
    kept.copy_from_slice(&archive[pictures_at(n)..]);
    let (shown, unshown) = added.split_at_mut(LINE_BYTES * fields.shown as usize);
    shown.copy_from_slice(&picture[..shown.len()]);
    unshown.fill(0);
}
