//! Archives, plainly from document 02: one is read into a list of frames, and a list of frames is written down.

use joyce::archive::{Count, Entry, Fields, Found, Length};
use joyce::{Refusal, LINE_BYTES, PICTURE};

/// A frame: its bench, its number and its shown lines.
#[derive(Clone, Copy, PartialEq, Eq, Debug)]
pub struct Frame<'a> {
    pub bench: u32,
    pub number: u32,
    pub lines: &'a [u8],
}

impl Frame<'_> {
    fn shown(&self) -> usize {
        self.lines.len() / LINE_BYTES
    }

    fn is_of(&self, bench: u32, number: u32) -> bool {
        (self.bench, self.number) == (bench, number)
    }

    fn entry(&self) -> Entry {
        Entry { bench: self.bench as u16, number: self.number, shown: self.shown() as u16, refusal: 0 }
    }
}

fn put(bytes: &mut Vec<u8>, numbers: &[usize]) {
    for &number in numbers {
        bytes.extend_from_slice(&(number as u32).to_le_bytes());
    }
}

/// The archive of a list of frames: header, entries, pictures, unshown lines zero.
pub fn written(frames: &[Frame]) -> Vec<u8> {
    let n = frames.len();
    let mut bytes = Vec::with_capacity(20 + 23_056 * n);
    put(&mut bytes, &[1, n, 20, 20 + 16 * n, 20 + 23_056 * n]);
    for (k, frame) in frames.iter().enumerate() {
        let picture = 20 + 16 * n + 23_040 * k;
        put(&mut bytes, &[frame.bench as usize, frame.number as usize, frame.shown(), picture]);
    }
    for frame in frames {
        bytes.extend_from_slice(frame.lines);
        bytes.resize(bytes.len() + PICTURE - frame.lines.len(), 0);
    }
    bytes
}

fn number_at(bytes: &[u8], at: usize) -> Option<u32> {
    let four = bytes.get(at..at + 4)?;
    Some(u32::from_le_bytes(four.try_into().expect("four bytes")))
}

/// Entry k of n, if it is there and its shown lines are as many as may be.
fn frame(bytes: &[u8], n: usize, k: usize) -> Option<Frame<'_>> {
    let entry = 20 + 16 * k;
    let shown = number_at(bytes, entry + 8)? as usize;
    if shown != 200 && shown != 256 {
        return None;
    }
    let picture = 20 + 16 * n + 23_040 * k;
    let lines = bytes.get(picture..picture + LINE_BYTES * shown)?;
    Some(Frame { bench: number_at(bytes, entry)?, number: number_at(bytes, entry + 4)?, lines })
}

/// Which lists can be written at all: to 1,000 frames, each bench in range, no bench and number twice.
fn storable(frames: &[Frame]) -> bool {
    let twice = |k: usize| frames[..k].iter().any(|other| other.is_of(frames[k].bench, frames[k].number));
    frames.len() <= 1_000 && (0..frames.len()).all(|k| (1..=65_535).contains(&frames[k].bench) && !twice(k))
}

/// The frames of a sound archive. It is sound if it is, byte for byte, what writing them gives.
fn frames(archive: &[u8]) -> Option<Vec<Frame<'_>>> {
    let n = number_at(archive, 4)? as usize;
    if n > 1_000 {
        return None;
    }
    let frames = (0..n).map(|k| frame(archive, n, k)).collect::<Option<Vec<_>>>()?;
    (storable(&frames) && written(&frames) == archive).then_some(frames)
}

/// Writes the archive of no frames.
pub fn start(room: &mut [u8]) -> Length {
    write_to(room, &written(&[]))
}

/// Writes an archive to the front of the room, if there is room.
fn write_to(room: &mut [u8], archive: &[u8]) -> Length {
    if archive.len() > room.len() {
        return Length { length: 0, refusal: Refusal::NO_ROOM.0 };
    }
    room[..archive.len()].copy_from_slice(archive);
    Length { length: archive.len() as u32, refusal: 0 }
}

/// How many frames there are.
pub fn count(archive: &[u8]) -> Count {
    match frames(archive) {
        Some(frames) => Count { frames: frames.len() as u32, refusal: 0 },
        None => Count { frames: 0, refusal: Refusal::BAD_ARCHIVE.0 },
    }
}

/// Frame k, or the refusal.
fn frame_of(archive: &[u8], k: u32) -> Result<Frame<'_>, Entry> {
    let refused = |refusal: Refusal| Entry { refusal: refusal.0, ..Entry::default() };
    let frames = frames(archive).ok_or_else(|| refused(Refusal::BAD_ARCHIVE))?;
    frames.get(k as usize).copied().ok_or_else(|| refused(Refusal::BAD_FRAME))
}

/// Bench, number and shown lines of entry k.
pub fn entry(archive: &[u8], k: u32) -> Entry {
    frame_of(archive, k).map_or_else(|refused| refused, |frame| frame.entry())
}

/// Which entry has a bench and number.
pub fn find(archive: &[u8], bench: u32, number: u32) -> Found {
    match frames(archive) {
        Some(frames) => {
            let index = frames.iter().position(|frame| frame.is_of(bench, number));
            Found { index: index.map(|k| k as u16), refusal: 0 }
        }
        None => Found { index: None, refusal: Refusal::BAD_ARCHIVE.0 },
    }
}

/// Writes the shown lines of entry k to the front of a picture.
pub fn read(archive: &[u8], k: u32, picture: &mut [u8]) -> Entry {
    if picture.len() != PICTURE {
        return Entry { refusal: Refusal::BAD_LENGTH.0, ..Entry::default() };
    }
    match frame_of(archive, k) {
        Ok(frame) => {
            picture[..frame.lines.len()].copy_from_slice(frame.lines);
            frame.entry()
        }
        Err(refused) => refused,
    }
}

/// Writes the archive with one frame more, its last, to the front of the room.
pub fn add(archive: &[u8], fields: Fields, picture: &[u8], room: &mut [u8]) -> Length {
    let refused = |refusal: Refusal| Length { length: 0, refusal: refusal.0 };
    if picture.len() != PICTURE {
        return refused(Refusal::BAD_LENGTH);
    }
    let mut frames = match frames(archive) {
        Some(frames) => frames,
        None => return refused(Refusal::BAD_ARCHIVE),
    };
    let Fields { bench, number, shown } = fields;
    let in_range = (1..=65_535).contains(&bench) && (shown == 200 || shown == 256);
    if !in_range || frames.iter().any(|frame| frame.is_of(bench, number)) {
        return refused(Refusal::BAD_FRAME);
    }
    frames.push(Frame { bench, number, lines: &picture[..LINE_BYTES * shown as usize] });
    if frames.len() > 1_000 {
        return refused(Refusal::NO_ROOM);
    }
    write_to(room, &written(&frames))
}
