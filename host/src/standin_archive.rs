//! Archives with one fault put in on purpose, to see that the differential test finds it.

use crate::model::archive::{written, Frame};
use crate::model::FieldsRules;
use crate::standin_faults::Fault;
use joyce::archive::{entry_at, length, picture_at, pictures_at, Count, Entry, Fields, Found, Length, HEADER};
use joyce::{Refusal, LINE_BYTES, PICTURE};

pub struct FaultyArchives(pub Fault);

fn word(bytes: &[u8], at: usize) -> u32 {
    u32::from_le_bytes(bytes[at..at + 4].try_into().expect("four bytes"))
}

fn put(bytes: &mut [u8], at: usize, number: usize) {
    bytes[at..at + 4].copy_from_slice(&(number as u32).to_le_bytes());
}

/// The first refusal that applies.
fn first(checks: &[(Refusal, bool)]) -> Option<Refusal> {
    checks.iter().find(|check| check.1).map(|check| check.0)
}

impl FaultyArchives {
    fn has(&self, fault: Fault) -> bool {
        self.0 == fault
    }

    fn fields(&self, archive: &[u8], k: usize) -> Fields {
        let number = |at| {
            let number = word(archive, entry_at(k) + at);
            if self.has(Fault::HighByteFirst) {
                number.swap_bytes()
            } else {
                number
            }
        };
        Fields::new(number(0), number(4), number(8))
    }

    /// The number of frames, if header and length will do.
    fn framed(&self, archive: &[u8]) -> Option<usize> {
        let most = match self.0 {
            Fault::CountOver => 2_000,
            Fault::FullRefused => 999,
            _ => 1_000,
        };
        let n = archive.get(..HEADER).map(|header| word(header, 4) as usize).filter(|&n| n <= most)?;
        let more = self.has(Fault::OneTooLong) && archive.len() == length(n) + 1;
        let unseen = match self.0 {
            Fault::AnyForm => 0,
            Fault::EntriesOffset => 8,
            Fault::PicturesOffset => 12,
            Fault::WholeLength => 16,
            _ => HEADER,
        };
        let numbers = [(0, 1), (8, HEADER), (12, pictures_at(n)), (16, length(n))];
        let right = numbers.iter().all(|&(at, number)| at == unseen || word(archive, at) as usize == number);
        (right && archive.len() == length(n) + more as usize).then_some(n)
    }

    fn sound(&self, archive: &[u8]) -> Option<usize> {
        let n = self.framed(archive)?;
        (0..n).all(|k| self.entry_sound(archive, n, k)).then_some(n)
    }

    fn entry_sound(&self, archive: &[u8], n: usize, k: usize) -> bool {
        let fields = self.fields(archive, k);
        let fitting = fields.in_range()
            || self.has(Fault::Bench0Sound) && Fields { bench: 1, ..fields }.in_range() && fields.bench == 0
            || self.has(Fault::Bench65536Sound) && Fields { bench: 1, ..fields }.in_range() && fields.bench == 65_536
            || self.has(Fault::Shown255Sound) && Fields { shown: 256, ..fields }.in_range() && fields.shown == 255;
        let placed = word(archive, entry_at(k) + 12) as usize == picture_at(n, k) || self.has(Fault::PictureOffset);
        let spared = self.has(Fault::LastPair) && k + 1 == n;
        let twice = !spared && (0..k).any(|other| self.one_pair(self.fields(archive, other), fields));
        fitting && placed && !twice && self.unshown_zero(&archive[picture_at(n, k)..][..PICTURE], fields.shown)
    }

    fn one_pair(&self, a: Fields, b: Fields) -> bool {
        let (bench, number) = (a.bench == b.bench, a.number == b.number);
        match self.0 {
            Fault::BenchAlone => bench,
            Fault::NumberAlone => number,
            _ => bench && number,
        }
    }

    fn unshown_zero(&self, picture: &[u8], shown: u32) -> bool {
        let end = if self.has(Fault::LastUnshown) { PICTURE - 1 } else { PICTURE };
        let from = (LINE_BYTES * shown as usize).min(end);
        self.has(Fault::UnshownSound) || picture[from..end].iter().all(|&byte| byte == 0)
    }

    pub fn start(&self, room: &mut [u8]) -> Length {
        let least = if self.has(Fault::StartIn19) { 19 } else { HEADER };
        if room.len() < least {
            return Length { length: 0, refusal: Refusal::NO_ROOM.0 };
        }
        let len = room.len().min(HEADER);
        room[..len].copy_from_slice(&written(&[])[..len]);
        Length { length: HEADER as u32, refusal: 0 }
    }

    pub fn count(&self, archive: &[u8]) -> Count {
        match self.sound(archive) {
            Some(n) => Count { frames: n as u32, refusal: 0 },
            None => Count { frames: 0, refusal: Refusal::BAD_ARCHIVE.0 },
        }
    }

    pub fn entry(&self, archive: &[u8], k: u32) -> Entry {
        let k = k as usize;
        match self.sound(archive) {
            None => Entry { refusal: Refusal::BAD_ARCHIVE.0, ..Entry::default() },
            Some(n) if k == n && self.has(Fault::KTaken) => Entry::default(),
            Some(n) if k >= n => Entry { refusal: Refusal::BAD_FRAME.0, ..Entry::default() },
            Some(_) => self.given(self.fields(archive, k)),
        }
    }

    fn given(&self, fields: Fields) -> Entry {
        let Fields { bench, number, shown } = fields;
        let bench = if self.has(Fault::BenchCut) { bench & 0xFF } else { bench };
        let number = if self.has(Fault::NumberCut) { number & 0xFFFF } else { number };
        let shown = if self.has(Fault::ShownAlways256) { 256 } else { shown };
        Entry { bench: bench as u16, number, shown: shown as u16, refusal: 0 }
    }

    pub fn find(&self, archive: &[u8], bench: u32, number: u32) -> Found {
        let n = match self.sound(archive) {
            Some(n) => n,
            None => return Found { index: None, refusal: Refusal::BAD_ARCHIVE.0 },
        };
        if self.has(Fault::FindRefuses) && !(1..=65_535).contains(&bench) {
            return Found { index: None, refusal: Refusal::BAD_FRAME.0 };
        }
        let bench = if self.has(Fault::FindLowBits) { bench & 0xFFFF } else { bench };
        let sought = Fields::new(bench, number, 0);
        let index = (0..n).find(|&k| self.one_pair(self.fields(archive, k), sought));
        let index = if self.has(Fault::FindLast) { index.map(|_| n - 1) } else { index };
        Found { index: index.map(|k| k as u16), refusal: 0 }
    }

    pub fn read(&self, archive: &[u8], k: u32, picture: &mut [u8]) -> Entry {
        let long = self.has(Fault::ReadLong) && picture.len() == PICTURE + 1;
        let entry = self.entry(archive, k);
        let early = self.has(Fault::TenBeforeTwo) && entry.refusal == Refusal::BAD_ARCHIVE.0;
        if picture.len() != PICTURE && !long && !early {
            return Entry { refusal: Refusal::BAD_LENGTH.0, ..Entry::default() };
        }
        if entry.refusal == 0 {
            let all = self.has(Fault::ReadUnshown);
            let len = if all { PICTURE } else { LINE_BYTES * entry.shown as usize };
            let at = HEADER + word(archive, 4) as usize * 16 + PICTURE * k as usize;
            picture[..len].copy_from_slice(&archive[at..at + len]);
        }
        entry
    }

    pub fn add(&self, archive: &[u8], fields: Fields, picture: &[u8], room: &mut [u8]) -> Length {
        let sound = self.sound(archive);
        let refusal = self.add_refusal(archive, sound, fields, (picture.len(), room.len()));
        let n = match (sound, refusal) {
            (Some(n), None) => n,
            _ => return self.refused_add(refusal, sound, room),
        };
        let next = self.next(archive, n, fields, picture, room);
        room[..next.len()].copy_from_slice(&next);
        if self.has(Fault::BehindWritten) && room.len() > next.len() {
            room[next.len()] = 0;
        }
        Length { length: next.len() as u32, refusal: 0 }
    }

    fn refused_add(&self, refusal: Option<Refusal>, sound: Option<usize>, room: &mut [u8]) -> Length {
        let needed = length(sound.unwrap_or(0) + 1);
        if self.has(Fault::RefusedWrites) && room.len() >= HEADER {
            put(room, 0, 1);
        }
        let told = self.has(Fault::RefusedLength) && refusal == Some(Refusal::NO_ROOM);
        Length { length: if told { needed as u32 } else { 0 }, refusal: refusal.map_or(0, |refusal| refusal.0) }
    }

    fn add_refusal(
        &self,
        archive: &[u8],
        sound: Option<usize>,
        fields: Fields,
        lens: (usize, usize),
    ) -> Option<Refusal> {
        let (picture, room) = lens;
        let long = self.has(Fault::AddLong) && picture == PICTURE + 1;
        let n = sound.unwrap_or(0);
        let there = (0..n).any(|k| self.one_pair(self.fields(archive, k), fields)) && !self.has(Fault::PairAdded);
        let room = if self.has(Fault::ExactRoomRefused) { room.saturating_sub(1) } else { room };
        let full = n == 1_000 && !self.has(Fault::FullTaken);
        let mut checks = [
            (Refusal::BAD_LENGTH, picture != PICTURE && !long),
            (Refusal::BAD_ARCHIVE, sound.is_none()),
            (Refusal::BAD_FRAME, !self.taken(fields) || there),
            (Refusal::NO_ROOM, full || length(n + 1) > room),
        ];
        match self.0 {
            Fault::TenBeforeTwo => checks.swap(0, 1),
            Fault::ElevenBeforeTen => checks.swap(1, 2),
            Fault::TwelveBeforeEleven => checks.swap(2, 3),
            _ => {}
        }
        first(&checks)
    }

    fn taken(&self, fields: Fields) -> bool {
        match (self.0, fields.bench, fields.shown) {
            (Fault::Bench0Added, 0, _) | (Fault::Bench65536Added, 65_536, _) => {
                Fields { bench: 1, ..fields }.in_range()
            }
            (Fault::Shown255Added, _, 255) => Fields { shown: 256, ..fields }.in_range(),
            (Fault::Bench65535Refused, 65_535, _) => false,
            _ => fields.in_range(),
        }
    }

    fn next(&self, archive: &[u8], n: usize, fields: Fields, picture: &[u8], room: &[u8]) -> Vec<u8> {
        let mut frames: Vec<Frame> = (0..n)
            .map(|k| {
                let Fields { bench, number, shown } = self.fields(archive, k);
                let at = picture_at(n, k);
                Frame { bench, number, lines: &archive[at..at + LINE_BYTES * shown as usize] }
            })
            .collect();
        let shown = LINE_BYTES * fields.shown as usize;
        let place = if self.has(Fault::NewFirst) { 0 } else { n };
        let frame = Frame { bench: fields.bench, number: fields.number, lines: &picture[..shown] };
        frames.insert(place, frame);
        let mut next = written(&frames);
        let unshown = picture_at(n + 1, n) + shown;
        match self.0 {
            Fault::UnshownAsLent => next[unshown..].copy_from_slice(&picture[shown..PICTURE]),
            Fault::UnshownAsRoom => next[unshown..].copy_from_slice(&room[unshown..length(n + 1)]),
            Fault::PicturesNotMoved => put(&mut next, 12, pictures_at(n)),
            Fault::OffsetsNotMoved => (0..n).for_each(|k| put(&mut next, entry_at(k) + 12, picture_at(n, k))),
            Fault::CountNotRaised => put(&mut next, 4, n),
            _ => {}
        }
        next
    }
}
