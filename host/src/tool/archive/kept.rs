//! An archive in a file, looked at through the library, and what its refusals mean to a user.

use crate::tool::input::{self, Input};
use joyce::archive::{length, Count, Entry, Fields, Found, Length, MOST_BENCH, MOST_FRAMES};
use joyce::{Refusal, LINE_BYTES, PICTURE};
use joyce_host::machine::Machine;
use std::fs;
use std::io::ErrorKind;

pub struct Kept<'m> {
    pub machine: &'m dyn Machine,
    pub path: &'m str,
    pub bytes: Vec<u8>,
    /// What the file has; of more than an archive can have, only one byte more is read.
    pub file_length: u64,
}

impl<'m> Kept<'m> {
    /// An archive that was read or made already, and the file that it is of.
    pub fn of(machine: &'m dyn Machine, path: &'m str, bytes: Vec<u8>) -> Kept<'m> {
        Kept { machine, path, file_length: bytes.len() as u64, bytes }
    }

    /// An archive of no frames, not yet in its file.
    pub fn started(machine: &'m dyn Machine, path: &'m str) -> Result<Kept<'m>, String> {
        let mut bytes = vec![0; length(0)];
        match Length::from(machine.archive_start(&mut bytes)).accepted() {
            Ok(_) => Ok(Kept::of(machine, path, bytes)),
            Err(Refusal(number)) => Err(format!("{path}: an archive cannot be started: refused with {number}")),
        }
    }

    /// The archive in a file. One whose length no archive has is refused and not read.
    pub fn open(machine: &'m dyn Machine, path: &'m str) -> Result<Kept<'m>, String> {
        regular(path)?;
        let (bytes, ()) = input::read(path, length(MOST_FRAMES), |found| {
            let right = (0..=MOST_FRAMES).any(|n| found == input::Length::Exactly(length(n) as u64));
            right.then_some(()).ok_or_else(|| unsound(path))
        })?;
        Ok(Kept::of(machine, path, bytes))
    }

    /// As `open`, of any length, to look what is wrong.
    pub fn open_any(machine: &'m dyn Machine, path: &'m str) -> Result<Kept<'m>, String> {
        regular(path)?;
        let mut input = Input::open(path)?;
        let bytes = input.piece(length(MOST_FRAMES) + 1)?;
        let file_length = input.length.unwrap_or(bytes.len() as u64);
        Ok(Kept { file_length, ..Kept::of(machine, path, bytes) })
    }

    fn refused(&self, refusal: Refusal) -> String {
        let why = match refusal {
            Refusal::BAD_ARCHIVE => unsound(self.path),
            Refusal(number) => format!("refused with {number}"),
        };
        format!("{}: {why}", input::shown(self.path))
    }

    /// The library's answer, its refusal included.
    pub fn counted(&self) -> Count {
        self.machine.archive_count(&self.bytes).into()
    }

    pub fn count(&self) -> Result<u32, String> {
        self.counted().accepted().map(|counted| counted.frames).map_err(|refusal| self.refused(refusal))
    }

    fn given(&self, k: u32, entry: Entry) -> Result<Entry, String> {
        match entry.accepted() {
            Err(Refusal::BAD_FRAME) => {
                Err(format!("{}: no entry {k}; it has {}", input::shown(self.path), frames(self.count()?)))
            }
            given => given.map_err(|refusal| self.refused(refusal)),
        }
    }

    pub fn entry(&self, k: u32) -> Result<Entry, String> {
        self.given(k, self.machine.archive_entry(&self.bytes, k).into())
    }

    /// An entry and its shown lines.
    pub fn read(&self, k: u32) -> Result<(Entry, Vec<u8>), String> {
        let mut picture = vec![0; PICTURE];
        let entry = self.given(k, self.machine.archive_read(&self.bytes, k, &mut picture).into())?;
        picture.truncate(LINE_BYTES * entry.shown as usize);
        Ok((entry, picture))
    }

    pub fn find(&self, bench: u32, number: u32) -> Result<Option<u16>, String> {
        let found = Found::from(self.machine.archive_find(&self.bytes, bench, number)).accepted();
        found.map(|found| found.index).map_err(|refusal| self.refused(refusal))
    }

    /// The archive with one frame more.
    pub fn with(&self, fields: Fields, picture: &[u8]) -> Result<Vec<u8>, String> {
        let mut room = vec![0; length(self.count()? as usize + 1)];
        match Length::from(self.machine.archive_add(&self.bytes, fields, picture, &mut room)).accepted() {
            Ok(_) => Ok(room),
            Err(refusal) => Err(self.not_added(refusal, fields)?),
        }
    }

    fn not_added(&self, refusal: Refusal, fields: Fields) -> Result<String, String> {
        let Fields { bench, number, shown } = fields;
        let path = self.path;
        Ok(match (refusal, self.find(bench, number)?) {
            (Refusal::BAD_FRAME, Some(k)) => {
                format!("{path}: bench {bench}, number {number} is there already, as entry {k}")
            }
            (Refusal::BAD_FRAME, None) if !(1..=MOST_BENCH).contains(&bench) => {
                format!("--bench: {bench} is not from 1 to {MOST_BENCH}")
            }
            (Refusal::BAD_FRAME, None) => format!("--shown: {shown} is neither 200 nor 256"),
            (Refusal::NO_ROOM, _) => {
                format!("{path}: full: an archive has at most {MOST_FRAMES} frames; `joyce archive new` makes another")
            }
            _ => self.refused(refusal),
        })
    }
}

fn unsound(path: &str) -> String {
    format!("not a sound archive; `joyce archive check {path}` says where")
}

/// An archive is in a regular file, or comes from standard input; another thing might never end.
fn regular(path: &str) -> Result<(), String> {
    match fs::metadata(path) {
        _ if path == "-" => Ok(()),
        Ok(found) if found.is_file() => Ok(()),
        Ok(_) => Err(format!("{path}: not a regular file")),
        Err(error) if error.kind() == ErrorKind::NotFound => {
            Err(format!("{path}: no such file; `joyce archive new {path}` makes one"))
        }
        Err(error) => Err(format!("{path}: {error}")),
    }
}

/// As many frames, in words.
pub fn frames(count: u32) -> String {
    match count {
        0 => "no frames".to_string(),
        1 => "1 frame, entry 0".to_string(),
        _ => format!("{count} frames, entries 0 to {}", count - 1),
    }
}
