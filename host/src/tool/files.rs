//! Writing files: whatever the tool writes is wholly there or not at all.

use super::destination::{folder, Destination};
use super::out::{self, Out};
use std::collections::BTreeSet;
use std::ffi::OsString;
use std::fs::{self, File, OpenOptions};
use std::io::{self, Write};
use std::path::{Path, PathBuf};

/// What is written together. Each file is first written beside its place; they take their places once all of them are
/// wholly on disc, so that a full disc changes none, and a pulled plug leaves of each the old one or the new one. What the
/// tool says of them it says before `done`, so that where that fails nothing has changed either.
#[derive(Default)]
pub struct Batch {
    standard: Vec<u8>,
    parts: Vec<Part>,
}

struct Part {
    name: String,
    beside: PathBuf,
    target: PathBuf,
}

impl Batch {
    pub fn add(&mut self, destination: &Destination, bytes: &[u8]) -> Result<(), String> {
        let target = match destination.file() {
            Some(target) => target.to_path_buf(),
            None => {
                self.standard.extend(bytes);
                return Ok(());
            }
        };
        let name = destination.name.clone();
        let beside = named_beside(&target, ".", &format!(".{}.part", std::process::id()));
        let beside = beside.ok_or(format!("{name}: not a file name"))?;
        // Known before it is there, so that half of it is removed too.
        self.parts.push(Part { name, beside, target });
        let Part { name, beside, target } = &self.parts[self.parts.len() - 1];
        write_synced(beside, target, bytes).map_err(|error| format!("{name}: {error}"))
    }

    /// What is on disc of a file that has not taken its place yet.
    pub fn read_back(&self, destination: &Destination) -> Result<Vec<u8>, String> {
        let part = self.parts.iter().find(|part| destination.file() == Some(&part.target));
        let part = part.ok_or(format!("{}: not written", destination.shown()))?;
        fs::read(&part.beside).map_err(|error| format!("{}: {error}", part.name))
    }

    /// Standard output comes first: of all that may still fail here, it is the likeliest.
    pub fn done(mut self) -> Result<(), String> {
        out::bytes(&self.standard)?;
        let mut folders = BTreeSet::new();
        while let Some(Part { name, beside, target }) = self.parts.first() {
            fs::rename(beside, target).map_err(|error| format!("{name}: {error}"))?;
            folders.insert(folder(target).to_path_buf());
            self.parts.remove(0);
        }
        folders.iter().try_for_each(|folder| {
            let written = |error| format!("{}: written, but the folder could not be synced: {error}", folder.display());
            sync_folder(folder).map_err(written)
        })
    }
}

impl Drop for Batch {
    fn drop(&mut self) {
        for part in &self.parts {
            // It may not have come into being at all; there is nothing more to say then.
            let _ = fs::remove_file(&part.beside);
        }
    }
}

/// Writes one thing, with a line about it.
pub fn write(destination: &Destination, bytes: &[u8], line: &str) -> Result<(), String> {
    let mut batch = Batch::default();
    batch.add(destination, bytes)?;
    Out::beside(&[destination]).line(line)?;
    batch.done()
}

/// Another name in the same folder.
pub fn named_beside(path: &Path, before: &str, behind: &str) -> Option<PathBuf> {
    let mut name = OsString::from(before);
    name.push(path.file_name()?);
    name.push(behind);
    Some(path.with_file_name(name))
}

/// A new file with the permissions of the one whose place it will take.
fn write_synced(path: &Path, target: &Path, bytes: &[u8]) -> io::Result<()> {
    let mut file = OpenOptions::new().write(true).create(true).truncate(true).open(path)?;
    if let Ok(old) = fs::metadata(target) {
        file.set_permissions(old.permissions())?;
    }
    file.write_all(bytes)?;
    file.sync_all()
}

/// A rename is on disc once its folder is.
#[cfg(unix)]
fn sync_folder(folder: &Path) -> io::Result<()> {
    match File::open(folder)?.sync_all() {
        // Some file systems have no such thing.
        Err(error) if error.kind() == io::ErrorKind::InvalidInput => Ok(()),
        synced => synced,
    }
}

#[cfg(not(unix))]
fn sync_folder(_: &Path) -> io::Result<()> {
    Ok(())
}

#[cfg(test)]
mod tests {
    use super::*;

    /// A folder of its own, with a file in it.
    fn folder(name: &str) -> PathBuf {
        let folder = std::env::temp_dir().join(format!("joyce-{}-{name}", std::process::id()));
        fs::create_dir_all(&folder).expect("a folder");
        fs::write(folder.join("x"), b"old").expect("a file");
        folder
    }

    fn part(folder: &Path) -> PathBuf {
        folder.join(format!(".x.{}.part", std::process::id()))
    }

    /// Writes the file anew.
    fn written(folder: &Path) -> Result<(), String> {
        let destination = Destination::of(&folder.join("x").display().to_string()).expect("a destination");
        write(&destination, b"new", "written")
    }

    #[test]
    fn what_was_left_behind_disturbs_nothing() {
        let folder = folder("left");
        fs::write(part(&folder), b"half of a longer one").expect("a file");
        written(&folder).expect("written");
        assert_eq!(fs::read(folder.join("x")).expect("the file"), b"new");
        assert!(!part(&folder).exists());
        fs::remove_dir_all(&folder).expect("the folder");
    }

    #[test]
    fn a_failed_write_leaves_the_old_file() {
        let folder = folder("failed");
        // Where the new file would be written there is a folder.
        fs::create_dir(part(&folder)).expect("a folder");
        let error = written(&folder).expect_err("not written");
        assert!(error.contains("x: "), "{error}");
        assert_eq!(fs::read(folder.join("x")).expect("the file"), b"old");
        fs::remove_dir_all(&folder).expect("the folder");
    }

    #[test]
    fn of_several_none_is_there_before_all_are() {
        let folder = folder("several");
        let destination =
            |name: &str| Destination::of(&folder.join(name).display().to_string()).expect("a destination");
        let mut batch = Batch::default();
        batch.add(&destination("new"), b"new").expect("written beside");
        assert_eq!(batch.read_back(&destination("new")).expect("what was written"), b"new");
        assert!(!folder.join("new").exists());
        fs::create_dir(part(&folder)).expect("a folder");
        batch.add(&destination("x"), b"new").expect_err("not written");
        drop(batch);
        assert_eq!(fs::read(folder.join("x")).expect("the file"), b"old");
        assert_eq!(fs::read_dir(&folder).expect("the folder").count(), 2);
        fs::remove_dir_all(&folder).expect("the folder");
    }
}
