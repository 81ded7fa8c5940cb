//! A lock file beside an archive, so that of two that add at once the second waits for the first.

use super::destination::Destination;
use super::files;
use std::fs::{self, OpenOptions};
use std::io::{ErrorKind, Write};
use std::path::{Path, PathBuf};
use std::thread::sleep;
use std::time::{Duration, Instant};

/// How long another may hold the lock before one gives up.
const PATIENCE: Duration = Duration::from_secs(2);

/// The lock is held as long as this lives.
pub struct Lock(PathBuf);

impl Lock {
    pub fn take(archive: &Destination) -> Result<Lock, String> {
        let path = &archive.name;
        let lock = archive.file().and_then(|file| files::named_beside(file, "", ".lock"));
        let lock = lock.ok_or(format!("{path}: not a file name"))?;
        let start = Instant::now();
        loop {
            match OpenOptions::new().write(true).create_new(true).open(&lock) {
                Ok(mut file) => {
                    // The number is only for who finds the file left behind.
                    let _ = writeln!(file, "{}", std::process::id());
                    return Ok(Lock(lock));
                }
                Err(error) if error.kind() != ErrorKind::AlreadyExists => {
                    return Err(format!("{path}: its lock {} cannot be made: {error}", lock.display()));
                }
                Err(_) if start.elapsed() > PATIENCE => return Err(held(path, &lock)),
                Err(_) => sleep(Duration::from_millis(20)),
            }
        }
    }
}

fn held(path: &str, lock: &Path) -> String {
    let by = fs::read_to_string(lock).unwrap_or_default();
    let by = by.trim();
    let process = if by.is_empty() { String::new() } else { format!(" by process {by}") };
    let lock = lock.display();
    format!(
        "{path}: being written{process}: {lock} is there. If no joyce is running, it was left behind: remove {lock}"
    )
}

impl Drop for Lock {
    fn drop(&mut self) {
        // If it is gone already, somebody removed it by hand.
        let _ = fs::remove_file(&self.0);
    }
}
