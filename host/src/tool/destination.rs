//! Where something is written: standard output, or the file that a name leads to.

use std::ffi::OsStr;
use std::fs;
use std::path::{Path, PathBuf};

/// How many links a name may lead through, as many as Linux follows.
const MOST_LINKS: usize = 40;

/// A name, and where it leads.
pub struct Destination {
    pub name: String,
    target: Target,
}

#[derive(PartialEq, Eq)]
enum Target {
    Standard,
    /// No link, and by its whole path if its folder is there. The file may not be there yet.
    File(PathBuf),
}

impl Destination {
    /// Standard output if the name is - or leads there; otherwise a file, if there may be written.
    pub fn of(name: &str) -> Result<Destination, String> {
        let target = if name == "-" { Ok(Target::Standard) } else { followed(Path::new(name)).and_then(writable) };
        let target = target.map_err(|error| format!("{name}: {error}"))?;
        Ok(Destination { name: name.to_string(), target })
    }

    /// As `of`, but standard output is refused: an archive is kept in a file.
    pub fn file_of(name: &str) -> Result<Destination, String> {
        let destination = Destination::of(name)?;
        match destination.is_standard() {
            true => Err(format!("{name}: standard output, and no file")),
            false => Ok(destination),
        }
    }

    pub fn is_standard(&self) -> bool {
        self.target == Target::Standard
    }

    /// The file, unless it is standard output.
    pub fn file(&self) -> Option<&Path> {
        match &self.target {
            Target::Standard => None,
            Target::File(path) => Some(path),
        }
    }

    pub fn same_as(&self, other: &Destination) -> bool {
        self.target == other.target
    }

    /// Whether what is written would take the place of a file that is read.
    pub fn replaces(&self, read: &str) -> bool {
        read != "-" && matches!((self.file(), fs::canonicalize(read)), (Some(file), Ok(read)) if *file == read)
    }

    /// What it is called in messages.
    pub fn shown(&self) -> &str {
        if self.is_standard() {
            "standard output"
        } else {
            &self.name
        }
    }

    /// In or on what something stands.
    pub fn place(&self) -> String {
        format!("{} {}", if self.is_standard() { "on" } else { "in" }, self.shown())
    }
}

/// Follows a name's links one by one, so that a file can be made where the last one points. Links below /proc are left
/// alone: behind them is what a program has open, and not what they name.
fn followed(name: &Path) -> Result<Target, String> {
    let mut at = name.to_path_buf();
    for _ in 0..=MOST_LINKS {
        let whole = whole(&at);
        if is_standard_output(&whole) {
            return Ok(Target::Standard);
        }
        if ["/proc", "/dev/fd"].iter().any(|open| whole.starts_with(open)) {
            return Err("what a program has open is no file to be replaced; - is standard output".to_string());
        }
        match fs::read_link(&at) {
            Ok(next) => at = folder(&at).join(next),
            Err(_) => return Ok(Target::File(whole)),
        }
    }
    Err(format!("links in a circle, or more than {MOST_LINKS}"))
}

/// The names that stand for standard output, or lead there by the links that Linux has below /proc.
fn is_standard_output(whole: &Path) -> bool {
    let own = || fs::canonicalize("/proc/self/fd").map(|folder| folder.join("1"));
    ["/dev/stdout", "/dev/fd/1", "/proc/self/fd/1"].iter().any(|name| whole == Path::new(name))
        || matches!(own(), Ok(own) if own == whole)
}

/// A path with all links of its folder followed; as it is, if its folder is not there.
fn whole(path: &Path) -> PathBuf {
    match (fs::canonicalize(folder(path)), file_name(path)) {
        (Ok(folder), Some(name)) => folder.join(name),
        _ => path.to_path_buf(),
    }
}

pub fn folder(path: &Path) -> &Path {
    path.parent().filter(|folder| !folder.as_os_str().is_empty()).unwrap_or_else(|| Path::new("."))
}

/// The last name of a path. One that ends as a folder's has none.
fn file_name(path: &Path) -> Option<&OsStr> {
    let text = path.to_string_lossy();
    path.file_name().filter(|_| !text.ends_with('/') && !text.ends_with("/."))
}

fn writable(target: Target) -> Result<Target, String> {
    if let Target::File(path) = &target {
        match fs::metadata(path) {
            Ok(found) if !found.is_file() => return Err("not a regular file".to_string()),
            Ok(found) if found.permissions().readonly() => return Err("the file is read-only".to_string()),
            _ if file_name(path).is_none() => return Err("not a file name".to_string()),
            _ => {}
        }
    }
    Ok(target)
}
