//! Reading files, and standard input, which is called -. What is too long is not read whole.

use std::fmt;
use std::fs::File;
use std::io::{self, Read};

/// What a file of this name is called in messages.
pub fn shown(name: &str) -> &str {
    match name {
        "-" => "standard input",
        _ => name,
    }
}

/// How long an input is, as far as it was looked at.
#[derive(Clone, Copy, PartialEq, Eq, Debug)]
pub enum Length {
    Exactly(u64),
    MoreThan(u64),
}

impl fmt::Display for Length {
    fn fmt(&self, f: &mut fmt::Formatter<'_>) -> fmt::Result {
        match self {
            Length::Exactly(bytes) => write!(f, "{bytes} bytes"),
            Length::MoreThan(bytes) => write!(f, "more than {bytes} bytes"),
        }
    }
}

pub struct Input<'n> {
    name: &'n str,
    source: Box<dyn Read>,
    /// The length where it is known before reading: that of a regular file.
    pub length: Option<u64>,
}

impl<'n> Input<'n> {
    pub fn open(name: &'n str) -> Result<Input<'n>, String> {
        let opened = if name == "-" { standard_input().map(|source| (source, None)) } else { file(name) };
        let (source, length) = opened.map_err(|error| format!("{}: {error}", shown(name)))?;
        Ok(Input { name, source, length })
    }

    /// The next bytes, as many as are asked for; fewer only at the end.
    pub fn piece(&mut self, length: usize) -> Result<Vec<u8>, String> {
        let mut bytes = Vec::new();
        match self.source.by_ref().take(length as u64).read_to_end(&mut bytes) {
            Ok(_) => Ok(bytes),
            Err(error) => Err(format!("{}: {error}", shown(self.name))),
        }
    }
}

fn file(name: &str) -> io::Result<(Box<dyn Read>, Option<u64>)> {
    let file = File::open(name)?;
    let found = file.metadata()?;
    Ok((Box::new(file), found.is_file().then_some(found.len())))
}

/// Standard input without the standard library's buffer, which reads on past what is asked for.
#[cfg(unix)]
fn standard_input() -> io::Result<Box<dyn Read>> {
    use std::os::unix::io::AsFd;
    Ok(Box::new(File::from(io::stdin().as_fd().try_clone_to_owned()?)))
}

#[cfg(not(unix))]
fn standard_input() -> io::Result<Box<dyn Read>> {
    Ok(Box::new(io::stdin()))
}

/// Reads what has at most so many bytes and a length that `check` takes; a regular file's is checked before it is read.
pub fn read<T>(name: &str, most: usize, check: impl Fn(Length) -> Result<T, String>) -> Result<(Vec<u8>, T), String> {
    let check = |length| check(length).map_err(|error| format!("{}: {error}", shown(name)));
    let mut input = Input::open(name)?;
    if let Some(length) = input.length {
        check(Length::Exactly(length))?;
    }
    let bytes = input.piece(most + 1)?;
    let length = if bytes.len() > most { Length::MoreThan(most as u64) } else { Length::Exactly(bytes.len() as u64) };
    let checked = check(length)?;
    Ok((bytes, checked))
}
