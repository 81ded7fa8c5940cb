//! Standard output and standard error. A reader that has gone away ends the tool without a fuss.

use super::destination::Destination;
use std::io::{self, ErrorKind, Write};

/// Where the texts of a command go.
#[derive(Clone, Copy, PartialEq, Eq, Debug)]
pub enum Out {
    Standard,
    /// Standard error, where standard output has a picture or a page.
    Error,
}

impl Out {
    /// Where texts go beside what is written to these destinations.
    pub fn beside(destinations: &[&Destination]) -> Out {
        match destinations.iter().any(|destination| destination.is_standard()) {
            true => Out::Error,
            false => Out::Standard,
        }
    }

    pub fn write(self, text: &str) -> Result<(), String> {
        match self {
            Out::Standard => bytes(text.as_bytes()),
            Out::Error => {
                note(text);
                Ok(())
            }
        }
    }

    pub fn line(self, text: &str) -> Result<(), String> {
        self.write(&format!("{text}\n"))
    }
}

/// Writes text to standard output.
pub fn write(text: &str) -> Result<(), String> {
    Out::Standard.write(text)
}

/// Writes a line to standard output.
pub fn line(text: &str) -> Result<(), String> {
    Out::Standard.line(text)
}

/// Writes to standard output; a failure is an error of the tool, with no message where nobody reads any more.
pub fn bytes(bytes: &[u8]) -> Result<(), String> {
    let mut out = io::stdout().lock();
    out.write_all(bytes).and_then(|()| out.flush()).map_err(|error| match error.kind() {
        ErrorKind::BrokenPipe => String::new(),
        _ => format!("standard output: {error}"),
    })
}

/// Writes text to standard error. Where that fails, there is nobody to tell.
pub fn note(text: &str) {
    let _ = io::stderr().write_all(text.as_bytes());
}
