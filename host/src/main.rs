//! The tool `joyce`.

mod tool;

use joyce::LIBRARY;
use std::process::ExitCode;
use tool::{commands, out};

fn main() -> ExitCode {
    match arguments().and_then(|arguments| commands::run(&LIBRARY, &arguments)) {
        Ok(true) => ExitCode::SUCCESS,
        Ok(false) => ExitCode::from(1),
        Err(error) => {
            if !error.is_empty() {
                out::note(&format!("joyce: {error}\n"));
            }
            ExitCode::from(2)
        }
    }
}

/// The words behind the tool's name. A file name that is no text cannot be named in a message, so it is refused.
fn arguments() -> Result<Vec<String>, String> {
    let words = std::env::args_os().skip(1).map(|word| word.into_string());
    words.collect::<Result<_, _>>().map_err(|word| format!("{word:?} is not UTF-8"))
}
