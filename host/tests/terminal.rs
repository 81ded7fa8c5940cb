//! The look at a picture is as wide as the terminal.
#![cfg(unix)]

mod common;

use common::{folder, has, joyce, noted, said, shell};
use std::fs;
use std::path::{Path, PathBuf};

const SHOW: &str = "archive show a 0";

/// A folder with an archive, in it a picture that is lit all over.
fn with_archive(name: &str) -> PathBuf {
    let folder = folder(name);
    fs::write(folder.join("raw"), [0xFF; 23_040]).expect("a picture");
    assert!(joyce(&folder, &["archive", "new", "a"]).status.success());
    assert!(joyce(&folder, &["archive", "add", "a", "--bench=1", "--number=1", "raw"]).status.success());
    folder
}

fn is_braille(line: &str) -> bool {
    !line.is_empty() && line.chars().all(|cell| ('\u{2800}'..='\u{28FF}').contains(&cell))
}

/// Columns of the widest line in braille, and how many there are.
fn size(text: &str) -> (usize, usize) {
    let lines = || text.lines().map(|line| line.trim_end_matches('\r')).filter(|line| is_braille(line));
    (lines().map(|line| line.chars().count()).max().unwrap_or(0), lines().count())
}

/// What the tool writes on a terminal of as many columns.
fn on_terminal(folder: &Path, columns: usize, words: &str) -> String {
    let line = format!("stty cols {columns} rows 20; exec '{}' {words}", env!("CARGO_BIN_EXE_joyce"));
    let output = shell(folder, &format!("script -qec \"{line}\" /dev/null"));
    assert!(output.status.success(), "{}{}", said(&output), noted(&output));
    said(&output)
}

#[test]
fn where_there_is_no_terminal_columns_says_how_wide() {
    let folder = with_archive("terminal-none");
    assert_eq!(size(&said(&shell(&folder, &format!("\"$joyce\" {SHOW}")))), (120, 32));
    let told = |columns: &str| size(&said(&shell(&folder, &format!("COLUMNS={columns} \"$joyce\" {SHOW}"))));
    for (columns, right) in [("40", (40, 11)), ("80", (80, 21)), ("1", (1, 1)), ("200", (120, 32))] {
        assert_eq!(told(columns), right, "{columns}");
    }
    for columns in ["", "0", "wide", "-3"] {
        assert_eq!(told(columns), (120, 32), "{columns}");
    }
}

#[test]
fn a_terminal_says_how_wide_it_is() {
    let folder = with_archive("terminal-narrow");
    // A machine may lack terminals altogether, as a bare chroot does.
    if !has("script") || !shell(&folder, "script -qec true /dev/null").status.success() {
        return;
    }
    for (columns, right) in [(1, (1, 1)), (40, (40, 11)), (80, (80, 21)), (132, (120, 32))] {
        assert_eq!(size(&on_terminal(&folder, columns, SHOW)), right, "{columns}");
    }
    // With the picture on standard output, texts go to the terminal of standard error.
    for words in ["demo", "demo -o - > picture"] {
        let (columns, _) = size(&on_terminal(&folder, 40, words));
        assert!((35..=40).contains(&columns), "{words}: {columns}");
    }
}
