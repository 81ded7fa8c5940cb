//! The header compiles without a warning as C11 and as C++, and its numbers are those used here.

use joyce::archive::{length, MOST_FRAMES};
use joyce::{Refusal, Step, StepNumbers, BLOCK, BOOT_MAX, LINE_BYTES, PICTURE, VERSION, WIDE_LINE_BYTES};
use joyce::{ROUTE_INT, ROUTE_NMI, ROUTE_NONE};
use joyce_host::machine::{Machine, Model};
use std::process::Command;

const INCLUDE: &str = concat!(env!("CARGO_MANIFEST_DIR"), "/../include");

fn compiles(compiler: &str, language: &[&str]) {
    let output = Command::new(compiler)
        .args(language)
        .args(["-fsyntax-only", "-Wall", "-Wextra", "-Werror", "-pedantic"])
        .arg(format!("-I{INCLUDE}"))
        .arg(concat!(env!("CARGO_MANIFEST_DIR"), "/ctest/ctest.c"))
        .output()
        .unwrap_or_else(|error| panic!("{compiler}: {error}"));
    assert!(output.status.success(), "{}", String::from_utf8_lossy(&output.stderr));
}

#[test]
fn as_c11() {
    compiles("cc", &["-x", "c", "-std=c11"]);
}

#[test]
fn as_cpp() {
    compiles("c++", &["-x", "c++", "-std=c++11"]);
}

/// What is behind a text that the header has once, to the end of the line.
fn line_behind(text: &str) -> String {
    let header = std::fs::read_to_string(format!("{INCLUDE}/joyce.h")).expect("the header");
    let found: Vec<&str> = header.lines().filter_map(|line| line.split_once(text)).map(|(_, rest)| rest).collect();
    assert_eq!(found.len(), 1, "{text}");
    found[0].to_string()
}

/// The number that the header defines under a name.
fn defined(name: &str) -> usize {
    let line = line_behind(&format!("#define {name} "));
    let number = line.split_whitespace().next().expect(name);
    number.trim_end_matches('u').parse().expect(name)
}

/// The number that an enumeration of the header gives a name.
fn enumerated(name: &str) -> u8 {
    let line = line_behind(&format!(" {name} = "));
    let digits: String = line.chars().take_while(char::is_ascii_digit).collect();
    digits.parse().expect(name)
}

#[test]
fn numbers_are_the_same() {
    assert_eq!(defined("JOYCE_BLOCK"), BLOCK);
    assert_eq!(defined("JOYCE_LINE"), LINE_BYTES);
    assert_eq!(defined("JOYCE_WIDE_LINE"), WIDE_LINE_BYTES);
    assert_eq!(defined("JOYCE_PICTURE"), PICTURE);
    assert_eq!(defined("JOYCE_BOOT_MAX"), BOOT_MAX);
    let routes = ["JOYCE_ROUTE_NONE", "JOYCE_ROUTE_NMI", "JOYCE_ROUTE_INT"].map(enumerated);
    assert_eq!(routes, [ROUTE_NONE, ROUTE_NMI, ROUTE_INT]);
}

#[test]
fn refusals_are_the_same() {
    let refusals = [
        ("JOYCE_BAD_RECORD", Refusal::BAD_RECORD),
        ("JOYCE_BAD_LENGTH", Refusal::BAD_LENGTH),
        ("JOYCE_BAD_NUMBER", Refusal::BAD_NUMBER),
        ("JOYCE_STREAM_ENDED", Refusal::STREAM_ENDED),
        ("JOYCE_NO_PORT", Refusal::NO_PORT),
        ("JOYCE_BAD_SIZES", Refusal::BAD_SIZES),
        ("JOYCE_BAD_ARCHIVE", Refusal::BAD_ARCHIVE),
        ("JOYCE_BAD_FRAME", Refusal::BAD_FRAME),
        ("JOYCE_NO_ROOM", Refusal::NO_ROOM),
    ];
    for (name, refusal) in refusals {
        assert_eq!(Refusal(enumerated(name)), refusal);
        assert!(!refusal.to_string().ends_with("no refusal of this version"), "{refusal}");
    }
    assert_eq!(enumerated("JOYCE_ACCEPTED"), 0);
}

#[test]
fn kinds_are_the_same() {
    let kinds = [
        ("JOYCE_FETCH", Step::Fetch(0)),
        ("JOYCE_READ", Step::Read(0)),
        ("JOYCE_WRITE", Step::Write(0, 0)),
        ("JOYCE_IN", Step::PortIn(0)),
        ("JOYCE_OUT", Step::PortOut(0, 0)),
        ("JOYCE_SCAN", Step::Scan),
        ("JOYCE_KEYBOARD", Step::Keyboard(0, 0)),
        ("JOYCE_DISC_LINE", Step::DiscLine(false)),
        ("JOYCE_EXTERNAL_LINE", Step::ExternalLine(false)),
    ];
    for (name, step) in kinds {
        assert_eq!(StepNumbers::from(step), StepNumbers::new(enumerated(name) as u32, 0, 0));
    }
}

#[test]
fn archive_numbers_are_the_same() {
    assert_eq!(defined("JOYCE_ARCHIVE_MAX"), MOST_FRAMES);
    // A line, and no number: 20 bytes, and 23,056 for each frame.
    let formula = line_behind("#define JOYCE_ARCHIVE_LENGTH(n) ");
    assert!(formula.starts_with(&format!(
        "((size_t){}u + (size_t){}u * (size_t)(n))",
        length(0),
        length(1) - length(0)
    )));
}

/// Header, library and this side are of one version.
#[test]
fn version_is_the_same() {
    assert_eq!(defined("JOYCE_VERSION"), VERSION as usize);
    assert_eq!(joyce::version(), VERSION);
    assert_eq!(Model.version(), VERSION);
}
