//! The manual page: its version, and whether man takes it.

mod common;

use common::{folder, has, noted, said, shell};
use std::fs;

const PAGE: &str = concat!(env!("CARGO_MANIFEST_DIR"), "/help/joyce.1");

#[test]
fn the_manual_has_the_version() {
    let page = fs::read_to_string(PAGE).expect("the manual page");
    let version = fs::read_to_string(PAGE.replace("joyce.1", "version")).expect("the version");
    let (version, _) = version.split_once(" (").expect("a version and more");
    assert_eq!(version, format!("joyce {}", env!("CARGO_PKG_VERSION")));
    assert_eq!(page.lines().next(), Some(format!(".TH JOYCE 1 \"\" \"{version}\" \"User Commands\"").as_str()));
}

#[test]
fn man_takes_it_without_a_warning() {
    if !has("man") {
        return;
    }
    let output = shell(&folder("texts"), &format!("LC_ALL=C.UTF-8 MANWIDTH=80 man --warnings -l '{PAGE}'"));
    assert!(output.status.success());
    assert_eq!(noted(&output), "");
    assert!(said(&output).contains("EXIT STATUS"), "{}", said(&output));
}
