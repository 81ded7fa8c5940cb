//! A pulled plug, a full disc, two that add at once: the old archive stays until the new one is wholly there.
#![cfg(unix)]

mod common;

use common::{complained, folder, joyce, names, said};
use std::fs;
use std::os::unix::fs::{symlink, PermissionsExt};
use std::path::{Path, PathBuf};
use std::process::{Command, Output, Stdio};

/// A folder with an archive of two frames and a picture.
fn with_archive(name: &str) -> PathBuf {
    let folder = folder(name);
    fs::write(folder.join("raw"), [0x5A; 23_040]).expect("a picture");
    assert!(joyce(&folder, &["archive", "new", "a"]).status.success());
    assert!(add(&folder, "1").status.success());
    assert!(add(&folder, "2").status.success());
    folder
}

fn words(number: &str) -> [&str; 8] {
    ["archive", "add", "a", "--bench", "1", "--number", number, "raw"]
}

fn add(folder: &Path, number: &str) -> Output {
    joyce(folder, &words(number))
}

/// Runs the tool where no file may be longer than 40 blocks of 512 bytes.
fn on_small_disc(folder: &Path, before: &str, words: &[&str]) -> Output {
    let script = format!("{before}ulimit -c 0; ulimit -f 40; exec \"$0\" \"$@\"");
    let mut shell = Command::new("sh");
    shell.arg("-c").arg(script).arg(env!("CARGO_BIN_EXE_joyce")).args(words).current_dir(folder);
    shell.output().expect("a shell")
}

/// Adds where there is less room than the archive will need.
fn add_on_small_disc(folder: &Path, before: &str) -> Output {
    on_small_disc(folder, before, &words("3"))
}

#[test]
fn a_full_disc_leaves_the_old_archive() {
    let folder = with_archive("disc-full");
    let before = fs::read(folder.join("a")).expect("the archive");
    // The signal is not taken, so that the write fails.
    complained(&add_on_small_disc(&folder, "trap '' XFSZ; "), "a: File too large");
    assert_eq!(fs::read(folder.join("a")).expect("the archive"), before);
    assert_eq!(names(&folder), ["a", "raw"]);
}

/// A picture of 200 lines fits, one of 256 does not.
#[test]
fn of_all_pictures_none_is_there_if_one_is_not() {
    let folder = folder("disc-all");
    fs::write(folder.join("raw"), [0x5A; 23_040]).expect("a picture");
    assert!(joyce(&folder, &["archive", "new", "a"]).status.success());
    let short = ["archive", "add", "a", "--bench", "1", "--number", "1", "raw", "--shown", "200"];
    assert!(joyce(&folder, &short).status.success() && add(&folder, "2").status.success());
    let output = on_small_disc(&folder, "trap '' XFSZ; ", &["archive", "extract", "a", "--all", "-o", "all"]);
    complained(&output, "all/bench-00001-number-0000000002.pbm: File too large");
    assert!(names(&folder.join("all")).is_empty() && said(&output).is_empty());
    assert!(joyce(&folder, &["archive", "extract", "a", "--all", "-o", "all"]).status.success());
    assert_eq!(names(&folder.join("all")).len(), 2);
}

#[test]
fn a_pulled_plug_leaves_the_old_archive() {
    let folder = with_archive("disc-plug");
    let before = fs::read(folder.join("a")).expect("the archive");
    // The signal ends the tool in the middle of writing.
    assert_eq!(add_on_small_disc(&folder, "").status.code(), None);
    assert_eq!(fs::read(folder.join("a")).expect("the archive"), before);
    let left = names(&folder);
    assert_eq!(left.len(), 4, "{left:?}");
    assert!(left[0].starts_with(".a.") && left[0].ends_with(".part"), "{left:?}");
    assert_eq!(left[1..], ["a", "a.lock", "raw"]);
    // Looking needs no lock; adding says what to do about the one left behind.
    assert_eq!(said(&joyce(&folder, &["archive", "check", "a"])), "a: sound, 2 frames, 46132 bytes\n");
    complained(&add(&folder, "3"), "it was left behind: remove ");
    assert_eq!(fs::read(folder.join("a")).expect("the archive"), before);
    fs::remove_file(folder.join("a.lock")).expect("the lock");
    assert!(add(&folder, "3").status.success());
    assert_eq!(said(&joyce(&folder, &["archive", "check", "a"])), "a: sound, 3 frames, 69188 bytes\n");
    assert_eq!(names(&folder), [left[0].as_str(), "a", "raw"]);
}

#[test]
fn all_that_add_at_once_are_there() {
    let folder = with_archive("disc-both");
    let start = |number: &str| {
        let mut tool = Command::new(env!("CARGO_BIN_EXE_joyce"));
        tool.args(words(number)).current_dir(&folder).stdout(Stdio::null()).spawn().expect("the tool runs")
    };
    let numbers = ["10", "11", "12", "13", "14", "15"];
    let tools: Vec<_> = numbers.iter().map(|number| start(number)).collect();
    for mut tool in tools {
        assert!(tool.wait().expect("the tool ends").success());
    }
    assert_eq!(said(&joyce(&folder, &["archive", "check", "a"])), "a: sound, 8 frames, 184468 bytes\n");
    assert_eq!(names(&folder), ["a", "raw"]);
}

fn set_mode(path: &Path, mode: u32) {
    fs::set_permissions(path, fs::Permissions::from_mode(mode)).expect("permissions");
}

#[test]
fn permissions_and_links_stay() {
    let folder = with_archive("disc-mode");
    set_mode(&folder.join("a"), 0o600);
    symlink("a", folder.join("link")).expect("a link");
    let words = ["archive", "add", "link", "--bench", "2", "--number", "1", "raw"];
    assert!(joyce(&folder, &words).status.success());
    assert_eq!(fs::metadata(folder.join("a")).expect("the archive").permissions().mode() & 0o777, 0o600);
    assert!(fs::symlink_metadata(folder.join("link")).expect("the link").file_type().is_symlink());
    assert_eq!(fs::read(folder.join("a")).expect("the archive").len(), 69_188);
    set_mode(&folder.join("a"), 0o400);
    complained(&add(&folder, "9"), "a: the file is read-only");
    assert_eq!(fs::read(folder.join("a")).expect("the archive").len(), 69_188);
    assert_eq!(names(&folder), ["a", "link", "raw"]);
}

#[test]
fn a_folder_that_cannot_be_written_keeps_the_old_archive() {
    let folder = with_archive("disc-folder");
    let before = fs::read(folder.join("a")).expect("the archive");
    set_mode(&folder, 0o555);
    // Who may do everything may write there too; then there is nothing to see.
    let may = fs::write(folder.join("probe"), b"").is_ok();
    let output = add(&folder, "3");
    set_mode(&folder, 0o755);
    if may {
        return;
    }
    complained(&output, "a: its lock ");
    assert_eq!(fs::read(folder.join("a")).expect("the archive"), before);
    assert_eq!(names(&folder), ["a", "raw"]);
}
