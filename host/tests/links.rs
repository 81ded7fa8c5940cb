//! Where a name leads: links are followed to a file, and what is no file is refused.
#![cfg(unix)]

mod common;

use common::{complained, folder, joyce, names, noted, shell};
use std::fs;
use std::os::unix::fs::symlink;
use std::path::{Path, PathBuf};

fn with_ram(name: &str) -> PathBuf {
    let folder = folder(name);
    fs::write(folder.join("ram"), vec![0x5A; 8 * 16_384]).expect("the RAM");
    folder
}

fn link(folder: &Path, to: &str, name: &str) {
    symlink(to, folder.join(name)).expect("a link");
}

fn is_link(path: PathBuf) -> bool {
    fs::symlink_metadata(path).expect("something").file_type().is_symlink()
}

#[test]
fn a_file_is_made_where_a_dangling_link_points() {
    let folder = with_ram("links-dangling");
    fs::create_dir(folder.join("far")).expect("a folder");
    link(&folder, "far", "near");
    // Each is looked up from its own folder.
    link(&folder, "near/second", "first");
    link(&folder.join("far"), "../third", "second");
    link(&folder, "page.pbm", "third");
    let output = joyce(&folder, &["render", "ram", "-o", "first"]);
    assert!(output.status.success(), "{}", noted(&output));
    assert_eq!(fs::read(folder.join("page.pbm")).expect("the picture").len(), 11 + 23_040);
    assert!(["first", "far/second", "third"].iter().all(|name| is_link(folder.join(name))));
    assert_eq!(names(&folder), ["far", "first", "near", "page.pbm", "ram", "third"]);
    assert_eq!(names(&folder.join("far")), ["second"]);
    // Where there is no folder, no file can be made.
    link(&folder, "no/such/folder", "nowhere");
    complained(&joyce(&folder, &["render", "ram", "-o", "nowhere"]), "nowhere: No such file");
    complained(&joyce(&folder, &["archive", "new", "nowhere"]), "nowhere: there already");
}

#[test]
fn the_file_behind_a_link_is_replaced() {
    let folder = with_ram("links-file");
    fs::create_dir(folder.join("far")).expect("a folder");
    fs::write(folder.join("far/page"), "old").expect("a file");
    link(&folder, "far/page", "link.png");
    assert!(joyce(&folder, &["render", "ram", "-o", "link.png"]).status.success());
    assert!(is_link(folder.join("link.png")));
    // The name that was given says which form it has.
    assert!(fs::read(folder.join("far/page")).expect("the picture").starts_with(b"\x89PNG"));
    assert_eq!(names(&folder.join("far")), ["page"]);
}

#[test]
fn links_in_a_circle_are_refused() {
    let folder = with_ram("links-circle");
    link(&folder, "b", "a");
    link(&folder, "a", "b");
    link(&folder, "self", "self");
    for name in ["a", "b", "self"] {
        complained(&joyce(&folder, &["render", "ram", "-o", name]), &format!("{name}: links in a circle"));
    }
    complained(&joyce(&folder, &["render", "ram", "-o", "a/page"]), "a/page: ");
    assert_eq!(names(&folder), ["a", "b", "ram", "self"]);
}

const OPEN: &str = "what a program has open is no file to be replaced; - is standard output";
/// Names, and why they are refused.
const REFUSED: [(&str, &str); 20] = [
    ("folder", "not a regular file"),
    ("folder/", "not a regular file"),
    ("folder/.", "not a regular file"),
    ("folder/..", "not a regular file"),
    ("to folder", "not a regular file"),
    ("/dev/null", "not a regular file"),
    ("pipe", "not a regular file"),
    ("file", "the file is read-only"),
    ("gone/", "not a file name"),
    ("ram/", "not a file name"),
    ("gone/.", "not a file name"),
    ("gone/..", "not a file name"),
    ("gone/page", "No such file"),
    ("ram/page", "Not a directory"),
    ("/dev/stderr", OPEN),
    ("to stderr", OPEN),
    ("/dev/fd/2", OPEN),
    ("/dev/fd/17", OPEN),
    ("/proc/self/fd/2", OPEN),
    ("/proc/version", OPEN),
];

#[test]
fn what_is_no_file_to_write_is_refused() {
    let folder = with_ram("links-others");
    fs::create_dir(folder.join("folder")).expect("a folder");
    link(&folder, "folder", "to folder");
    link(&folder, "/dev/stderr", "to stderr");
    assert!(shell(&folder, "mkfifo pipe && : > file && chmod 400 file").status.success());
    for (name, message) in REFUSED {
        for flag in ["-o", "--html"] {
            let output = joyce(&folder, &["demo", flag, name]);
            complained(&output, &format!("joyce: {name}: {message}"));
            assert_eq!(noted(&output).lines().count(), 1);
        }
    }
    // Also when it is a regular file that is open there.
    fs::write(folder.join("kept"), "kept").expect("a file");
    complained(&shell(&folder, "\"$joyce\" demo -o /dev/fd/5 5>> kept"), OPEN);
    assert_eq!(fs::read(folder.join("kept")).expect("a file"), b"kept");
    assert_eq!(names(&folder), ["file", "folder", "kept", "pipe", "ram", "to folder", "to stderr"]);
}

/// Picture, page and archive of a demo are three files.
#[test]
fn nothing_takes_the_place_of_another() {
    let folder = folder("links-same");
    fs::create_dir(folder.join("far")).expect("a folder");
    link(&folder, ".", "here");
    link(&folder, "page.pbm", "to page");
    link(&folder, "page.archive", "to archive.pbm");
    let refused = |words: &[&str], message: &str| complained(&joyce(&folder, words), message);
    refused(&["demo", "--html", "demo.pbm"], "--html: demo.pbm has the picture already");
    refused(&["demo", "-o", "page.pbm", "--html", "./far/../page.pbm"], "has the picture already");
    refused(&["demo", "-o", "page.pbm", "--html", "here/page.pbm"], "has the picture already");
    refused(&["demo", "-o", "page.pbm", "--html", "to page"], "--html: to page has the picture already");
    refused(&["demo", "-o", "page.pbm", "--html", "page.archive"], "--html: page.archive is where the archive goes");
    refused(
        &["demo", "-o", "page.pbm", "--html", "to archive.pbm"],
        "is where the archive goes; name the page otherwise",
    );
    refused(&["demo", "-o", "page.archive"], "-o: page.archive is where the archive goes; name the picture otherwise");
    link(&folder, "to archive.archive", "to archive");
    refused(&["demo", "-o", "to archive"], "-o: to archive is where the archive goes");
    assert_eq!(names(&folder), ["far", "here", "to archive", "to archive.pbm", "to page"]);
}
