//! The tool as a user meets it.

mod common;

use common::{complained, fed, folder, joyce, names, said};
use std::fs;
use std::process::Command;

const PICTURE: usize = 23_040;

fn reach(input: &[u8]) -> String {
    let output = fed(&folder("reach"), &["reach"], input);
    assert!(output.status.success());
    said(&output)
}

#[test]
fn reach_list() {
    let sample = [
        0x10, 0x10, 0x80, 0x25, 0x98, 0x87, 0x00, 0x00, 0x80, 0x10, 0x10, 0x80, 0x25, 0x98, 0x87, 0x00, 0x05, 0x40,
        0x10,
    ];
    assert_eq!(reach(&sample), "REACH\nR 08 0000 W 08 0000\nR 02 0005 W 05 0005\nX 2\n");
    assert_eq!(reach(&[]), "REACH\n");
    assert_eq!(
        reach(&[8, 8, 0, 0, 0, 0x87, 0, 0xFF, 0xFF, 8, 7, 0, 0, 0, 0, 0, 0, 0]),
        "REACH\nR 07 3FFF W 07 3FFF\nX 6\n"
    );
}

#[test]
fn demo_writes_a_picture_and_counts_lines() {
    let folder = folder("demo");
    let output = joyce(&folder, &["demo", "-o", "page.pbm"]);
    assert!(output.status.success());
    let page = fs::read(folder.join("page.pbm")).expect("the picture");
    assert_eq!(page.len(), 11 + PICTURE);
    assert!(page.starts_with(b"P4\n720 256\n"));
    let text = said(&output);
    for line in [
        "put up: 256 lines, 23040 bytes",
        "row 13 runs from block 1, 3DC0h, on into block 2: columns 72 to 89 read \" 181.28   561.13  \"",
        "enters a line: 8 lines, 720 bytes down the cable, 22320 saved",
        "300 ticks counted: 0 lines",
        "rolls up by 8 lines: 256 lines",
        "as they stand: 0 lines",
        "kept in page.archive: bench 12, number 345; read back, it is the same",
    ] {
        assert!(text.contains(line), "{line} in {text}");
    }
    assert_eq!(names(&folder), ["page.archive", "page.pbm"]);
    // Its own earlier output is written over, and the archive has the screen of the entered line.
    assert!(joyce(&folder, &["demo", "-o", "page.pbm"]).status.success());
    let kept = fs::read(folder.join("page.archive")).expect("the archive");
    assert_eq!(kept.len(), 20 + 23_056);
    assert_ne!(kept[36..], page[11..]);
    complained(&joyce(&folder, &["demo", "-o", "page.archive"]), "name the picture otherwise");
    assert_eq!(fs::read(folder.join("page.archive")).expect("the archive"), kept);
    // One that holds something else is not.
    assert!(joyce(&folder, &["archive", "add", "page.archive", "--bench", "1", "--number", "2", "page.pbm"])
        .status
        .success());
    let two = fs::read(folder.join("page.archive")).expect("the archive");
    complained(&joyce(&folder, &["demo", "-o", "page.pbm"]), "page.archive: there already, and not from a demo");
    assert_eq!(fs::read(folder.join("page.archive")).expect("the archive"), two);
}

#[test]
fn render_draws_the_ram() {
    let folder = folder("render");
    let mut ram = vec![0u8; 9 * 16_384];
    // Line 1 of table 0, top line FFh: entry 0 names block 1, start 0.
    ram[..2].copy_from_slice(&[0x00, 0x20]);
    ram[16_384] = 0xA5;
    fs::write(folder.join("ram"), &ram).expect("the RAM");
    let output =
        joyce(&folder, &["render", "ram", "--f5", "00", "--f6", "FF", "--f7", "C0", "--rate", "60", "-o", "a.pbm"]);
    assert!(output.status.success());
    let picture = fs::read(folder.join("a.pbm")).expect("the picture").split_off(11);
    assert_eq!(picture[90], 0x5A);
    assert_eq!(picture[199 * 90 + 5], 0xFF);
    assert_eq!(picture[200 * 90], 0);
}

#[test]
fn diff_finds_the_position() {
    let folder = folder("diff");
    let mut picture = vec![0u8; PICTURE];
    fs::write(folder.join("a"), &picture).expect("a");
    picture[90 * 3 + 2] = 1;
    fs::write(folder.join("b"), [b"P4\n720 256\n".as_slice(), &picture].concat()).expect("b");
    assert!(joyce(&folder, &["diff", "a", "a"]).status.success());
    let output = joyce(&folder, &["diff", "a", "b"]);
    assert_eq!(output.status.code(), Some(1));
    assert_eq!(said(&output), "they differ first at line 3, pixel 23\n");
}

#[test]
fn errors_are_clear_and_leave_nothing() {
    let folder = folder("errors");
    fs::write(folder.join("short"), [0; 100]).expect("a file");
    complained(&joyce(&folder, &[]), "no command");
    complained(&joyce(&folder, &["paint"]), "unknown command paint");
    complained(&joyce(&folder, &["diff", "short", "gone"]), "short: 100 bytes");
    complained(&joyce(&folder, &["diff", "short"]), "expected two pictures");
    complained(&joyce(&folder, &["render", "gone"]), "gone:");
    complained(&joyce(&folder, &["render", "short"]), "short: a RAM of 100 bytes");
    complained(&joyce(&folder, &["render", "short", "--f5", "1G"]), "--f5: 1G is not a byte in hex");
    complained(&joyce(&folder, &["render", "short", "--rate", "55"]), "--rate: 55");
    complained(&joyce(&folder, &["render", "short", "--colour", "1"]), "unknown flag --colour");
    complained(&joyce(&folder, &["render", "short", "--f5", "0x0x5B"]), "--f5: 0x0x5B is not a byte in hex");
    complained(&joyce(&folder, &["demo", "-o"]), "-o needs a value");
    complained(&joyce(&folder, &["render", "short", "-o", "--f5"]), "-o needs a value");
    complained(&joyce(&folder, &["demo", "-o", "."]), ".: not a regular file");
    complained(&joyce(&folder, &["demo", "-o", "no/such/folder.pbm"]), "no/such/folder.pbm:");
    complained(&joyce(&folder, &["fuzz", "--calls", "many"]), "--calls: many is not a number");
    complained(&joyce(&folder, &["bench", "--ms", "0"]), "--ms");
    assert_eq!(names(&folder), ["short"]);
    assert!(said(&joyce(&folder, &["help"])).contains("joyce reach"));
}

/// A name that is not text, and a picture written through a link.
#[cfg(unix)]
#[test]
fn odd_names() {
    use std::os::unix::{ffi::OsStrExt, fs::symlink};
    let folder = folder("names");
    let name = std::ffi::OsStr::from_bytes(b"\xFF");
    let odd = Command::new(env!("CARGO_BIN_EXE_joyce")).arg("render").arg(name).current_dir(&folder).output();
    complained(&odd.expect("the tool runs"), "is not UTF-8");
    fs::write(folder.join("page"), b"").expect("a file");
    symlink("page", folder.join("link")).expect("a link");
    assert!(joyce(&folder, &["demo", "-o", "link"]).status.success());
    assert_eq!(fs::read(folder.join("page")).expect("the picture").len(), 11 + PICTURE);
}

#[test]
fn fuzz_is_told_its_seed() {
    let folder = folder("fuzz");
    let output = joyce(&folder, &["fuzz", "--calls", "3000", "--seed", "5"]);
    assert!(output.status.success());
    let text = said(&output);
    assert!(text.contains("no difference: 3000 calls in lists (seed 5)"), "{text}");
    let line = text.lines().find(|line| line.starts_with("archives: ")).expect("a line about archives");
    assert!(line.contains("refused with 2, 10, 11, 12: [") && !line.contains("[0, 0, 0, 0]"), "{line}");
}
