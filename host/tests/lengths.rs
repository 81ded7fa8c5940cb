//! What is too long is refused without being read whole, and a reach list may be of any length.

mod common;

use common::{complained, fed, folder, joyce, names, noted, said};
use std::fs::{self, File};
use std::time::{Duration, Instant};

/// More than a machine could read in the time of a test. It takes no room on the disc.
const HUGE: u64 = 1 << 40;
const MOST_RAM: usize = 128 * 16_384;
const MOST_PICTURE: usize = 65_536;
const MOST_ARCHIVE: usize = 20 + 23_056 * 1_000;

#[test]
fn long_files_are_not_read() {
    let folder = folder("lengths-files");
    File::create(folder.join("huge")).and_then(|file| file.set_len(HUGE)).expect("a file");
    fs::write(folder.join("raw"), [0; 23_040]).expect("a picture");
    let start = Instant::now();
    let bytes = format!("huge: {HUGE} bytes: a picture has at most 65536 in any form");
    complained(&joyce(&folder, &["diff", "raw", "huge"]), &bytes);
    complained(&joyce(&folder, &["archive", "add", "raw", "--bench=1", "--number=1", "huge"]), &bytes);
    complained(
        &joyce(&folder, &["render", "huge"]),
        &format!("huge: a RAM of {HUGE} bytes; it must be 8 to 128 blocks"),
    );
    complained(&joyce(&folder, &["archive", "list", "huge"]), "huge: not a sound archive; `joyce archive check huge`");
    complained(&joyce(&folder, &["archive", "find", "raw", "--bench=1", "--number=1"]), "raw: not a sound archive");
    let check = joyce(&folder, &["archive", "check", "huge"]);
    assert_eq!(
        (check.status.code(), said(&check)),
        (Some(1), "huge: not sound: byte 0, form: found 0, should be 1\n".into())
    );
    assert!(start.elapsed() < Duration::from_secs(20));
    assert_eq!(names(&folder), ["huge", "raw"]);
}

#[test]
fn right_lengths_are_taken() {
    let folder = folder("lengths-right");
    for (blocks, right) in [(7, false), (8, true), (128, true), (129, false)] {
        for more in [0, 1] {
            let output = fed(&folder, &["render", "-", "-o", "-"], &vec![0; blocks * 16_384 + more]);
            assert_eq!(output.status.success(), right && more == 0, "{blocks} blocks and {more}: {}", noted(&output));
        }
    }
    let long = fed(&folder, &["render", "-", "-o", "-"], &vec![0; MOST_RAM + 1]);
    complained(&long, "standard input: a RAM of more than 2097152 bytes; it must be 8 to 128 blocks");
    // A header may have long comments, up to the most that a picture may have.
    let head = |comment: usize| [b"P4\n#".as_slice(), &vec![b'x'; comment], b"\n720 256\n"].concat();
    let longest = MOST_PICTURE - 23_040 - head(0).len();
    fs::write(folder.join("raw"), [0; 23_040]).expect("a picture");
    for (comment, right) in [(longest, true), (longest + 1, false)] {
        let output = fed(&folder, &["diff", "-", "raw"], &[head(comment), vec![0; 23_040]].concat());
        assert_eq!(output.status.success(), right, "{}", noted(&output));
    }
}

/// From a pipe no more than one byte is read past the most that is allowed: the rest is there for the next reader.
#[cfg(unix)]
#[test]
fn of_a_long_pipe_the_rest_is_left() {
    let folder = folder("lengths-pipes");
    let left = |words: &str| {
        let line = format!("head -c 30000000 /dev/zero | {{ \"$joyce\" {words} 2> said; wc -c; }}");
        let output = common::shell(&folder, &line);
        let text = fs::read_to_string(folder.join("said")).expect("what was said");
        assert!(text.starts_with("joyce: standard input: ") && text.lines().count() == 1, "{text}");
        30_000_000 - said(&output).trim().parse::<usize>().expect("a number")
    };
    assert_eq!(left("render -"), MOST_RAM + 1);
    assert_eq!(left("diff - /dev/null"), MOST_PICTURE + 1);
    assert_eq!(left("archive list -"), MOST_ARCHIVE + 1);
    assert_eq!(names(&folder), ["said"]);
}

#[test]
fn a_reach_list_of_any_length() {
    let folder = folder("lengths-reach");
    let group =
        |number: usize| [0x10, 0x10, 0x80, 0x25, 0x98, 0x87, 0x00, number as u8, 0x40 | (number >> 8) as u8 & 0x3F];
    let line = |number: usize| format!("R 02 {0:04X} W 05 {0:04X}\n", number & 0x3FFF);
    // Round the ends of pieces, with and without a group that is too short.
    for groups in [1, 4_095, 4_096, 4_097, 8_192, 100_000] {
        let mut input: Vec<u8> = (0..groups).flat_map(group).collect();
        let mut right = String::from("REACH\n") + &(0..groups).map(line).collect::<String>();
        assert!(said(&fed(&folder, &["reach"], &input)) == right, "{groups} groups");
        input.extend([0x10; 8]);
        right += "X 2\n";
        assert!(said(&fed(&folder, &["reach"], &input)) == right, "{groups} groups and a part");
    }
}
