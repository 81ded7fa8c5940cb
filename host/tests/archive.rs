//! `joyce archive` as a user meets it.

mod common;

use common::{complained, folder, joyce, names, said};
use joyce::archive::{self, length, Fields};
use joyce_host::model::archive::{written, Frame};
use std::fs;
use std::path::PathBuf;

const PICTURE: usize = 23_040;

/// A folder with an archive of two frames in `a`, the second of 200 lines, and the picture they were made of.
fn with_archive(name: &str) -> PathBuf {
    let folder = folder(name);
    let picture: Vec<u8> = (0..PICTURE).map(|at| (at * 7 / 4) as u8 | 1).collect();
    fs::write(folder.join("raw"), picture).expect("a picture");
    assert!(joyce(&folder, &["archive", "new", "a"]).status.success());
    let first = joyce(&folder, &["archive", "add", "a", "--bench", "12", "--number", "345", "raw"]);
    assert_eq!(said(&first), "a: entry 0: bench 12, number 345, 256 lines; 23076 bytes\n");
    let words = ["archive", "add", "a", "--bench", "65535", "--number", "4294967295", "raw", "--shown", "200"];
    assert_eq!(said(&joyce(&folder, &words)), "a: entry 1: bench 65535, number 4294967295, 200 lines; 46132 bytes\n");
    folder
}

#[test]
fn the_file_is_what_the_library_writes() {
    let folder = with_archive("archive-file");
    let raw = fs::read(folder.join("raw")).expect("the picture");
    let mut start = vec![0; length(0)];
    archive::start(&mut start).accepted().expect("started");
    let (mut one, mut two) = (vec![0; length(1)], vec![0; length(2)]);
    archive::add(&start, Fields::new(12, 345, 256), &raw, &mut one).accepted().expect("added");
    archive::add(&one, Fields::new(65_535, u32::MAX, 200), &raw, &mut two).accepted().expect("added");
    assert_eq!(fs::read(folder.join("a")).expect("the archive"), two);
    assert_eq!(names(&folder), ["a", "raw"]);
}

#[test]
fn list_find_and_show() {
    let folder = with_archive("archive-list");
    let list = said(&joyce(&folder, &["archive", "list", "a"]));
    let rows: Vec<Vec<&str>> = list.lines().map(|line| line.split_whitespace().collect()).collect();
    assert_eq!(rows[0], ["index", "bench", "number", "shown"]);
    assert_eq!(rows[1..], [["0", "12", "345", "256"], ["1", "65535", "4294967295", "200"]]);
    let find = |number: &str| joyce(&folder, &["archive", "find", "a", "--bench", "65535", "--number", number]);
    assert_eq!((find("4294967295").status.code(), said(&find("4294967295"))), (Some(0), "entry 1\n".to_string()));
    assert_eq!(find("7").status.code(), Some(1));
    let show = said(&joyce(&folder, &["archive", "show", "a", "1"]));
    assert_eq!(show.lines().count(), 25 + 1);
    assert!(show.ends_with("entry 1: bench 65535, number 4294967295, 200 lines\n"));
    assert_eq!(said(&joyce(&folder, &["archive", "show", "a", "0"])).lines().count(), 32 + 1);
}

#[test]
fn extracted_pictures_can_be_added_again() {
    let folder = with_archive("archive-extract");
    let raw = fs::read(folder.join("raw")).expect("the picture");
    assert!(joyce(&folder, &["archive", "extract", "a", "1", "-o", "x.pbm"]).status.success());
    let pbm = [b"P4\n720 200\n".as_slice(), &raw[..18_000]].concat();
    assert_eq!(fs::read(folder.join("x.pbm")).expect("the picture"), pbm);
    let all = joyce(&folder, &["archive", "extract", "a", "--all", "-o", "new/all"]);
    assert_eq!(said(&all), "new/all: 2 pictures\n");
    assert!(String::from_utf8_lossy(&all.stderr).contains("2 of 2 frames"));
    let both = ["bench-00012-number-0000000345.pbm", "bench-65535-number-4294967295.pbm"];
    assert_eq!(names(&folder.join("new/all")), both);
    assert_eq!(fs::read(folder.join("new/all").join(both[1])).expect("the picture"), pbm);
    // A picture of 200 lines needs no --shown, as PBM or raw.
    fs::write(folder.join("raw200"), &raw[..18_000]).expect("a picture");
    for (number, picture) in [("1", "x.pbm"), ("2", "raw200"), ("3", "new/all/bench-00012-number-0000000345.pbm")] {
        let added = joyce(&folder, &["archive", "add", "a", "--bench", "1", "--number", number, picture]);
        let lines = if number == "3" { "256 lines" } else { "200 lines" };
        assert!(said(&added).contains(lines), "{added:?}");
    }
    let sound = joyce(&folder, &["archive", "check", "a"]);
    assert_eq!(said(&sound), "a: sound, 5 frames, 115300 bytes\n");
}

/// Each damage, and what is said about it.
#[test]
fn check_says_where() {
    let folder = with_archive("archive-check");
    let sound = fs::read(folder.join("a")).expect("the archive");
    let check = |bytes: &[u8], words: &str| {
        fs::write(folder.join("b"), bytes).expect("an archive");
        let output = joyce(&folder, &["archive", "check", "b"]);
        assert_eq!((output.status.code(), said(&output)), (Some(1), format!("b: not sound: {words}\n")));
        complained(&joyce(&folder, &["archive", "list", "b"]), "`joyce archive check b` says where");
    };
    let altered = |at: usize, number: u32| {
        let mut bytes = sound.clone();
        bytes[at..at + 4].copy_from_slice(&number.to_le_bytes());
        bytes
    };
    check(b"", "byte 0, form: found the end of the file (0 bytes), should be 1");
    check(b"P4\n720 256\n", "byte 0, form: found 923415632, should be 1");
    check(&altered(4, 1_001), "byte 4, count: found 1001, should be 0 to 1000");
    check(&altered(8, 24), "byte 8, offset of entries: found 24, should be 20");
    check(&altered(4, 1), "byte 12, offset of pictures: found 52, should be 36");
    check(&altered(16, 46_133), "byte 16, whole length: found 46133, should be 46132");
    check(&altered(36, 0), "byte 36, bench of entry 1: found 0, should be 1 to 65535");
    check(&altered(44, 255), "byte 44, shown lines of entry 1: found 255, should be 200 or 256");
    check(&altered(32, 36), "byte 32, offset of the picture of entry 0: found 36, should be 52");
    let mut twice = sound.clone();
    twice.copy_within(20..28, 36);
    let pair =
        "byte 36, bench and number of entry 1: found 12 and 345 as in entry 0, should be a pair that stands once";
    check(&twice, pair);
    let last = "byte 46128, unshown line 255 of entry 1: found 80h, should be 00h";
    check(&altered(46_128, 0x80), last);
    check(
        &sound[..50],
        "byte 48, offset of the picture of entry 1: found the end of the file (50 bytes), should be 23092",
    );
    let cut = "byte 46131, picture of entry 1: found the end of the file (46131 bytes), should be 1 byte more of it";
    check(&sound[..46_131], cut);
    let long = [&sound[..], &[0, 0]].concat();
    check(&long, "byte 46132, behind the archive: found 2 bytes more, should be the end of the file");
}

#[test]
fn errors_are_clear_and_leave_all_as_it_was() {
    let folder = with_archive("archive-errors");
    let before = fs::read(folder.join("a")).expect("the archive");
    fs::write(folder.join("short"), [0; 100]).expect("a file");
    fs::write(folder.join("small.pbm"), b"P4\n8 1\n\0").expect("a file");
    fs::write(folder.join("raw200"), [0; 18_000]).expect("a file");
    let cases: [(&str, &str); 23] = [
        ("", "expected new, add, list"),
        ("burn a", "unknown command burn"),
        ("new a", "a: there already"),
        ("new no/such/folder", "no/such/folder: its lock"),
        ("add gone --bench 1 --number 1 raw", "gone: no such file; `joyce archive new gone` makes one"),
        ("add a --bench 1 --number 1 gone", "gone: No such file"),
        ("add a --bench 1 --number 1 small.pbm", "small.pbm: a PBM of 8 x 1, not 720 x 200 or 720 x 256"),
        ("add a --bench 1 --number 1 short", "short: 100 bytes: neither a PBM P4 file nor a raw picture of 18000 or"),
        ("add short --bench 1 --number 1 raw", "short: not a sound archive; `joyce archive check short` says where"),
        ("add a --bench 0 --number 1 raw", "--bench: 0 is not from 1 to 65535"),
        ("add a --bench 65536 --number 1 raw", "--bench: 65536 is not from 1 to 65535"),
        ("add a --bench 1 --number 4294967296 raw", "--number: 4294967296 is over 4294967295"),
        ("add a --bench 1 raw", "--number is needed"),
        ("add a --bench 12 --number 345 raw", "a: bench 12, number 345 is there already, as entry 0"),
        ("add a --bench 1 --number 1 raw --shown 255", "--shown: 255 is neither 200 nor 256"),
        ("add a --bench 1 --number 1 raw200 --shown 256", "raw200: a picture of 200 lines, and --shown 256"),
        ("show a 2", "a: no entry 2; it has 2 frames, entries 0 to 1"),
        ("show a first", "first is not the index of an entry"),
        ("extract a 0", "-o is needed"),
        ("extract a 0 -o ./a", "-o: ./a is the archive itself"),
        ("extract a 0 -o .", ".: not a regular file"),
        ("extract a --all -o raw", "raw: "),
        ("check .", ".: not a regular file"),
    ];
    for (words, message) in cases {
        let words: Vec<&str> = ["archive"].into_iter().chain(words.split_whitespace()).collect();
        complained(&joyce(&folder, &words), message);
    }
    assert_eq!(fs::read(folder.join("a")).expect("the archive"), before);
    assert_eq!(names(&folder), ["a", "raw", "raw200", "short", "small.pbm"]);
}

#[test]
fn a_full_archive_takes_no_more() {
    let folder = folder("archive-full");
    let picture = vec![0x5A; PICTURE];
    let frames: Vec<Frame> = (0..1_000).map(|number| Frame { bench: 1, number, lines: &picture[..18_000] }).collect();
    fs::write(folder.join("full"), written(&frames)).expect("an archive");
    fs::write(folder.join("raw"), &picture).expect("a picture");
    let add = |number| joyce(&folder, &["archive", "add", "full", "--bench", "1", "--number", number, "raw"]);
    complained(&add("1000"), "full: full: an archive has at most 1000 frames; `joyce archive new` makes another");
    complained(&add("999"), "full: bench 1, number 999 is there already, as entry 999");
    assert_eq!(said(&joyce(&folder, &["archive", "check", "full"])), "full: sound, 1000 frames, 23056020 bytes\n");
    assert_eq!(said(&joyce(&folder, &["archive", "list", "full"])).lines().count(), 1_001);
    let mut long = fs::read(folder.join("full")).expect("the archive");
    long.resize(24_000_000, 0);
    fs::write(folder.join("full"), &long).expect("an archive");
    let output = joyce(&folder, &["archive", "check", "full"]);
    assert_eq!(output.status.code(), Some(1));
    assert!(said(&output).contains("byte 23056020, behind the archive: found 943980 bytes more"));
}
