//! Standard input and output in place of files: what is called -, and what leads there.
#![cfg(unix)]

mod common;

use common::{complained, fed, folder, has, joyce, names, noted, said, shell};
use std::fs;
use std::os::unix::fs::{symlink, MetadataExt};
use std::path::PathBuf;

const PICTURE: usize = 23_040;

/// A folder with a RAM of stripes, its screen in `a.pbm`, and an archive `a` with that screen in it.
fn with_files(name: &str) -> PathBuf {
    let folder = folder(name);
    let ram: Vec<u8> = (0..9 * 16_384).map(|at| (at * 7 / 3) as u8).collect();
    fs::write(folder.join("ram"), &ram).expect("the RAM");
    assert!(joyce(&folder, &["render", "ram", "-o", "a.pbm"]).status.success());
    assert!(joyce(&folder, &["archive", "new", "a"]).status.success());
    assert!(joyce(&folder, &["archive", "add", "a", "--bench", "1", "--number", "2", "a.pbm"]).status.success());
    folder
}

#[test]
fn render_reads_and_writes_pipes() {
    let folder = with_files("pipes-render");
    let (ram, right) = (fs::read(folder.join("ram")).expect("RAM"), fs::read(folder.join("a.pbm")).expect("picture"));
    for words in [["render", "-", "-o", "-"], ["render", "-", "-o", "/dev/stdout"]] {
        let output = fed(&folder, &words, &ram);
        assert!(output.status.success() && output.stdout == right, "{words:?}");
        assert_eq!(noted(&output), "standard output: 720 x 256, 256 lines shown\n");
    }
    complained(
        &fed(&folder, &["render", "-"], &ram[1..]),
        "standard input: a RAM of 147455 bytes; it must be 8 to 128",
    );
    assert_eq!(names(&folder), ["a", "a.pbm", "ram"]);
}

#[test]
fn another_program_reads_the_pbm() {
    let folder = with_files("pipes-netpbm");
    if !has("pnmtopng") {
        return;
    }
    let output = shell(&folder, "\"$joyce\" render ram -o - 2> said | pnmtopng > negative.png");
    assert!(output.status.success(), "{}", noted(&output));
    let file = fs::File::open(folder.join("negative.png")).expect("a picture");
    let mut reader = png::Decoder::new(file).read_info().expect("a PNG");
    let mut pixels = vec![0; reader.output_buffer_size()];
    reader.next_frame(&mut pixels).expect("pixels");
    assert_eq!((reader.info().width, reader.info().height, pixels.len()), (720, 256, PICTURE));
    // Ink is black.
    let right: Vec<u8> = fs::read(folder.join("a.pbm")).expect("a picture")[11..].iter().map(|byte| !byte).collect();
    assert_eq!(pixels, right);
}

#[test]
fn diff_takes_one_picture_from_a_pipe() {
    let folder = with_files("pipes-diff");
    let mut picture = fs::read(folder.join("a.pbm")).expect("a picture");
    for words in [["diff", "-", "a.pbm"], ["diff", "a.pbm", "-"]] {
        assert_eq!(said(&fed(&folder, &words, &picture)), "the pictures are equal\n");
    }
    picture[11 + 90 * 5] ^= 0x80;
    let output = fed(&folder, &["diff", "--", "a.pbm", "-"], &picture);
    assert_eq!((output.status.code(), said(&output)), (Some(1), "they differ first at line 5, pixel 0\n".to_string()));
    complained(&fed(&folder, &["diff", "-", "-"], &picture), "only one of the two pictures");
    complained(&fed(&folder, &["diff", "-", "a.pbm"], b""), "standard input: 0 bytes: neither a PBM P4 file nor");
}

#[test]
fn archives_take_and_give_pictures_through_pipes() {
    let folder = with_files("pipes-archive");
    let picture = fs::read(folder.join("a.pbm")).expect("a picture");
    let added = fed(&folder, &["archive", "add", "a", "--bench", "1", "--number", "3", "-"], &picture);
    assert_eq!(said(&added), "a: entry 1: bench 1, number 3, 256 lines; 46132 bytes\n");
    let output = joyce(&folder, &["archive", "extract", "a", "1", "-o", "-"]);
    assert!(output.status.success() && output.stdout == picture);
    assert_eq!(noted(&output), "standard output: 720 x 256, bench 1, number 3\n");
    complained(&joyce(&folder, &["archive", "extract", "a", "--all", "-o", "-"]), "-o: with --all it is a folder");
    // An archive itself can be read from a pipe, but is kept in a file.
    let archive = fs::read(folder.join("a")).expect("the archive");
    let sound = fed(&folder, &["archive", "check", "-"], &archive);
    assert_eq!(said(&sound), "standard input: sound, 2 frames, 46132 bytes\n");
    assert_eq!(said(&fed(&folder, &["archive", "find", "-", "--bench=1", "--number=3"], &archive)), "entry 1\n");
    assert_eq!(fed(&folder, &["archive", "extract", "-", "0", "-o", "-"], &archive).stdout, picture);
    complained(&fed(&folder, &["archive", "list", "-"], &archive[1..]), "standard input: not a sound archive");
    complained(&fed(&folder, &["archive", "show", "-", "2"], &archive), "standard input: no entry 2; it has 2 frames");
    complained(&fed(&folder, &["archive", "new", "-"], b""), "-: standard output, and no file");
    let words = ["archive", "add", "-", "--bench=1", "--number=4", "a.pbm"];
    complained(&fed(&folder, &words, &archive), "-: standard output, and no file");
    assert_eq!(names(&folder), ["a", "a.pbm", "ram"]);
}

#[test]
fn the_demo_leaves_standard_output_to_what_is_asked_for() {
    let folder = folder("pipes-demo");
    let plain = joyce(&folder, &["demo", "--html", "page.html"]);
    let (picture, page) = (fs::read(folder.join("demo.pbm")), fs::read(folder.join("page.html")));
    let (picture, page) = (picture.expect("a picture"), page.expect("a page"));
    let output = joyce(&folder, &["demo", "-o", "-"]);
    assert!(output.status.success() && output.stdout == picture);
    let steps = "42093 steps made; picture on standard output\n";
    assert!(noted(&output).contains("22320 saved of 23040") && noted(&output).ends_with(steps), "{}", noted(&output));
    let output = joyce(&folder, &["demo", "--html", "-"]);
    assert!(output.status.success() && output.stdout == page);
    assert_eq!(noted(&output), said(&plain).replace("in page.html", "on standard output"));
    let output = joyce(&folder, &["demo", "-o", "-", "--html=/dev/fd/1"]);
    complained(&output, "--html: standard output has the picture already");
    assert!(output.stdout.is_empty());
    assert_eq!(names(&folder), ["demo.archive", "demo.pbm", "page.html"]);
}

/// What standard output is redirected to is written on, and not replaced, whatever it is called by.
#[test]
fn names_of_standard_output_replace_no_file() {
    let folder = with_files("pipes-stdout");
    let right = fs::read(folder.join("a.pbm")).expect("a picture");
    symlink("/dev/stdout", folder.join("link")).expect("a link");
    symlink("link", folder.join("link of link")).expect("a link");
    let names = ["-", "/dev/stdout", "/dev/fd/1", "/proc/self/fd/1", "/dev/../dev/fd/./1", "link", "link of link"];
    for name in names {
        fs::write(folder.join("kept"), "before\n").expect("a file");
        let before = fs::metadata(folder.join("kept")).expect("the file").ino();
        let output = shell(&folder, &format!("\"$joyce\" render ram -o '{name}' >> kept"));
        assert!(output.status.success(), "{name}: {}", noted(&output));
        assert_eq!(
            fs::read(folder.join("kept")).expect("the file"),
            [b"before\n".as_slice(), &right].concat(),
            "{name}"
        );
        assert_eq!(fs::metadata(folder.join("kept")).expect("the file").ino(), before, "{name}");
    }
    let words = "\"$joyce\" archive add /dev/stdout --bench 1 --number 3 a.pbm >> a";
    complained(&shell(&folder, words), "/dev/stdout: standard output, and no file");
}

#[test]
fn a_failing_standard_output_is_an_error() {
    let folder = with_files("pipes-full");
    complained(&shell(&folder, "\"$joyce\" render ram -o - > /dev/full"), "standard output: No space left");
    // No file is there or changed either, if standard output is not.
    let before = fs::read(folder.join("a")).expect("the archive");
    for words in [
        "demo -o - --html page.html",
        "demo -o page.pbm --html -",
        "demo",
        "render ram -o page.png",
        "archive new b",
        "archive add a --bench 1 --number 3 a.pbm",
        "archive extract a 0 -o page.pbm",
    ] {
        complained(&shell(&folder, &format!("\"$joyce\" {words} > /dev/full")), "standard output: No space left");
    }
    assert_eq!(fs::read(folder.join("a")).expect("the archive"), before);
    // Nobody reads the notes; the picture is written.
    let output = shell(&folder, "\"$joyce\" render ram -o - 2> /dev/full");
    assert_eq!(output.stdout, fs::read(folder.join("a.pbm")).expect("a picture"));
    assert!(output.status.success());
    assert_eq!(shell(&folder, "\"$joyce\" render gone 2> /dev/full").status.code(), Some(2));
    assert_eq!(names(&folder), ["a", "a.pbm", "ram"]);
}
