//! Pictures as a person sees them, in PNG, written and read.

mod common;

use common::{complained, fed, folder, joyce, names, noted, said};
use png::{BitDepth, ColorType};
use std::fs;
use std::path::{Path, PathBuf};

const LINE: usize = 90;

/// A folder with a RAM, its screen in `a.pbm`, and that of 200 lines in `b.pbm`.
fn with_screens(name: &str) -> PathBuf {
    let folder = folder(name);
    let ram: Vec<u8> = (0..8 * 16_384).map(|at: usize| (at * at / 9 + at / 90) as u8 | 1).collect();
    fs::write(folder.join("ram"), ram).expect("the RAM");
    assert!(joyce(&folder, &["render", "ram", "-o", "a.pbm"]).status.success());
    assert!(joyce(&folder, &["render", "ram", "--rate", "60", "-o", "b.pbm"]).status.success());
    folder
}

/// The lines in a file, behind the header of a PBM.
fn lines(folder: &Path, name: &str) -> Vec<u8> {
    fs::read(folder.join(name)).expect("a picture").split_off(11)
}

/// The pixels of a PNG: a bit each, 1 is white.
fn pixels(folder: &Path, name: &str) -> (u32, u32, Vec<u8>) {
    let file = fs::File::open(folder.join(name)).expect("a picture");
    let mut reader = png::Decoder::new(file).read_info().expect("a PNG");
    let mut pixels = vec![0; reader.output_buffer_size()];
    reader.next_frame(&mut pixels).expect("pixels");
    let info = reader.info();
    assert_eq!((info.color_type, info.bit_depth, info.interlaced), (ColorType::Grayscale, BitDepth::One, false));
    (info.width, info.height, pixels)
}

/// Each line twice.
fn doubled(lines: &[u8]) -> Vec<u8> {
    lines.chunks(LINE).flat_map(|line| [line, line].concat()).collect()
}

#[test]
fn a_name_that_ends_in_png_makes_one() {
    let folder = with_screens("png-render");
    let picture = lines(&folder, "a.pbm");
    for name in ["a.png", "A.PNG", "x.pbm.Png", ".png"] {
        let output = joyce(&folder, &["render", "ram", "-o", name]);
        assert_eq!(said(&output), format!("{name}: 720 x 512, 256 lines shown\n"));
        assert_eq!(pixels(&folder, name), (720, 512, doubled(&picture)));
    }
    // Of 60 Hz a person sees 200 lines, and the bare bits have 56 dark ones more.
    let output = joyce(&folder, &["render", "ram", "--rate=60", "-o", "b.png"]);
    assert_eq!(said(&output), "b.png: 720 x 400, 200 lines shown\n");
    assert_eq!(pixels(&folder, "b.png"), (720, 400, doubled(&picture[..200 * LINE])));
    assert_eq!(lines(&folder, "b.pbm")[200 * LINE..], [0; 56 * LINE]);
    // Any other name makes a PBM.
    for name in ["png", "a.png.pbm", "a.pngx"] {
        assert!(joyce(&folder, &["render", "ram", "-o", name]).status.success());
        assert_eq!(lines(&folder, name), picture);
    }
}

#[test]
fn the_demo_and_archives_write_them() {
    let folder = folder("png-demo");
    assert!(joyce(&folder, &["demo"]).status.success());
    let output = joyce(&folder, &["demo", "-o", "page.png"]);
    assert!(said(&output).contains("picture in page.png\n") && said(&output).contains("is kept in page.archive: "));
    assert_eq!(pixels(&folder, "page.png"), (720, 512, doubled(&lines(&folder, "demo.pbm"))));
    let add = ["archive", "add", "page.archive", "--bench=1", "--number=2", "page.png", "--shown=200"];
    assert!(joyce(&folder, &add).status.success());
    for (k, height) in [("0", 512), ("1", 400)] {
        assert!(joyce(&folder, &["archive", "extract", "page.archive", k, "-o", "x.pbm"]).status.success());
        let output = joyce(&folder, &["archive", "extract", "page.archive", k, "-o", "x.png"]);
        assert!(said(&output).starts_with(&format!("x.png: 720 x {height}, bench ")), "{}", said(&output));
        assert_eq!(pixels(&folder, "x.png"), (720, height, doubled(&lines(&folder, "x.pbm"))));
    }
    let all = joyce(&folder, &["archive", "extract", "page.archive", "--all", "-o", "all.png"]);
    assert!(all.status.success());
    assert!(names(&folder.join("all.png")).iter().all(|name| name.ends_with(".pbm")));
}

#[test]
fn they_are_read_by_their_first_bytes() {
    let folder = with_screens("png-read");
    for (rate, name) in [("50", "a.png"), ("60", "b.png")] {
        assert!(joyce(&folder, &["render", "ram", "--rate", rate, "-o", name]).status.success());
    }
    fs::rename(folder.join("a.png"), folder.join("a.other")).expect("another name");
    fs::copy(folder.join("a.pbm"), folder.join("a.png")).expect("a PBM of another name");
    for (a, b, equal) in [
        ("a.other", "a.pbm", true),
        ("a.png", "a.other", true),
        // The lines that are not shown are dark.
        ("b.png", "b.pbm", true),
        ("b.png", "a.other", false),
    ] {
        let output = joyce(&folder, &["diff", a, b]);
        assert_eq!(output.status.code(), Some(i32::from(!equal)), "{a} and {b}: {}", noted(&output));
    }
    let png = fs::read(folder.join("a.other")).expect("a PNG");
    assert_eq!(said(&fed(&folder, &["diff", "-", "a.pbm"], &png)), "the pictures are equal\n");
    // In an archive as many lines are kept as it has.
    assert!(joyce(&folder, &["archive", "new", "kept"]).status.success());
    for (number, name, shown) in [("1", "a.other", 256), ("2", "b.png", 200)] {
        let output = joyce(&folder, &["archive", "add", "kept", "--bench=1", "--number", number, name]);
        assert!(said(&output).contains(&format!("number {number}, {shown} lines")), "{}", noted(&output));
        let k = if number == "1" { "0" } else { "1" };
        assert!(joyce(&folder, &["archive", "extract", "kept", k, "-o", "x.pbm"]).status.success());
        assert_eq!(lines(&folder, "x.pbm"), lines(&folder, "a.pbm")[..shown * LINE]);
    }
    let add = ["archive", "add", "kept", "--bench=1", "--number=3", "b.png", "--shown=256"];
    complained(&joyce(&folder, &add), "b.png: a picture of 200 lines, and --shown 256");
}

#[test]
fn another_png_is_refused_with_what_is_wrong() {
    let folder = with_screens("png-wrong");
    let mut bytes = Vec::new();
    let mut encoder = png::Encoder::new(&mut bytes, 720, 256);
    encoder.set_color(ColorType::Grayscale);
    encoder.set_depth(BitDepth::One);
    encoder.write_header().expect("a header").write_image_data(&lines(&folder, "a.pbm")).expect("pixels");
    fs::write(folder.join("plain.png"), &bytes).expect("a PNG");
    assert!(joyce(&folder, &["render", "ram", "-o", "cut.png"]).status.success());
    let whole = fs::read(folder.join("cut.png")).expect("a PNG");
    fs::write(folder.join("cut.png"), &whole[..whole.len() / 2]).expect("a PNG");
    let mut bad = whole.clone();
    bad[whole.len() / 2] ^= 1;
    fs::write(folder.join("bad.png"), &bad).expect("a PNG");
    for (name, message) in [
        ("plain.png", "plain.png: a PNG of 720 x 256, not 720 x 512 or 720 x 400"),
        ("cut.png", "cut.png: a broken PNG: its end is missing"),
        ("bad.png", "bad.png: a broken PNG: "),
    ] {
        for words in [vec!["diff", "a.pbm", name], vec!["archive", "add", "a.pbm", "--bench=1", "--number=1", name]] {
            let output = joyce(&folder, &words);
            complained(&output, message);
            assert_eq!(noted(&output).lines().count(), 1);
        }
    }
}
