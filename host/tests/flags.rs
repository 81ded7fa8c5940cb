//! The command line: version, help, and the ways to write flags.

mod common;

use common::{complained, folder, joyce, names, noted, said};
use std::fs;
use std::path::PathBuf;

/// A text as it stands in the folder of texts.
fn text(name: &str) -> String {
    let path = PathBuf::from(env!("CARGO_MANIFEST_DIR")).join("help").join(name);
    fs::read_to_string(path).expect("a text")
}

/// A folder with a RAM in which line 1 of table 0, top line FFh, shows A5h.
fn with_ram(name: &str) -> PathBuf {
    let folder = folder(name);
    let mut ram = vec![0u8; 8 * 16_384];
    ram[..2].copy_from_slice(&[0x00, 0x20]);
    ram[16_384] = 0xA5;
    fs::write(folder.join("ram"), &ram).expect("the RAM");
    folder
}

#[test]
fn the_version_is_that_of_package_and_interface() {
    let right = format!("joyce {} (C interface {})\n", env!("CARGO_PKG_VERSION"), joyce::VERSION);
    for word in ["--version", "version"] {
        let output = joyce(&folder("version"), &[word]);
        assert_eq!((output.status.code(), said(&output), noted(&output)), (Some(0), right.clone(), String::new()));
    }
    assert_eq!(text("version"), right);
}

#[test]
fn help_is_the_text_of_that_name() {
    let folder = folder("help");
    let helps = |words: &str, name: &str| {
        let words: Vec<&str> = words.split(' ').collect();
        let output = joyce(&folder, &words);
        let right = (Some(0), text(name), String::new());
        assert_eq!((output.status.code(), said(&output), noted(&output)), right, "{words:?}");
    };
    for word in ["help", "--help", "-h"] {
        helps(word, "help");
    }
    for name in ["demo", "render", "diff", "reach", "archive", "fuzz", "bench", "stack", "install"] {
        helps(&format!("{name} --help"), name);
    }
    // Wherever it stands, whatever else is asked for.
    helps("archive add --help", "archive");
    helps("archive add a --bench 1 --help", "archive");
    helps("render --help gone --f5", "render");
    helps("demo -o --help", "demo");
    // Behind -- it is a name.
    complained(&joyce(&folder, &["render", "--", "--help"]), "--help: No such file");
    assert!(names(&folder).is_empty());
}

#[test]
fn a_value_may_be_joined_to_its_flag() {
    let folder = with_ram("flags-joined");
    let render = |words: &[&str]| assert!(joyce(&folder, words).status.success());
    render(&["render", "ram", "--f5", "00", "--f6", "FF", "--f7", "C0", "--rate", "60", "-o", "a.pbm"]);
    render(&["render", "--f5=00", "--f6=0xFF", "--f7=C0h", "--rate=60", "ram", "-o", "b.pbm"]);
    let a = fs::read(folder.join("a.pbm")).expect("a picture");
    assert_eq!(a[11 + 90], 0x5A);
    assert_eq!(fs::read(folder.join("b.pbm")).expect("a picture"), a);
    assert!(joyce(&folder, &["demo", "--html=page=1.html", "-o", "c.pbm"]).status.success());
    assert_eq!(names(&folder), ["a.pbm", "b.pbm", "c.archive", "c.pbm", "page=1.html", "ram"]);
}

#[test]
fn behind_two_dashes_nothing_is_a_flag() {
    let folder = with_ram("flags-dashes");
    fs::copy(folder.join("ram"), folder.join("--f5")).expect("a RAM of an odd name");
    assert!(joyce(&folder, &["render", "-o", "a.pbm", "--", "--f5"]).status.success());
    assert!(joyce(&folder, &["archive", "new", "--", "-a"]).status.success());
    assert!(joyce(&folder, &["archive", "add", "--bench=1", "--number=2", "--", "-a", "a.pbm"]).status.success());
    assert_eq!(said(&joyce(&folder, &["archive", "check", "--", "-a"])), "-a: sound, 1 frame, 23076 bytes\n");
    complained(&joyce(&folder, &["render", "--", "ram", "-o"]), "expected one RAM file, got 2 argument(s)");
    assert_eq!(names(&folder), ["--f5", "-a", "a.pbm", "ram"]);
}

/// What is said to what.
const ERRORS: [(&str, &str); 23] = [
    ("paint", "unknown command paint; joyce help names them"),
    ("--paint", "unknown command --paint"),
    ("-- demo", "unknown command --"),
    ("render ram --f5=-1", "--f5: -1 is not a byte in hex"),
    ("render ram --f5 -1", "--f5 needs a value; joyce render --help tells more"),
    ("render ram --f5=", "--f5 needs a value"),
    ("render ram -o", "-o needs a value"),
    ("render ram -o --f5", "-o needs a value"),
    ("render ram -o --", "-o needs a value"),
    ("render ram -o a -o b", "-o is given twice"),
    ("render ram --f5=1 --f5 1", "--f5 is given twice"),
    ("render ram --f5=0x0x5B", "--f5: 0x0x5B is not a byte in hex"),
    ("render ram --colour=1", "unknown flag --colour; joyce render --help tells more"),
    ("render ram -x", "unknown flag -x"),
    ("render ram -o=a", "unknown flag -o=a"),
    ("render ram -o ram", "-o: ram is the RAM itself"),
    ("diff - -", "only one of the two pictures can come from standard input"),
    ("demo ram", "expected no file but those of -o and --html"),
    ("demo --html", "--html needs a value"),
    ("archive --all", "archive: unknown command --all; expected new, add, list, show, extract, find or check"),
    ("archive extract ram 0 --all=1 -o x", "--all takes no value; joyce archive --help tells more"),
    ("fuzz --calls=-5", "--calls: -5 is not a number"),
    ("reach ram", "expected groups on standard input"),
];

#[test]
fn errors_are_one_line_and_leave_nothing() {
    let folder = with_ram("flags-errors");
    for (words, message) in ERRORS {
        let output = joyce(&folder, &words.split(' ').collect::<Vec<_>>());
        complained(&output, &format!("joyce: {message}"));
        assert_eq!((noted(&output).lines().count(), said(&output)), (1, String::new()), "{words}");
    }
    complained(&joyce(&folder, &["render", ""]), ": No such file");
    complained(&joyce(&folder, &["render", "ram", "-o", ""]), "-o needs a value");
    // Who says nothing at all is told all there is.
    let output = joyce(&folder, &[]);
    complained(&output, "no command\n");
    assert!(noted(&output).ends_with(&text("help")));
    assert_eq!(names(&folder), ["ram"]);
}

#[test]
fn the_tool_itself_installs_nothing() {
    let folder = folder("install");
    for words in [&["install"][..], &["install", "--prefix", "there"], &["install", "--prefix=there"]] {
        complained(&joyce(&folder, words), "the repository's script installs: ./joyce install --prefix DIR");
    }
    assert!(names(&folder).is_empty());
}
