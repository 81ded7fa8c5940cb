//! `joyce stack` as a user meets it.

mod common;

use common::{complained, folder, joyce, names, said};

#[cfg(all(target_arch = "x86_64", not(feature = "standin")))]
mod measured {
    use super::*;

    /// The functions of the header, looked for in another way than the tool's: names that a bracket follows.
    fn functions() -> Vec<String> {
        let header = concat!(env!("CARGO_MANIFEST_DIR"), "/../include/joyce.h");
        let header = std::fs::read_to_string(header).expect("the header");
        let lines = header.lines().filter(|line| !line.starts_with("static") && !line.starts_with("#define"));
        let names = lines.flat_map(|line| line.split(' ')).filter_map(|word| word.split_once('('));
        names.map(|(name, _)| name).filter(|name| name.starts_with("joyce_")).map(str::to_string).collect()
    }

    /// The bytes of a row.
    fn used(text: &str, row: &str) -> usize {
        let rows = text.lines().filter_map(|line| line.rsplit_once(' '));
        let bytes = rows.filter(|(name, _)| name.trim_end() == row).map(|(_, bytes)| bytes).next();
        bytes.and_then(|bytes| bytes.parse().ok()).unwrap_or_else(|| panic!("{row} in {text}"))
    }

    /// Only the library that ships is held to it: the model is not for the box.
    #[test]
    fn within_the_limit() {
        let output = joyce(&folder("stack_within"), &["stack"]);
        let text = said(&output);
        assert!(output.status.success(), "{text}{}", String::from_utf8_lossy(&output.stderr));
        assert!(functions().iter().all(|function| used(&text, function) <= 1_024), "{text}");
        let last = text.lines().last().expect("a last line");
        assert!(last.starts_with("most: ") && last.ends_with("; a call may use 1024 of the box's 2048"), "{last}");
    }

    #[test]
    fn every_function_is_listed() {
        let folder = folder("stack");
        let output = joyce(&folder, &["stack", "--limit", "60_000"]);
        let text = said(&output);
        assert!(output.status.success(), "{text}{}", String::from_utf8_lossy(&output.stderr));
        let functions = functions();
        assert!(functions.len() >= 18, "{functions:?}");
        // The return address at least.
        assert!(functions.iter().all(|function| used(&text, function) >= 8), "{text}");
        assert_eq!(text.lines().filter(|line| line.starts_with("joyce_")).count(), functions.len());
        assert!(text.ends_with("; a call may use 60000\n"), "{text}");
        assert_eq!(said(&joyce(&folder, &["stack", "--limit", "60_000"])), text, "two runs");
        assert!(names(&folder).is_empty());
    }

    #[test]
    fn kinds_of_step_are_listed() {
        let text = said(&joyce(&folder("stack_steps"), &["stack", "--limit", "60_000"]));
        let step = used(&text, "joyce_step");
        let shown = used(&text, "  write that alters a shown byte");
        assert!(shown <= step && used(&text, "  read") <= shown, "{text}");
        for row in ["  fetch in boot mode", "  out to F8, every value", "  scan with a tick", "  refused with 3"] {
            assert!(used(&text, row) <= step, "{row}");
        }
    }

    #[test]
    fn over_the_limit_is_a_no() {
        let output = joyce(&folder("stack_limit"), &["stack", "--limit", "100"]);
        let text = said(&output);
        assert_eq!(output.status.code(), Some(1), "{text}");
        let line = text.lines().find(|line| line.starts_with("joyce_step ")).expect("a row");
        assert!(line.ends_with("  over"), "{line}");
        let last = text.lines().last().expect("a last line");
        assert!(last.starts_with("over what a call may use: ") && last.contains("joyce_step"), "{last}");
    }
}

#[cfg(not(all(target_arch = "x86_64", not(feature = "standin"))))]
#[test]
fn only_the_library_is_measured() {
    let output = joyce(&folder("stack"), &["stack"]);
    complained(&output, "stack: measured only on the linked library");
    assert_eq!(said(&output), "");
}

#[test]
fn errors_are_clear() {
    let folder = folder("stack_errors");
    complained(&joyce(&folder, &["stack", "--limit", "few"]), "--limit: few is not a number");
    complained(&joyce(&folder, &["stack", "--limit"]), "--limit needs a value");
    complained(&joyce(&folder, &["stack", "--depth", "3"]), "unknown flag --depth");
    complained(&joyce(&folder, &["stack", "joyce_step"]), "expected flags only");
    assert!(said(&joyce(&folder, &["help"])).contains("joyce stack "));
    assert!(said(&joyce(&folder, &["stack", "--help"])).contains("joyce stack [--limit N]"));
    assert!(names(&folder).is_empty());
}
