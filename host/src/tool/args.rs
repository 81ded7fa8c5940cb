//! Plain reading of the command line: words, flags with a value, and switches without one.

use std::collections::BTreeMap;
use std::slice::Iter;

#[derive(Default)]
pub struct Args {
    pub words: Vec<String>,
    flags: BTreeMap<String, String>,
    switches: Vec<String>,
}

/// Whether an argument is a flag or a switch. A - by itself is a name.
fn is_flag(argument: &str) -> bool {
    argument.starts_with('-') && argument != "-"
}

impl Args {
    /// Takes the arguments apart. A flag or switch that is not known is an error; behind a -- all are words.
    pub fn parse(arguments: &[String], flags: &[&str], switches: &[&str]) -> Result<Args, String> {
        let mut args = Args::default();
        let mut rest = arguments.iter();
        while let Some(argument) = rest.next() {
            let (name, joined) = match argument.split_once('=') {
                Some((name, value)) if name.starts_with("--") => (name, Some(value)),
                _ => (argument.as_str(), None),
            };
            if name == "--" && joined.is_none() {
                args.words.extend(rest.by_ref().cloned());
            } else if !is_flag(argument) {
                args.words.push(argument.clone());
            } else if flags.contains(&name) {
                args.take_flag(name, joined, &mut rest)?;
            } else if !switches.contains(&name) {
                return Err(format!("unknown flag {name}"));
            } else if joined.is_some() {
                return Err(format!("{name} takes no value"));
            } else {
                args.switches.push(name.to_string());
            }
        }
        Ok(args)
    }

    /// A flag's value is joined to it by =, or the next argument.
    fn take_flag(&mut self, name: &str, joined: Option<&str>, rest: &mut Iter<String>) -> Result<(), String> {
        let value = joined.or_else(|| rest.next().map(String::as_str).filter(|next| !is_flag(next)));
        let value = value.filter(|value| !value.is_empty()).ok_or(format!("{name} needs a value"))?;
        match self.flags.insert(name.to_string(), value.to_string()) {
            None => Ok(()),
            Some(_) => Err(format!("{name} is given twice")),
        }
    }

    /// Refuses any number of words but this.
    pub fn expect_words(&self, count: usize, what: &str) -> Result<(), String> {
        if self.words.len() == count {
            return Ok(());
        }
        Err(format!("expected {what}, got {} argument(s)", self.words.len()))
    }

    /// Whether a switch is given.
    pub fn has(&self, switch: &str) -> bool {
        self.switches.iter().any(|given| given == switch)
    }

    pub fn text(&self, flag: &str) -> Option<&str> {
        self.flags.get(flag).map(String::as_str)
    }

    pub fn number(&self, flag: &str, default: u64) -> Result<u64, String> {
        match self.text(flag) {
            None => Ok(default),
            Some(text) => text.replace('_', "").parse().map_err(|_| format!("{flag}: {text} is not a number")),
        }
    }

    /// A byte in hex, with or without 0x or a closing h.
    pub fn hex_byte(&self, flag: &str, default: u8) -> Result<u8, String> {
        let text = match self.text(flag) {
            None => return Ok(default),
            Some(text) => text,
        };
        let plain = text.strip_prefix("0x").or_else(|| text.strip_prefix("0X")).unwrap_or(text);
        let plain = plain.strip_suffix(['h', 'H']).unwrap_or(plain);
        // A sign would be taken by the parser but is no hex digit.
        let digits = !plain.is_empty() && plain.chars().all(|c| c.is_ascii_hexdigit());
        match u8::from_str_radix(plain, 16) {
            Ok(byte) if digits => Ok(byte),
            _ => Err(format!("{flag}: {text} is not a byte in hex (00 to FF)")),
        }
    }
}

#[cfg(test)]
mod tests {
    use super::*;

    fn parsed(text: &str) -> Result<Args, String> {
        let words: Vec<String> = text.split(' ').map(str::to_string).collect();
        Args::parse(&words, &["-o", "--f5"], &["--all"])
    }

    #[test]
    fn flags_words_and_switches() {
        let args = parsed("a --f5=5B -o - --all - b").expect("arguments");
        assert_eq!(args.words, ["a", "-", "b"]);
        assert_eq!((args.text("--f5"), args.text("-o"), args.has("--all")), (Some("5B"), Some("-"), true));
        let args = parsed("--f5 5B -- -o --all -- -").expect("arguments");
        assert_eq!(args.words, ["-o", "--all", "--", "-"]);
        assert_eq!((args.text("--f5"), args.text("-o"), args.has("--all")), (Some("5B"), None, false));
        // What is behind the first = is the value, whatever it looks like.
        assert_eq!(parsed("--f5=-1").expect("arguments").text("--f5"), Some("-1"));
        assert_eq!(parsed("--f5=a=b").expect("arguments").text("--f5"), Some("a=b"));
    }

    #[test]
    fn errors() {
        for (text, error) in [
            ("-o", "-o needs a value"),
            ("-o --f5", "-o needs a value"),
            ("-o --", "-o needs a value"),
            ("--f5=", "--f5 needs a value"),
            ("-o x -o y", "-o is given twice"),
            ("--f5=1 --f5 1", "--f5 is given twice"),
            ("--all=yes", "--all takes no value"),
            ("--colour=red", "unknown flag --colour"),
            ("-o=x", "unknown flag -o=x"),
            ("-ox", "unknown flag -ox"),
            ("--=x", "unknown flag --"),
        ] {
            assert_eq!(parsed(text).err().as_deref(), Some(error), "{text}");
        }
    }
}
