//! The commands, with the flags that each takes, and the texts about them.

use super::args::Args;
use super::{archive, bench, demo, diff, fuzz, out, reach, render, stack};
use joyce_host::machine::Machine;

const HELP: &str = include_str!("../../help/help");
const VERSION: &str = include_str!("../../help/version");

/// What `COMMAND --help` prints.
const TEXTS: [(&str, &str); 9] = [
    ("demo", include_str!("../../help/demo")),
    ("render", include_str!("../../help/render")),
    ("diff", include_str!("../../help/diff")),
    ("reach", include_str!("../../help/reach")),
    ("archive", include_str!("../../help/archive")),
    ("fuzz", include_str!("../../help/fuzz")),
    ("bench", include_str!("../../help/bench")),
    ("stack", include_str!("../../help/stack")),
    ("install", include_str!("../../help/install")),
];

struct Command {
    name: &'static str,
    /// Flags take a value, switches none.
    flags: &'static [&'static str],
    switches: &'static [&'static str],
    /// True for success, false for another answer that is no.
    run: fn(&dyn Machine, &Args) -> Result<bool, String>,
}

const COMMANDS: [Command; 14] = [
    Command { name: "demo", flags: &["-o", "--html"], switches: &[], run: demo::run },
    Command { name: "render", flags: &["--f5", "--f6", "--f7", "--rate", "-o"], switches: &[], run: render::run },
    Command { name: "diff", flags: &[], switches: &[], run: diff::run },
    Command { name: "reach", flags: &[], switches: &[], run: reach::run },
    Command { name: "archive new", flags: &[], switches: &[], run: archive::new },
    Command { name: "archive add", flags: &["--bench", "--number", "--shown"], switches: &[], run: archive::add },
    Command { name: "archive list", flags: &[], switches: &[], run: archive::list },
    Command { name: "archive show", flags: &[], switches: &[], run: archive::show },
    Command { name: "archive extract", flags: &["-o"], switches: &["--all"], run: archive::extract },
    Command { name: "archive find", flags: &["--bench", "--number"], switches: &[], run: archive::find },
    Command { name: "archive check", flags: &[], switches: &[], run: archive::check },
    Command { name: "fuzz", flags: &["--calls", "--seed", "--episode", "--fault"], switches: &[], run: fuzz::run },
    Command { name: "bench", flags: &["--ms"], switches: &[], run: bench::run },
    Command { name: "stack", flags: &["--limit"], switches: &[], run: stack::run },
];

/// True for success, false for a difference that was found, or another answer that is no.
pub fn run(machine: &dyn Machine, arguments: &[String]) -> Result<bool, String> {
    let (first, rest) = arguments.split_first().ok_or(format!("no command\n{}", HELP.trim_end()))?;
    match first.as_str() {
        "help" | "--help" | "-h" => return out::write(HELP).map(|()| true),
        "version" | "--version" => return out::write(VERSION).map(|()| true),
        _ => {}
    }
    let text = TEXTS.iter().find(|(name, _)| name == first);
    let (_, text) = text.ok_or(format!("unknown command {first}; joyce help names them"))?;
    if rest.iter().take_while(|word| *word != "--").any(|word| word == "--help") {
        return out::write(text).map(|()| true);
    }
    let (command, rest) = found(first, rest)?;
    let args = Args::parse(rest, command.flags, command.switches);
    (command.run)(machine, &args.map_err(|error| format!("{error}; joyce {first} --help tells more"))?)
}

/// The command that is meant, and the arguments behind it.
fn found<'a>(first: &str, rest: &'a [String]) -> Result<(&'static Command, &'a [String]), String> {
    match first {
        "install" => Err("install: the repository's script installs: ./joyce install --prefix DIR".to_string()),
        "archive" => {
            let (second, rest) = rest.split_first().ok_or(format!("archive: expected {}", of_archives()))?;
            let command = named(&format!("archive {second}"));
            let command = command.ok_or(format!("archive: unknown command {second}; expected {}", of_archives()))?;
            Ok((command, rest))
        }
        _ => Ok((named(first).expect("a command for each text"), rest)),
    }
}

fn named(name: &str) -> Option<&'static Command> {
    COMMANDS.iter().find(|command| command.name == name)
}

/// The commands of archives, in words.
fn of_archives() -> String {
    let names: Vec<&str> = COMMANDS.iter().filter_map(|command| command.name.strip_prefix("archive ")).collect();
    let (last, others) = names.split_last().expect("commands");
    format!("{} or {last}; joyce archive --help tells more", others.join(", "))
}

#[cfg(test)]
mod tests {
    use super::*;

    /// The manual page's synopses of a command, dashes plain.
    fn synopses(name: &str) -> String {
        let manual = include_str!("../../help/joyce.1").replace("\\-", "-");
        let all = manual.split(".SH ").find(|section| section.starts_with("SYNOPSIS\n")).expect("synopses");
        let start = format!(".B joyce {name}\n");
        all["SYNOPSIS\n".len()..].split(".br\n").filter(|synopsis| synopsis.starts_with(&start)).collect()
    }

    fn text(command: &Command) -> &'static str {
        TEXTS.iter().find(|(name, _)| is_of(command, name)).expect("a text for each command").1
    }

    /// Whether a text has a word, among spaces and brackets.
    fn has(text: &str, word: &str) -> bool {
        text.split(|c: char| c.is_whitespace() || "[]|,;".contains(c)).any(|found| found == word)
    }

    /// The flags and switches that a text names.
    fn flags(text: &str) -> Vec<&str> {
        let words = text.split(|c: char| c.is_whitespace() || "[]|,;=".contains(c));
        words.filter(|word| word.starts_with('-') && word.len() > 1).collect()
    }

    /// Whether a command is this one, or one of it.
    fn is_of(command: &Command, name: &str) -> bool {
        command.name.split(' ').next() == Some(name)
    }

    #[test]
    fn every_command_is_in_help_text_and_manual() {
        for command in &COMMANDS {
            let name = command.name;
            assert!(name.split(' ').all(|word| has(HELP, word)), "{name}");
            assert!(text(command).contains(&format!("joyce {name}")), "{name}");
            assert!(!synopses(name).is_empty(), "{name}");
        }
        for (name, _) in TEXTS {
            assert!(HELP.contains(&format!("joyce {name} ")), "{name}");
            assert!(name == "install" || COMMANDS.iter().any(|command| is_of(command, name)), "{name}");
        }
        assert!(["--version", "--help"].iter().all(|flag| has(HELP, flag)));
    }

    #[test]
    fn every_flag_is_in_its_text_and_in_the_manual() {
        for Command { name, flags: taken, switches, .. } in &COMMANDS {
            let synopses = synopses(name);
            let taken = [*taken, *switches].concat();
            for flag in &taken {
                assert!(has(text(named(name).expect("itself")), flag), "{flag} of {name}");
                assert!(has(&synopses, flag), "{flag} of {name} in {synopses}");
            }
            assert!(flags(&synopses).iter().all(|flag| taken.contains(flag)), "{synopses}");
        }
    }

    #[test]
    fn every_flag_of_a_text_is_taken() {
        for (name, text) in TEXTS.iter().filter(|(name, _)| *name != "install") {
            let commands = COMMANDS.iter().filter(|command| is_of(command, name));
            let known: Vec<&str> = commands.flat_map(|command| [command.flags, command.switches].concat()).collect();
            assert!(flags(text).iter().all(|flag| known.contains(flag)), "{name}: {:?}", flags(text));
        }
    }
}
