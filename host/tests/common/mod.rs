//! What the tests of the tool share.
// Not every test needs all of it.
#![allow(dead_code)]

use std::env;
use std::fs;
use std::io::Write;
use std::path::{Path, PathBuf};
use std::process::{Command, Output, Stdio};
use std::thread;

/// A folder of its own for each test. It stands outside the repository, since some tests make links, which `rt ci` refuses in a
/// checkout; its name tells which checkout it is of.
pub fn folder(name: &str) -> PathBuf {
    let checkout: String =
        env!("CARGO_TARGET_TMPDIR").chars().map(|c| if c.is_ascii_alphanumeric() { c } else { '-' }).collect();
    let folder = env::temp_dir().join(format!("joyce-tests{checkout}")).join(name);
    let _ = fs::remove_dir_all(&folder);
    fs::create_dir_all(&folder).expect("a folder");
    folder
}

/// A command in a folder. What is known of the terminal that the tests run on is kept from it.
fn command(program: &str, folder: &Path) -> Command {
    let mut command = Command::new(program);
    command.current_dir(folder).env_remove("COLUMNS").stdin(Stdio::null());
    command
}

pub fn joyce(folder: &Path, arguments: &[&str]) -> Output {
    command(env!("CARGO_BIN_EXE_joyce"), folder).args(arguments).output().expect("the tool runs")
}

/// Runs the tool with something on standard input. It need not read all of it.
pub fn fed(folder: &Path, arguments: &[&str], input: &[u8]) -> Output {
    let mut tool = command(env!("CARGO_BIN_EXE_joyce"), folder);
    tool.args(arguments).stdin(Stdio::piped()).stdout(Stdio::piped()).stderr(Stdio::piped());
    let mut tool = tool.spawn().expect("the tool runs");
    let mut pipe = tool.stdin.take().expect("a pipe");
    let input = input.to_vec();
    let writer = thread::spawn(move || drop(pipe.write_all(&input)));
    let output = tool.wait_with_output().expect("the tool ends");
    writer.join().expect("the writer ends");
    output
}

/// A line of the shell in which $joyce is the tool.
pub fn shell(folder: &Path, line: &str) -> Output {
    let mut shell = command("sh", folder);
    shell.args(["-c", line]).env("joyce", env!("CARGO_BIN_EXE_joyce")).output().expect("a shell")
}

/// Whether the machine has a command.
pub fn has(command: &str) -> bool {
    shell(Path::new("."), &format!("command -v {command}")).status.success()
}

pub fn said(output: &Output) -> String {
    String::from_utf8_lossy(&output.stdout).into_owned()
}

/// What was written to standard error.
pub fn noted(output: &Output) -> String {
    String::from_utf8_lossy(&output.stderr).into_owned()
}

/// The tool ended with an error that says this.
pub fn complained(output: &Output, of: &str) {
    let text = noted(output);
    assert_eq!(output.status.code(), Some(2), "{text}");
    assert!(text.contains(of), "{of} in {text}");
}

/// What is in a folder, in order.
pub fn names(folder: &Path) -> Vec<String> {
    let files = fs::read_dir(folder).expect("the folder");
    let mut names: Vec<String> =
        files.map(|file| file.expect("a file").file_name().to_string_lossy().into_owned()).collect();
    names.sort();
    names
}
