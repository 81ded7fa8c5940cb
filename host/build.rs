//! Makes a table of the functions that the header has, for `joyce stack`; not where the stand-in takes the library's
//! place.

#[path = "src/header.rs"]
mod header;

use header::Prototype;
use std::env;
use std::fmt::Write;
use std::fs;
use std::path::PathBuf;

fn main() {
    println!("cargo:rerun-if-changed=build.rs");
    if env::var_os("CARGO_FEATURE_STANDIN").is_some() {
        return;
    }
    if let Err(error) = write_table() {
        eprintln!("{error}");
        std::process::exit(1);
    }
}

fn folder_named(variable: &str) -> PathBuf {
    PathBuf::from(env::var_os(variable).unwrap_or_else(|| panic!("cargo sets {variable}")))
}

/// A function that cannot be read must not go unmeasured, so it stops the build.
fn write_table() -> Result<(), String> {
    let header = folder_named("CARGO_MANIFEST_DIR").join("../include/joyce.h");
    println!("cargo:rerun-if-changed={}", header.display());
    let named = |error: String| format!("{}: {error}; host/src/header.rs reads it", header.display());
    let text = fs::read_to_string(&header).map_err(|error| named(error.to_string()))?;
    let table = table(&header::prototypes(&text).map_err(named)?);
    let path = folder_named("OUT_DIR").join("header_functions.rs");
    fs::write(&path, table).map_err(|error| format!("{}: {error}", path.display()))
}

/// The table as Rust, for src/tool/stack/functions.rs.
fn table(prototypes: &[Prototype]) -> String {
    let (mut names, mut rows) = (String::new(), String::new());
    for Prototype { name, result, parameters } in prototypes {
        let row = format!("name: {name:?}, result: {result:?}, parameters: &{parameters:?}, address: {name}");
        writeln!(names, "    fn {name}();").expect("writing to a string cannot fail");
        writeln!(rows, "    Function {{ {row} }},").expect("writing to a string cannot fail");
    }
    format!("extern \"C\" {{\n{names}}}\n\npub const FUNCTIONS: &[Function] = &[\n{rows}];\n")
}
