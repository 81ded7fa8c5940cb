//! Tells cargo where the proved library is, unless the program brings the joyce_ functions itself.

use std::env;
use std::path::PathBuf;

fn main() {
    println!("cargo:rerun-if-env-changed=JOYCE_LIB");
    if env::var_os("CARGO_FEATURE_UNLINKED").is_some() {
        return;
    }
    let folder = library_folder();
    let library = folder.join("libjoyce.a");
    println!("cargo:rerun-if-changed={}", library.display());
    if !library.is_file() {
        println!("cargo:warning={} is missing; set JOYCE_LIB to its folder, as a whole path", library.display());
    }
    println!("cargo:rustc-link-search=native={}", folder.display());
    println!("cargo:rustc-link-lib=static=joyce");
}

fn library_folder() -> PathBuf {
    let here = env::var_os("CARGO_MANIFEST_DIR").expect("cargo sets CARGO_MANIFEST_DIR");
    // The linker runs elsewhere. A whole path replaces the one that it is joined to.
    PathBuf::from(here).join(env::var_os("JOYCE_LIB").unwrap_or_else(|| "../../target/staticlib".into()))
}
