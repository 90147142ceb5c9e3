//! Finds the proved archive and has it linked: RCL_LIBRARY names it, else it is the one that
//! `bin/archive` writes in this repository.

use std::path::{Path, PathBuf};
use std::{env, fs, process};

fn main() {
    println!("cargo:rerun-if-env-changed=RCL_LIBRARY");
    let archive = archive();
    println!("cargo:rerun-if-changed={}", archive.display());
    if !archive.is_file() {
        missing(&archive);
    }
    link(&archive);
}

/// A relative RCL_LIBRARY counts from this crate's directory, where cargo runs this.
fn archive() -> PathBuf {
    let here = PathBuf::from(env::var_os("CARGO_MANIFEST_DIR").expect("Cargo sets it."));
    match env::var_os("RCL_LIBRARY").filter(|name| !name.is_empty()) {
        Some(name) => here.join(name),
        None => here.join("../../target/staticlib/librcl.a"),
    }
}

fn missing(archive: &Path) -> ! {
    eprintln!("The static library is missing: {}", archive.display());
    eprintln!("Run `bin/archive` at the repository's top, or set RCL_LIBRARY to the archive.");
    process::exit(1);
}

/// The linker looks for `librcl.a`, and the archive may have another name: it gets this one
/// where cargo lets a build write.
fn link(archive: &Path) {
    let out = PathBuf::from(env::var_os("OUT_DIR").expect("Cargo sets it."));
    let bytes = fs::read(archive).expect("The archive can be read.");
    fs::write(out.join("librcl.a"), bytes).expect("Cargo's directory can be written to.");
    println!("cargo:rustc-link-search=native={}", out.display());
    println!("cargo:rustc-link-lib=static=rcl");
}
