//! Links the static library of the interpreter.

use std::env;
use std::path::Path;
use std::process::exit;

fn main() {
    let package = env::var("CARGO_MANIFEST_DIR").expect("cargo names the package's directory");
    let directory = Path::new(&package).join("../../target/staticlib");
    let archive = directory.join("libundrelvoa.a");
    println!("cargo:rerun-if-changed={}", archive.display());
    if !archive.is_file() {
        eprintln!("There is no static library to compare: target/staticlib/libundrelvoa.a.");
        eprintln!("Make it in the repository's root with:");
        eprintln!("    (cd crates/undrelvoa && rt lib)");
        eprintln!(
            "    install -D crates/undrelvoa/out/libundrelvoa.a target/staticlib/libundrelvoa.a"
        );
        exit(1);
    }
    println!("cargo:rustc-link-search=native={}", directory.display());
    println!("cargo:rustc-link-lib=static=undrelvoa");
}
