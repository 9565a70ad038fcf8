//! Links the archives that `tools/build` writes, from AVR_LIB or the repository's target/staticlib.

use std::env;
use std::path::PathBuf;
use std::process::exit;

/// What a unit runs, and what only the service does.
const ARCHIVES: [&str; 2] = ["boundary", "service"];

fn main() {
    let folder = folder();
    println!("cargo:rerun-if-env-changed=AVR_LIB");
    println!("cargo:rustc-link-search=native={}", folder.display());
    for name in ARCHIVES {
        let archive = folder.join(format!("lib{name}.a"));
        println!("cargo:rerun-if-changed={}", archive.display());
        if !archive.is_file() {
            eprintln!("error: the proved library {} is missing", archive.display());
            eprintln!("run `tools/build {name}` in the repository's folder, or name the folder of lib{name}.a in AVR_LIB");
            exit(1);
        }
        println!("cargo:rustc-link-lib=static={name}");
    }
}

fn folder() -> PathBuf {
    match env::var_os("AVR_LIB") {
        Some(folder) => PathBuf::from(folder),
        None => package().join("../../target/staticlib"),
    }
}

fn package() -> PathBuf {
    PathBuf::from(env::var_os("CARGO_MANIFEST_DIR").expect("cargo names the package's folder"))
}
