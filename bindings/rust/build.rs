//! Finds libsua.a: in the folder that SUA_LIB names, else in the repository, where bin/library
//! builds it. Cargo shows what bin/library says with -vv, and where it fails.

use std::env;
use std::path::{Path, PathBuf};
use std::process::{exit, Command, Stdio};

fn main() {
    println!("cargo:rerun-if-env-changed=SUA_LIB");
    println!("cargo:rerun-if-changed=build.rs");
    if env::var("CARGO_CFG_TARGET_ARCH").as_deref() != Ok("x86_64") {
        fail("libsua.a is for x86-64 only");
    }
    let named = match env::var_os("SUA_LIB") {
        Some(folder) => PathBuf::from(folder),
        None => built(),
    };
    let folder = named.canonicalize().unwrap_or(named);
    let library = folder.join("libsua.a");
    if !library.is_file() {
        fail(&format!("there is no {}", library.display()));
    }
    println!("cargo:rerun-if-changed={}", library.display());
    println!("cargo:rustc-link-search=native={}", folder.display());
    println!("cargo:rustc-link-lib=static=sua");
}

/// The folder of the repository's library, after bin/library has built it.
fn built() -> PathBuf {
    let here = env::var_os("CARGO_MANIFEST_DIR").unwrap_or_default();
    let root = Path::new(&here).join("../..");
    let script = root.join("bin/library");
    if !script.is_file() {
        fail("set SUA_LIB to the folder of libsua.a: this crate is outside its repository");
    }
    for file in ["bin/library", "bin/proving", "crates.txt"] {
        println!("cargo:rerun-if-changed={}", root.join(file).display());
    }
    let crates = root.join("crates").read_dir();
    for source in crates.into_iter().flatten().flatten() {
        let source = source.path().join("src");
        if source.is_dir() {
            println!("cargo:rerun-if-changed={}", source.display());
        }
    }
    let run = Command::new(script)
        .stdin(Stdio::null())
        .stdout(Stdio::null())
        .status();
    if !matches!(run, Ok(status) if status.success()) {
        fail("bin/library did not build libsua.a");
    }
    root.join("target/lib")
}

fn fail(why: &str) -> ! {
    eprintln!("navrost: {}", why);
    exit(1)
}
