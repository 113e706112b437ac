//! Finds the libraries that `./tmwatch-c FOLDER` builds: in TMWATCH_LIB, which is FOLDER/lib, or otherwise with pkg-config.

use std::path::{Path, PathBuf};
use std::process::Command;

/// Returns the folder of the libraries from pkg-config.
fn by_package() -> Option<PathBuf> {
    let words = ["--variable=libdir", "tmwatch_bench"];
    let output = Command::new("pkg-config").args(words).output().ok()?;
    let folder = String::from_utf8(output.stdout).ok()?;
    let folder = folder.trim();
    (output.status.success() && !folder.is_empty()).then(|| folder.into())
}

fn find() -> Option<PathBuf> {
    let folder = match std::env::var_os("TMWATCH_LIB") {
        Some(folder) => PathBuf::from(folder),
        None => by_package()?,
    };
    folder.canonicalize().ok()
}

/// Returns the libraries in the order of the linker: each calls only those after it.
fn libraries() -> &'static [&'static str] {
    match std::env::var_os("CARGO_FEATURE_STEPS") {
        Some(_) => &["tmwatch_steps", "tmwatch_bench", "tmwatch"],
        None => &["tmwatch_bench", "tmwatch"],
    }
}

fn has_archives(folder: &Path) -> bool {
    libraries().iter().all(|name| folder.join(format!("lib{name}.a")).is_file())
}

/// Returns the linker's option that wraps all functions in which a thread waits, as in the package for pkg-config.
fn wraps(folder: &Path) -> String {
    let package = std::fs::read_to_string(folder.join("pkgconfig/tmwatch_bench.pc")).unwrap_or_default();
    package.split_whitespace().find(|word| word.starts_with("-Wl,--wrap=")).unwrap_or("-Wl,--wrap=syscall").into()
}

fn main() {
    println!("cargo:rerun-if-env-changed=TMWATCH_LIB");
    println!("cargo:rerun-if-env-changed=PKG_CONFIG_PATH");
    let Some(folder) = find().filter(|folder| has_archives(folder)) else {
        panic!("libtmwatch_bench.a and libtmwatch.a are not found: set TMWATCH_LIB to FOLDER/lib, a full path, after ./tmwatch-c FOLDER");
    };
    println!("cargo:rerun-if-changed={}", folder.display());
    println!("cargo:rustc-link-search=native={}", folder.display());
    for name in libraries() {
        println!("cargo:rustc-link-lib=static={name}");
    }
    // In the programs that are built here, so that the bench sees a thread wait for a lock of the standard library.
    for kind in ["tests", "examples"] {
        println!("cargo:rustc-link-arg-{kind}={}", wraps(&folder));
    }
    println!("cargo:rustc-env=TMWATCH_INCLUDE={}", folder.join("../include").display());
}
