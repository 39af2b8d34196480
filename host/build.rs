//! Finds the proved library, `libhumdelzi.a`, and takes it only if it is what was
//! recorded when it was made.
//!
//! `HUMDELZI_LIB` names its folder. Without it: `../lib`, in a release, or
//! `../target/staticlib`, in the repository. In a release the archive's sum is
//! that of `PROVENANCE`, beside the folder. In the repository the sources are
//! those that the archive was made of, by their sum (`tests/sum`). Nothing is
//! proved or built here, and nothing is written.

#[path = "build/sha256.rs"]
mod sha256;

use std::path::{self, Path, PathBuf};
use std::{env, fs, process};

const ARCHIVE: &str = "libhumdelzi.a";
/// What the library is made of, in the repository.
const SOURCES: [&str; 3] = ["crates", "crates.txt", "toolchain"];

fn main() {
    println!("cargo::rerun-if-changed=build.rs");
    println!("cargo::rerun-if-changed=build/sha256.rs");
    println!("cargo::rerun-if-env-changed=HUMDELZI_LIB");
    let here = PathBuf::from(env::var_os("CARGO_MANIFEST_DIR").expect("cargo sets it"));
    let root = here.parent().unwrap_or(&here).to_path_buf();
    let lib = folder(&root);
    let archive = lib.join(ARCHIVE);
    println!("cargo::rerun-if-changed={}", archive.display());
    let Ok(bytes) = fs::read(&archive) else {
        fail(&root, &format!("{} is not there", archive.display()));
    };
    let sum = sha256::sha256(&bytes);
    let beside = told(&lib.join(format!("{ARCHIVE}.sha256")));
    let beside = beside.split_whitespace().next().unwrap_or("none");
    if sum != beside {
        let archive = archive.display();
        fail(&root, &format!("the sum of {archive} is {sum}, and the recorded one is {beside}"));
    }
    let own = fs::canonicalize(root.join("target/staticlib"));
    if own.is_ok_and(|own| fs::canonicalize(&lib).is_ok_and(|lib| lib == own)) {
        of_these_sources(&root, &lib, &sum);
    } else {
        of_its_provenance(&root, &lib, &sum);
    }
    println!("cargo::rustc-link-search=native={}", lib.display());
    println!("cargo::rustc-link-lib=static=humdelzi");
    // for the tests, which link C programs with it
    println!("cargo::rustc-env=HUMDELZI_LIB_FOUND={}", lib.display());
}

/// Whether it can make the library.
fn repository(root: &Path) -> bool {
    root.join("tests/archives").is_file()
}

fn folder(root: &Path) -> PathBuf {
    match env::var_os("HUMDELZI_LIB").filter(|l| !l.is_empty()) {
        // a relative path counts from the crate's folder, and is told in full
        Some(given) => path::absolute(&given).unwrap_or_else(|_| given.into()),
        None if repository(root) => root.join("target/staticlib"),
        None => root.join("lib"),
    }
}

/// A file that decides: its text, or none.
fn told(file: &Path) -> String {
    println!("cargo::rerun-if-changed={}", file.display());
    fs::read_to_string(file).unwrap_or_default()
}

/// A release: `PROVENANCE` has the sum.
fn of_its_provenance(root: &Path, lib: &Path, sum: &str) {
    let file = lib.parent().unwrap_or(lib).join("PROVENANCE");
    let text = told(&file);
    let said = text.lines().find_map(|l| l.strip_prefix("archive "));
    let said = said.and_then(|l| l.split_whitespace().next()).unwrap_or("none");
    if sum != said {
        let (archive, file) = (lib.join(ARCHIVE).display().to_string(), file.display());
        fail(root, &format!("the sum of {archive} is {sum}, and that in {file} is {said}"));
    }
}

/// The repository's own archive: `tests/archives` has recorded of which sources
/// it is. Cargo comes here again when the time of a source has changed.
fn of_these_sources(root: &Path, lib: &Path, sum: &str) {
    for name in SOURCES {
        println!("cargo::rerun-if-changed={}", root.join(name).display());
    }
    let now = process::Command::new(root.join("tests/sum")).args(SOURCES).output();
    let Some(now) = now.ok().filter(|o| o.status.success()) else {
        fail(root, &format!("{} fails", root.join("tests/sum").display()));
    };
    let now = String::from_utf8_lossy(&now.stdout).into_owned();
    if told(&lib.join("humdelzi.sources")).trim() != format!("{} {sum}", now.trim()) {
        fail(root, &format!("{} was made of other sources", lib.join(ARCHIVE).display()));
    }
}

fn fail(root: &Path, why: &str) -> ! {
    eprintln!("humdelzi: {why}");
    if repository(root) {
        eprintln!("To prove what has changed and make the library (it takes minutes), then build:");
        eprintln!("    {}/tests/archives", root.display());
        eprintln!("    cargo build");
        eprintln!("Or, without the Rattle toolchain, take that of a release:");
    } else {
        eprintln!("Take the library of a release, whole as it was made:");
    }
    eprintln!("    export HUMDELZI_LIB=/path/to/humdelzi-{}/lib", env!("CARGO_PKG_VERSION"));
    eprintln!("    cargo build");
    process::exit(1)
}
