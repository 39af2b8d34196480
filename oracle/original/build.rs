//! Prepares the original's files. `BVM_SRC` names the folder that holds them;
//! without it the crate builds with no original, and says so when asked.
//!
//! Most files are taken as they are, by `#[path]`. heap.rs gets two edits, and
//! exec.rs and program.rs are cut down to the parts the coroutine code needs.
//! Every edit is listed in docs/rules/DIFFERENCES.md.

use std::fs;
use std::path::{Path, PathBuf};
use std::{env, process};

fn main() {
    println!("cargo::rerun-if-env-changed=BVM_SRC");
    println!("cargo::rerun-if-changed=build.rs");
    println!("cargo::rustc-check-cfg=cfg(original)");
    let Some(src) = env::var_os("BVM_SRC").filter(|s| !s.is_empty()) else {
        return;
    };
    let src = fs::canonicalize(&src).unwrap_or_else(|e| fail(&format!("BVM_SRC: {e}")));
    let out = PathBuf::from(env::var_os("OUT_DIR").expect("cargo sets OUT_DIR"));
    let here = PathBuf::from(env::var_os("CARGO_MANIFEST_DIR").expect("cargo sets it"));

    let mut mods = String::new();
    for name in ["coro", "fault", "hash", "int", "machine", "value"] {
        let file = src.join(name).with_extension("rs");
        println!("cargo::rerun-if-changed={}", file.display());
        mods += &declare(name, &file);
    }
    for (name, text) in [
        ("heap", heap(&read(&src, "heap.rs"), &here)),
        ("exec", exec(&read(&src, "exec.rs"))),
        ("program", program(&read(&src, "program.rs"))),
    ] {
        let file = out.join(name).with_extension("rs");
        write(&file, &text);
        mods += &declare(name, &file);
    }
    write(&out.join("original.rs"), &mods);
    println!("cargo::rustc-cfg=original");
    println!("cargo::metadata=here=1");
}

/// A module of the crate root, read from `file`. The original declares far
/// more than the coroutine code calls.
fn declare(name: &str, file: &Path) -> String {
    format!("#[allow(clippy::all, dead_code, unexpected_cfgs)]\n#[path = {file:?}]\nmod {name};\n")
}

/// heap.rs: no collection, and a child module of ours that may see its
/// private fields.
fn heap(text: &str, here: &Path) -> String {
    let wants = "self.since_gc >= self.threshold\n            || (self.used.saturating_add(extra) > self.limit && self.since_gc >= self.limit / 8)";
    assert_eq!(text.matches(wants).count(), 1, "heap.rs: wants_gc changed");
    let never = "let _ = extra;\n        false";
    let access = here.join("src/standin/heap_access.rs");
    println!("cargo::rerun-if-changed={}", access.display());
    format!("{}\n#[path = {access:?}]\npub(crate) mod access;\n", text.replace(wants, never))
}

/// exec.rs: `Step`, `Cx` and `charge`.
fn exec(text: &str) -> String {
    let uses = "use alloc::vec::Vec;
use bytecode_lang::ErrorKind;
use crate::dynv;
use crate::fault::Fault;
use crate::machine::{Charge, Machine};
use crate::program::FuncInfo;

";
    let step = cut(
        text,
        "/// What the out-of-line handler tells the dispatch loop.",
        "/// Every instruction not handled inline by the dispatch loop",
    );
    let charge = cut(
        text,
        "/// One unit of fuel for the out-of-line instructions",
        "/// The call shapes of a function",
    );
    format!("{uses}{step}{charge}")
}

/// program.rs: the tables and their lookups.
fn program(text: &str) -> String {
    let uses = "use alloc::boxed::Box;
use alloc::vec;
use alloc::vec::Vec;
use bytecode_lang::{Callee, FuncId, Inst, Module, ValType};
use crate::host::HostFn;

";
    let tables =
        cut(text, "/// Number of hook codes LSB defines", "/// Why a module could not be loaded.");
    let lookups = cut(
        text,
        "    /// The code of a function (its index was checked at load).",
        "fn canon_with(",
    );
    let count = cut(text, "/// A `u32` count of a slice", "impl Program {");
    format!("{uses}{tables}{count}impl Program {{\n{lookups}")
}

/// The text from `from` up to `to`, both of which must be there once.
fn cut<'a>(text: &'a str, from: &str, to: &str) -> &'a str {
    for mark in [from, to] {
        assert_eq!(text.matches(mark).count(), 1, "mark not found once: {mark}");
    }
    let start = text.find(from).expect("counted");
    let end = text.find(to).expect("counted");
    &text[start..end]
}

fn read(src: &Path, name: &str) -> String {
    let file = src.join(name);
    println!("cargo::rerun-if-changed={}", file.display());
    fs::read_to_string(&file).unwrap_or_else(|e| fail(&format!("{}: {e}", file.display())))
}

fn write(file: &Path, text: &str) {
    fs::write(file, text).unwrap_or_else(|e| fail(&format!("{}: {e}", file.display())));
}

fn fail(why: &str) -> ! {
    eprintln!("{why}");
    process::exit(1)
}
