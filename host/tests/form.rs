//! What is written: each call has its four parts in Rust and in C, the fault
//! sheet has one wording, the version is one.

use std::fs;
use std::path::Path;

use humdelzi::{Fault, Word};

fn text(file: &str) -> String {
    let path = Path::new(env!("CARGO_MANIFEST_DIR")).join(file);
    fs::read_to_string(&path).unwrap_or_else(|e| panic!("{}: {e}", path.display()))
}

const CALLS: [&str; 28] = [
    "coro_new",
    "coro_new_indirect",
    "spawn",
    "yield",
    "yield_kv",
    "await",
    "resume",
    "resume_throw",
    "coro_close",
    "coro_status",
    "coro_current",
    "coro_key",
    "coro_result",
    "iter_next",
    "finish",
    "unwind",
    "spawn_task",
    "set_up",
    "host_call",
    "host_entry",
    "function_call",
    "put_word",
    "make_iterator",
    "take_outcome",
    "hand_over",
    "grant",
    "stop_run",
    "look",
];

/// The comment that ends right before the line that begins with `head`.
fn above<'a>(all: &'a str, heads: &[String], comment: impl Fn(&str) -> bool) -> Vec<&'a str> {
    let lines: Vec<&str> = all.lines().collect();
    let at = lines.iter().position(|l| heads.iter().any(|h| l.trim_start().starts_with(h)));
    let at = at.unwrap_or_else(|| panic!("no line begins with {heads:?}"));
    let mut found: Vec<&str> =
        lines[..at].iter().rev().take_while(|l| comment(l.trim_start())).copied().collect();
    found.reverse();
    found
}

/// The four parts, in order, each once.
fn four(call: &str, comment: &[&str], parts: [&str; 4]) {
    let found: Vec<&str> =
        comment.iter().filter_map(|l| parts.into_iter().find(|p| l.contains(p))).collect();
    assert_eq!(found, parts, "{call}: {comment:#?}");
}

#[test]
fn each_call_has_its_four_parts() {
    let rust: String = ["src/instructions.rs", "src/added.rs", "src/view.rs"].map(text).concat();
    let c = text("include/humdelzi_calls.h");
    for call in CALLS {
        let heads = ["(", "_("].map(|end| format!("pub fn {call}{end}"));
        let heads = [heads[0].clone(), heads[1].clone(), format!("{call}("), format!("{call}_(")];
        let is = |l: &str| l.starts_with("///") || l.starts_with("#[");
        let parts = ["- **Needs**", "- **Does**", "- **Answers**", "- **Leaves**"];
        let comment = above(&rust, &heads, is);
        four(call, &comment, parts);
        let heads =
            [format!("BVM_CALL({call},"), format!("static inline bvm_slice bvm_machine_{call}(")];
        let is = |l: &str| l.starts_with("/* ") || l.starts_with('*');
        four(call, &above(&c, &heads, is), ["needs:   ", "does:    ", "answers: ", "leaves:  "]);
    }
}

#[test]
fn the_fault_sheet_in_one_wording() {
    let header = text("include/humdelzi.h");
    let source = text("src/fault.rs").replace('`', "").replace("\n    /// ", " ");
    for number in 1..=17 {
        let fault = match number {
            17 => Fault::Throw(Word::NIL),
            n => FAULTS[n - 1],
        };
        assert_eq!(fault.number(), number as u64);
        let words = fault.words();
        assert!(fault.to_string().starts_with(&format!("{number}: {words}")));
        assert!(source.contains(&format!(" {number}: {words}.")), "the comment of {number}");
        assert!(header.contains(&format!("/* {number:2} {words}")), "the enum of C: {number}");
        assert!(header.contains(&format!("\"{words}")), "the words of C: {number}");
    }
    assert_eq!(Fault::Throw(Word(7)).to_string(), "17: a thrown or uncaught word (#7)");
}

const FAULTS: [Fault; 16] = [
    Fault::NullReference,
    Fault::TypeError,
    Fault::InvalidCoroState,
    Fault::StackOverflow,
    Fault::CannotSuspend,
    Fault::CloseIgnored,
    Fault::ArithOverflow,
    Fault::NoScheduler,
    Fault::OutOfMemory,
    Fault::OutOfFuel,
    Fault::Unsound,
    Fault::NoFrame,
    Fault::BadOperand,
    Fault::Full,
    Fault::Busy,
    Fault::GrantTooLarge,
];

#[test]
fn one_version() {
    let header = text("include/humdelzi.h");
    let line = format!("#define BVM_VERSION \"{}\"", env!("CARGO_PKG_VERSION"));
    assert!(header.lines().any(|l| l == line), "{line}");
}
