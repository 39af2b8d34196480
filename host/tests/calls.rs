//! The typed side against the definitions: the words of each call are those of
//! `op_words` (`crates/memory_calls/specs/Call.antt`), also through the C header, and
//! so are a set-up's.

use std::path::{Path, PathBuf};
use std::process::Command;
use std::{env, fs};

use humdelzi::*;

fn here() -> &'static Path {
    Path::new(env!("CARGO_MANIFEST_DIR"))
}

/// The lines of `op_words`: a call's name and its six parts, as they stand there.
fn definition() -> Vec<(String, Vec<String>)> {
    let file = here().join("../crates/memory_calls/specs/Call.antt");
    let text = fs::read_to_string(file).expect("the definition");
    let lines = text.lines().filter_map(|l| l.strip_prefix("op_words ")?.split_once(" = six "));
    let found = lines.map(|(call, words)| {
        let name = call.trim_start_matches('(').split([' ', ')']).next().unwrap_or_default();
        (name.trim_start_matches("Op.").to_string(), parts(words))
    });
    found.collect()
}

/// Parts between spaces; what stands in brackets is one.
fn parts(words: &str) -> Vec<String> {
    let mut found: Vec<String> = Vec::new();
    let mut deep = false;
    for w in words.split(' ') {
        match found.last_mut() {
            Some(last) if deep => *last = format!("{last} {w}"),
            _ => found.push(w.to_string()),
        }
        deep = (deep || w.starts_with('(')) && !w.ends_with(')');
    }
    found
}

/// The words of a call by its definition, with these for its operands.
fn defined(call: &str, operands: &[(&str, u64)]) -> [u64; 6] {
    let all = definition();
    let (_, words) = all.iter().find(|(name, _)| name == call).expect("a line for the call");
    let word = |w: &String| match operands.iter().find(|(name, _)| name == w) {
        Some((_, n)) => *n,
        None => w.parse().unwrap_or_else(|_| panic!("{call}: {w} is no operand here")),
    };
    let words: Vec<u64> = words.iter().map(word).collect();
    words.try_into().expect("six")
}

/// A call with numbers of their own for its operands, its name in the
/// definition and its operands there, and its name in C.
type Tried = (Call, &'static str, Vec<(&'static str, u64)>, &'static str);

fn each() -> Vec<Tried> {
    let (p, f, r) = (Pc, FunctionId, Reg);
    let (a, b, c, d) = (r(12), r(13), r(14), r(15));
    let w = Word;
    let instruction = |rest: &[&'static str]| {
        let names = ["pc"].iter().chain(rest);
        names.zip(11..).map(|(&name, n)| (name, n)).collect::<Vec<_>>()
    };
    let plain = |names: &[&'static str]| names.iter().zip(11..).map(|(&x, n)| (x, n)).collect();
    let pc = p(11);
    let thrown = |n| {
        vec![
            ("(number_of f)", 17),
            ("(word_of f)", 12),
            ("(opt_code pc)", n),
            ("(opt_word pc)", n * 14),
        ]
    };
    vec![
        (
            Call::CoroNew { pc, dst: a, func: f(13), argc: 14 },
            "CoroNew",
            instruction(&["dst", "f", "argc"]),
            "coro_new",
        ),
        (
            Call::CoroNewIndirect { pc, dst: a, callee: b, argc: 14 },
            "CoroNewIndirect",
            instruction(&["dst", "callee", "argc"]),
            "coro_new_indirect",
        ),
        (
            Call::Spawn { pc, dst: a, callee: b, argc: 14 },
            "Spawn",
            instruction(&["dst", "callee", "argc"]),
            "spawn",
        ),
        (Call::Yield { pc, dst: a, src: b }, "Yield", instruction(&["dst", "src"]), "yield"),
        (
            Call::YieldKv { pc, dst: a, src: b, key: c },
            "YieldKv",
            instruction(&["dst", "src", "key"]),
            "yield_kv",
        ),
        (Call::Await { pc, dst: a, src: b }, "Await", instruction(&["dst", "src"]), "await"),
        (
            Call::Resume { pc, dst: a, coro: b, src: c },
            "Resume",
            instruction(&["dst", "c", "src"]),
            "resume",
        ),
        (
            Call::ResumeThrow { pc, dst: a, coro: b, src: c },
            "ResumeThrow",
            instruction(&["dst", "c", "src"]),
            "resume_throw",
        ),
        (
            Call::CoroClose { pc, dst: a, coro: b, src: c },
            "CoroClose",
            instruction(&["dst", "c", "src"]),
            "coro_close",
        ),
        (
            Call::CoroStatus { pc, dst: a, coro: b },
            "CoroStatus",
            instruction(&["dst", "c"]),
            "coro_status",
        ),
        (Call::CoroCurrent { pc, dst: a }, "CoroCurrent", instruction(&["dst"]), "coro_current"),
        (Call::CoroKey { pc, dst: a, coro: b }, "CoroKey", instruction(&["dst", "c"]), "coro_key"),
        (
            Call::CoroResult { pc, dst: a, coro: b },
            "CoroResult",
            instruction(&["dst", "c"]),
            "coro_result",
        ),
        (
            Call::IterNext { pc, has: a, iter: b, val: c, src: d },
            "IterNext",
            instruction(&["has", "iter", "val", "src"]),
            "iter_next",
        ),
        (
            Call::Finish { value: Value::U64(12) },
            "Finish",
            vec![("(kind_code kind)", 3), ("v", 12)],
            "finish",
        ),
        (Call::Unwind { fault: Fault::Throw(w(12)), pc: None }, "Unwind", thrown(0), "unwind"),
        (
            Call::Unwind { fault: Fault::Throw(w(12)), pc: Some(p(14)) },
            "Unwind",
            thrown(1),
            "unwind_at",
        ),
        (Call::SpawnTask { word: w(11) }, "SpawnTask", plain(&["v"]), "spawn_task"),
        (Call::HostCall { func: f(11) }, "HostCall", plain(&["f"]), "host_call"),
        (
            Call::HostEntry { coro: w(11), word: w(12) },
            "HostEntry",
            plain(&["c", "v"]),
            "host_entry",
        ),
        (
            Call::FunctionCall { pc, func: f(12), cont: Cont::Value(c) },
            "FunctionCall",
            vec![("pc", 11), ("f", 12), ("(cont_code k)", 3), ("(cont_reg k)", 14)],
            "function_call",
        ),
        (Call::PutWord { reg: r(11), word: w(12) }, "PutWord", plain(&["r", "v"]), "put_word"),
        (Call::MakeIterator { src: w(11) }, "MakeIterator", plain(&["v"]), "make_iterator"),
        (Call::TakeOutcome, "TakeOutcome", vec![], "take_outcome"),
        (Call::HandOver { coro: w(11) }, "HandOver", plain(&["v"]), "hand_over"),
        (Call::Grant { amount: 11 }, "Grant", plain(&["n"]), "grant"),
        (Call::StopRun, "StopRun", vec![], "stop_run"),
        (Call::Look, "Look", vec![], ""),
    ]
}

#[test]
fn the_words_of_each_call() {
    let all = each();
    for (call, name, operands, _) in &all {
        assert_eq!(call.words(), defined(name, operands), "{call:?}");
    }
    for (name, _) in definition() {
        assert!(all.iter().any(|(_, n, ..)| *n == name), "{name} is not tried");
    }
    let minus = u64::MAX;
    let values = [
        (Value::None, [0, 0]),
        (Value::Word(Word(7)), [1, 7]),
        (Value::I64(-1), [2, minus]),
        (Value::U64(minus), [3, minus]),
    ];
    for (value, words) in values {
        assert_eq!(Call::Finish { value }.words()[1..3], words);
    }
    let conts = [
        Cont::Entry,
        Cont::Write(Reg(7)),
        Cont::Dyn(Reg(7)),
        Cont::Value(Reg(7)),
        Cont::Discard,
        Cont::Coro,
    ];
    for (cont, words) in conts.into_iter().zip([[0, 0], [1, 7], [2, 7], [3, 7], [4, 0], [5, 0]]) {
        let call = Call::FunctionCall { pc: Pc(0), func: FunctionId(0), cont };
        assert_eq!(call.words()[3..5], words);
    }
    for n in 1..=16 {
        let call = Call::Unwind { fault: FAULTS[n as usize - 1], pc: None };
        assert_eq!(call.words(), [15, n, 0, 0, 0, 0]);
    }
}

const FAULTS: [Fault; 16] = [
    Fault::NullReference,
    Fault::TypeError,
    Fault::InvalidCoroState,
    Fault::StackOverflow,
    Fault::CannotSuspend,
    Fault::CloseIgnored,
    Fault::ArithOverflow,
    Fault::NoScheduler,
    Fault::OutOfMemory,
    Fault::OutOfFuel,
    Fault::Unsound,
    Fault::NoFrame,
    Fault::BadOperand,
    Fault::Full,
    Fault::Busy,
    Fault::GrantTooLarge,
];

#[test]
fn the_words_of_each_call_in_c() {
    for flags in [&[][..], &["-DBVM_UNCHECKED"]] {
        let program: PathBuf =
            env::temp_dir().join(format!("humdelzi-words-{}-{}", flags.len(), std::process::id()));
        let made = Command::new("cc")
            .args(["-std=c11", "-O1", "-Wall", "-Wextra", "-Wpedantic", "-Werror"])
            .args(flags)
            .arg("-I")
            .arg(here().join("include"))
            .arg(here().join("tests/c/words.c"))
            .arg("-o")
            .arg(&program)
            .output();
        let Ok(made) = made else {
            println!("words in C: skipped: cc is not here");
            return;
        };
        assert!(made.status.success(), "{}", String::from_utf8_lossy(&made.stderr));
        let ran = Command::new(&program).output().expect("the program runs");
        let _ = fs::remove_file(&program);
        let told = String::from_utf8_lossy(&ran.stdout);
        let lines: Vec<&str> = told.lines().collect();
        let all = each();
        let named: Vec<_> = all.iter().filter(|(.., c)| !c.is_empty()).collect();
        let (lines, set_up) = lines.split_at(named.len());
        let words: Vec<String> = example_setup().words().iter().map(u64::to_string).collect();
        assert_eq!(set_up, [format!("set_up {}", words.join(" "))]);
        for (&line, (_, name, operands, c)) in lines.iter().zip(named) {
            let words = defined(name, operands).map(|w| w.to_string());
            assert_eq!(line, format!("{c} {}", words.join(" ")));
        }
        assert!(
            ran.status.success(),
            "a slice, a record's word or what is returned is not as it should be"
        );
    }
}

/// A set-up in which every number is another; `tests/c/words.c` has the same.
fn example_setup() -> Setup {
    let handler = |n| Handler { start: Pc(n), end: Pc(n + 1), target: Pc(n + 2), catch: Reg(1) };
    let costs =
        Costs { frame: 11, coroutine: 12, object: 13, integer: 14, error: 15, iterator: 16 };
    let two = Function::new(3).parameters(2).handler(handler(30)).handler(handler(40));
    let limits = Setup::new().depth(5).stack(6).rows(7).slots(8).memory(9);
    limits.costs(costs).hook(FunctionId(1)).function(Function::new(4)).function(two)
}

#[test]
fn the_words_of_a_set_up() {
    let mut words = vec![5, 6, 7, 8, 9, 11, 12, 13, 14, 15, 16, 1, 1, 2, 4, 0, 0];
    words.resize(14 + 35, 0);
    words.extend([3, 2, 2, 30, 31, 32, 1, 40, 41, 42, 1]);
    words.resize(14 + 70, 0);
    assert_eq!(example_setup().words(), words);
    // read back from a machine, where a function wider than the stack has rows as wide
    let wide = example_setup().slots(9).memory(1 << 20).function(Function::new(40));
    let (m, fuel) = wide.machine().unwrap();
    assert!(m.check(&fuel));
    assert_eq!(m.setup(), wide);
    assert_eq!(m.into_words(&fuel).saved_stack.len(), 7 * 40);
}
