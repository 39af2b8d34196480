//! Runs of the original as antt: for each call a theorem, by computation, that the model's `step` gives the answer and the
//! whole state that the original gave; and for damaged states that `sound` tells them apart.

use std::collections::{BTreeMap, BTreeSet};
use std::fmt::{Display, Write as _};
use std::fs;
use std::path::Path;

use oracle::broken::{changed, BROKEN, KEPT};
use oracle::call::{Answer, Call, Case, Kind, Step};
use oracle::engine::Engine;
use oracle::examples::sizes_below;
use oracle::generate::{sequence, Rng, Sequence};
use oracle::plain::Plain;
use oracle::recorded::replay;
use oracle::sound::sound;
use oracle::world::{
    Active, Cont, Coro, Costs, Driver, Frame, Func, Object, Setup, Slot, State, Stop, World,
};

use super::fuzz::{rng, LENGTH};
use super::trace::damage;

/// Sequences in one file, and states.
const EACH: usize = 10;
const STATES: usize = 50;

const FAULTS: [&str; 17] = [
    "None",
    "NullReference",
    "TypeError",
    "InvalidCoroState",
    "StackOverflow",
    "CannotSuspend",
    "CloseIgnored",
    "ArithOverflow",
    "NoScheduler",
    "OutOfMemory",
    "OutOfFuel",
    "Unsound",
    "NoFrame",
    "BadOperand",
    "Full",
    "Busy",
    "GrantTooLarge",
];

const STATES_OF: [&str; 6] = ["Created", "Running", "Yielded", "Awaiting", "Returned", "Failed"];

pub(super) const HEAD: &str =
    "use Rattle.std.specs.Prelude.{ℕ, ◌≡◌, refl, true, false, [], ◌∷◌, ◌++◌, set, Some, None}
use Rattle.std.proofs.Math.Option.{none, some}
use Rattle.heap.specs.Table.{slot}
use Rattle.heap.specs.declared.fault.Fault.{Fault}
use Rattle.heap.specs.declared.object.CoroState.{CoroState}
use Rattle.model.specs.Program.{Setup}
use Rattle.model.specs.Object.{Object}
use Rattle.model.specs.World.{World}
use Rattle.model.specs.Sound.{sound}
use Rattle.model.specs.Answer.{number_of, word_of, step_of, taken_off}
use Rattle.model.specs.Call.{SetUp, typed}
use Rattle.model.specs.Step.{tested, step}
use Rattle.model.specs.Compute.{computed}
use Rattle.model.specs.declared.machine.Cont.{Cont}
use Rattle.model.specs.declared.machine.Driver.{Driver}
use Rattle.model.specs.declared.machine.Stop.{Stop}
use Rattle.model.specs.declared.exec.Step.{Step}
use Rattle.heap.specs.declared.heap.ResultKind.{ResultKind}
use Rattle.model.specs.declared.call.Op.{Op}
use Rattle.model.specs.declared.call.Answer.{Answer}
";

fn list<T>(xs: impl IntoIterator<Item = T>, show: impl Fn(T) -> String) -> String {
    let mut s = String::from("(");
    for x in xs {
        s += &show(x);
        s += " ∷ ";
    }
    s + "[])"
}

fn words(xs: &[u64]) -> String {
    list(xs, u64::to_string)
}

fn option(x: Option<impl Display>) -> String {
    x.map_or("None".into(), |x| format!("(Some {x})"))
}

fn fault(n: u8, w: u64) -> String {
    match n {
        17 => format!("(Fault.Throw {w})"),
        _ => format!("Fault.{}", FAULTS.get(usize::from(n)).unwrap_or(&"None")),
    }
}

fn cont(k: Cont) -> String {
    match k {
        Cont::Entry => "Cont.Entry".into(),
        Cont::Write(r) => format!("(Cont.Write {r})"),
        Cont::Dyn(r) => format!("(Cont.Dyn {r})"),
        Cont::Value(r) => format!("(Cont.Value {r})"),
        Cont::Discard => "Cont.Discard".into(),
        Cont::Coro => "Cont.Coro".into(),
    }
}

fn frame(f: &Frame) -> String {
    format!(
        "record {{ func = {}; pc = {}; base = {}; closure = {}; cont = {} }}",
        f.func,
        f.pc,
        f.base,
        f.closure,
        cont(f.cont)
    )
}

/// Top first.
fn frames(fs: &[Frame]) -> String {
    list(fs.iter().rev(), frame)
}

fn active(a: &Active) -> String {
    let driver = match a.driver {
        Driver::Resume(r) => format!("Driver.Resume {r}"),
        Driver::Iter { has, val, iter } => format!("Driver.Iter {has} {val} {iter}"),
        Driver::Host => "Driver.Host".into(),
        Driver::Finalize => "Driver.Finalize".into(),
    };
    format!("record {{ coro = {}; floor = {}; driver = {driver} }}", a.coro, a.floor)
}

fn chain(xs: &[Active]) -> String {
    list(xs.iter().rev(), active)
}

fn coro(c: &Coro) -> String {
    format!(
        "(Object.Coro (record {{ state = CoroState.{}; regs = {}; frames = {}; waiting = {} }}) (record {{ closing = {}; \
         finalized = {}; task = {}; seq = {}; row = {}; maxregs = {}; maxframes = {}; payload = {}; key = {}; largest = {}; \
         result = {}; signal = {} }}))",
        STATES_OF[State::code(c.state) as usize], words(&c.regs), frames(&c.frames), c.resume_dst, c.closing, c.finalized,
        c.task, c.seq, c.row, c.max_regs, c.max_frames, c.payload, c.key, c.max_key as u64, c.result, c.signal
    )
}

fn slot(s: &Slot) -> String {
    let object = match &s.object {
        Object::Empty => "Object.Empty".into(),
        Object::Func(f) => format!("(Object.Func {f})"),
        Object::Int(n) => format!("(Object.Int {})", *n as u64),
        Object::Iter { src, done, key } => format!("(Object.Iter {src} {done} {})", option(*key)),
        Object::Error { number, func, pc, payload } => {
            format!("(Object.Error {number} {func} {pc} {payload})")
        }
        Object::Coro(c) => coro(c),
    };
    format!("(slot {} {object})", s.tag)
}

fn stop(s: Stop) -> String {
    match s {
        Stop::Yielded(w) => format!("(Stop.Yielded {w})"),
        Stop::Awaiting(w) => format!("(Stop.Awaiting {w})"),
        Stop::Returned(w) => format!("(Stop.Returned {w})"),
        Stop::Failed(w, f, pc) => format!("(Stop.Failed {w} {f} {pc})"),
        Stop::CloseIgnored => "Stop.CloseIgnored".into(),
    }
}

fn func(f: &Func) -> String {
    let handlers = list(&f.handlers, |h| {
        format!(
            "record {{ start = {}; end = {}; target = {}; catch = {} }}",
            h.start, h.end, h.target, h.catch
        )
    });
    format!("record {{ regs = {}; params = {}; handlers = {handlers} }}", f.nregs, f.nparams)
}

fn setup(s: &Setup) -> String {
    let k = &s.costs;
    format!(
        "record {{ limits = record {{ depth = {}; stack = {}; rows = {}; slots = {}; memory = {} }}; costs = record {{ frame = {}; \
         coro = {}; object = {}; int = {}; error = {}; iter = {} }}; hook = {}; functions = {} }}",
        s.depth, s.stack, s.rows, s.slots, s.memory, k.frame, k.coro, k.coro_object, k.int, k.error, k.iter, option(s.hook),
        list(&s.funcs, func)
    )
}

fn fuel(w: &World) -> String {
    format!("record {{ fuel = {}; bank = {}; ready = {} }}", w.fuel, option(w.bank), w.close_ready)
}

/// The slots, as changes of those of the state named `old` where that is shorter.
fn slots(new: &[Slot], old: Option<(&str, &[Slot])>) -> String {
    let Some((name, was)) = old.filter(|(_, was)| was.len() <= new.len()) else {
        return list(new, slot);
    };
    let mut s = format!("{name}.slots");
    for (i, x) in new.iter().enumerate() {
        if i >= was.len() {
            s = format!("({s} ++ ({} ∷ []))", slot(x));
        } else if *x != was[i] {
            s = format!("(set {s} {i} {})", slot(x));
        }
    }
    s
}

/// A state; fields that did not change are those of the state before it.
fn world(w: &World, old: Option<(&str, &World)>) -> String {
    let keep = |name: &str, same: bool, text: String| match old {
        Some((o, _)) if same => format!("{o}.{name}"),
        _ => text,
    };
    let was = |same: &dyn Fn(&World) -> bool| old.is_some_and(|(_, o)| same(o));
    let fields = [
        ("setup", keep("setup", was(&|o| o.setup == w.setup), setup(&w.setup))),
        ("stack", keep("stack", was(&|o| o.stack == w.stack), words(&w.stack))),
        ("frames", keep("frames", was(&|o| o.frames == w.frames), frames(&w.frames))),
        ("chain", keep("chain", was(&|o| o.chain == w.chain), chain(&w.chain))),
        ("slots", slots(&w.slots, old.map(|(n, o)| (n, &o.slots[..])))),
        ("ready", words(&w.ready)),
        ("finalize", words(&w.cleanup)),
        ("finalizing", w.finalizing.to_string()),
        ("outcome", option(w.outcome.map(stop))),
        ("used", w.used.to_string()),
        ("seq", w.seq.to_string()),
        ("fuel", fuel(w)),
    ];
    let fields: Vec<String> = fields.iter().map(|(n, x)| format!("{n} = {x}")).collect();
    format!("record {{ {} }}", fields.join("; "))
}

/// An operation; a set-up is none.
pub(super) fn operation(k: &Call) -> Option<String> {
    Some(match k {
        Call::CoroNew { pc, dst, func, argc } => format!("Op.CoroNew {pc} {dst} {func} {argc}"),
        Call::CoroNewIndirect { pc, dst, callee, argc } => {
            format!("Op.CoroNewIndirect {pc} {dst} {callee} {argc}")
        }
        Call::Spawn { pc, dst, callee, argc } => format!("Op.Spawn {pc} {dst} {callee} {argc}"),
        Call::Yield { pc, dst, src } => format!("Op.Yield {pc} {dst} {src}"),
        Call::YieldKv { pc, dst, src, key } => format!("Op.YieldKv {pc} {dst} {src} {key}"),
        Call::Await { pc, dst, src } => format!("Op.Await {pc} {dst} {src}"),
        Call::Resume { pc, dst, coro, src } => format!("Op.Resume {pc} {dst} {coro} {src}"),
        Call::ResumeThrow { pc, dst, coro, src } => {
            format!("Op.ResumeThrow {pc} {dst} {coro} {src}")
        }
        Call::CoroClose { pc, dst, coro, src } => format!("Op.CoroClose {pc} {dst} {coro} {src}"),
        Call::CoroStatus { pc, dst, coro } => format!("Op.CoroStatus {pc} {dst} {coro}"),
        Call::CoroCurrent { pc, dst } => format!("Op.CoroCurrent {pc} {dst}"),
        Call::CoroKey { pc, dst, coro } => format!("Op.CoroKey {pc} {dst} {coro}"),
        Call::CoroResult { pc, dst, coro } => format!("Op.CoroResult {pc} {dst} {coro}"),
        Call::IterNext { pc, has, iter, val, src } => {
            format!("Op.IterNext {pc} {has} {iter} {val} {src}")
        }
        Call::Finish { kind, word } => {
            let kind = match kind {
                Kind::None => "None",
                Kind::Dyn => "Dyn",
                Kind::I64 => "I64",
                Kind::U64 => "U64",
            };
            format!("Op.Finish ResultKind.{kind} {word}")
        }
        Call::Unwind { fault: n, word, pc } => {
            format!("Op.Unwind {} {}", fault(*n, *word), option(*pc))
        }
        Call::SpawnTask { word } => format!("Op.SpawnTask {word}"),
        Call::SetUp(_) => return None,
        Call::HostCall { func } => format!("Op.HostCall {func}"),
        Call::HostEntry { coro, word } => format!("Op.HostEntry {coro} {word}"),
        Call::FunctionCall { pc, func, cont: k } => {
            format!("Op.FunctionCall {pc} {func} {}", cont(*k))
        }
        Call::PutWord { reg, word } => format!("Op.PutWord {reg} {word}"),
        Call::MakeIterator { src } => format!("Op.MakeIterator {src}"),
        Call::TakeOutcome => "Op.TakeOutcome".into(),
        Call::HandOver { coro } => format!("Op.HandOver {coro}"),
        Call::Grant { fuel } => format!("Op.Grant {fuel}"),
        Call::StopRun => "Op.StopRun".into(),
        Call::Look => "Op.Look".into(),
    })
}

/// What is claimed of a call, and its proof: of a set-up by `step`; of an operation what `step` does with it, and that its
/// operands are of their types.
fn claim(k: &Call, name: &str, out: &str) -> (String, &'static str) {
    if let Call::SetUp(s) = k {
        return (format!("step {name} (SetUp ({})) ≡ {out}", setup(s)), "refl");
    }
    let op = operation(k).unwrap_or_default();
    (format!("(typed ({op}) ≡ true) × (tested {name} ({op}) ≡ {out})"), "(refl, refl)")
}

pub(super) fn answer(k: &Call, a: &Answer) -> String {
    let taken = a.taken;
    let refusal = fault(a.number, a.word);
    let stepped = |s: String| format!("Answer.Stepped {s} {taken}");
    let took = |s: Stop| format!("Answer.Took (Some {})", stop(s));
    match (a.case, a.step) {
        (Case::Cleanup, _) => format!("Answer.Cleanup {taken}"),
        (Case::Made, _) => format!("Answer.Unpaid {taken}"),
        (Case::Caught, _) => "Answer.Caught".into(),
        (Case::Stopped, _) => "Answer.Stopped".into(),
        (Case::Resume, _) => "Answer.Resume".into(),
        (Case::Exit, _) => "Answer.Exit None".into(),
        (Case::ExitWord, _) => format!("Answer.Exit (Some {})", a.word),
        (Case::NoOutcome, _) => "Answer.Took None".into(),
        (Case::Yielded, _) => took(Stop::Yielded(a.word)),
        (Case::Awaiting, _) => took(Stop::Awaiting(a.word)),
        (Case::Returned, _) => took(Stop::Returned(a.word)),
        (Case::Failed, _) => took(Stop::Failed(a.word, a.words[0] as u32, a.words[1] as u32)),
        (Case::CloseIgnored, _) => took(Stop::CloseIgnored),
        (Case::Plain, Step::Next) => stepped("Step.Next".into()),
        (Case::Plain, Step::Frame) => stepped("Step.Frame".into()),
        (Case::Plain, Step::Fault) => stepped(format!("(Step.Fault {refusal})")),
        (Case::Plain, Step::Unwind) => stepped(format!("(Step.Unwind {refusal})")),
        (Case::Plain, Step::None) if a.number != 0 => format!("Answer.Refused {refusal}"),
        (Case::Plain, Step::None) => match k {
            Call::MakeIterator { .. } | Call::SpawnTask { .. } => format!("Answer.Word {}", a.word),
            _ => "Answer.Accepted".into(),
        },
    }
}

/// What is claimed of an answer: its number and word, its Step, and the queue words that it took off.
fn reading(text: &str, a: &Answer) -> String {
    let refusal = fault(a.number, a.word);
    let step = match a.step {
        Step::None => "none".into(),
        Step::Next => "some Step.Next".into(),
        Step::Frame => "some Step.Frame".into(),
        Step::Fault => format!("some (Step.Fault {refusal})"),
        Step::Unwind => format!("some (Step.Unwind {refusal})"),
    };
    format!(
        "(number_of ({text}) ≡ {}) × (word_of ({text}) ≡ {}) × (step_of ({text}) ≡ {step}) × (taken_off ({text}) ≡ {})",
        a.number, a.word, a.taken
    )
}

/// The calls of sequence `i` on the original, as theorems `tI-J` from states `sI-J`, with a theorem `aI-J` for each new
/// answer; how many calls there are.
fn theorems(text: &mut String, original: &mut dyn Engine, i: usize, s: &Sequence) -> usize {
    original.load(&s.start);
    let mut was = s.start.clone();
    let mut name = format!("s{i}-0");
    let mut answers = BTreeSet::new();
    let _ = writeln!(text, "\nabbrev {name} : World\n{name} = {}", world(&was, None));
    for (j, k) in s.calls.iter().enumerate() {
        let a = original.call(k);
        let now = original.world();
        let seen = if matches!(k, Call::Look) { words(&a.words) } else { "[]".into() };
        let next = format!("s{i}-{}", j + 1);
        let old = (!matches!(k, Call::SetUp(_))).then_some((&name[..], &was));
        let _ = writeln!(text, "\nabbrev {next} : World\n{next} = {}", world(&now, old));
        let told = answer(k, &a);
        let out = format!("record {{ world = {next}; answer = {told}; seen = {seen} }}");
        let (statement, proof) = claim(k, &name, &out);
        let _ = writeln!(text, "t{i}-{j} : {statement}\nunfolding computed\nt{i}-{j} = {proof}");
        let reading = reading(&told, &a);
        if answers.insert(told) {
            let _ = writeln!(text, "a{i}-{j} : {reading}\na{i}-{j} = (refl, refl, refl, refl)");
        }
        (was, name) = (now, next);
    }
    s.calls.len()
}

/// Sequences, the first of number `first`, as files of a crate's specs, a line of `root` for each file.
fn traces(
    original: &mut dyn Engine,
    all: &[Sequence],
    first: usize,
    dir: &Path,
    root: &mut String,
) -> Result<(), String> {
    let mut calls = 0;
    for (file, part) in all.chunks(EACH).enumerate() {
        let mut text = String::from(HEAD);
        for (i, s) in part.iter().enumerate() {
            calls += theorems(&mut text, original, first + EACH * file + i, s);
        }
        save(dir, &format!("Trace{file}"), &text, root)?;
    }
    println!("antt: {} sequences, {calls} calls", all.len());
    Ok(())
}

pub(super) fn save(dir: &Path, name: &str, text: &str, root: &mut String) -> Result<(), String> {
    let _ = writeln!(root, "pub mod {name}");
    fs::write(dir.join(format!("{name}.antt")), text).map_err(|e| e.to_string())
}

/// Random damaged states of which no rule, and no good one, is met more than `most` times among `tries`.
fn choose(costs: Costs, seed: u64, tries: u64, most: usize) -> Vec<(World, bool)> {
    let mut rng = Rng::new(seed);
    let mut met: BTreeMap<&str, usize> = BTreeMap::new();
    let mut all = Vec::new();
    for w in (0..tries).filter_map(|_| damage(&mut rng, costs)) {
        let verdict = sound(&w);
        let n = met.entry(verdict.err().unwrap_or("sound")).or_default();
        *n += 1;
        if *n <= most {
            all.push((w, verdict.is_ok()));
        }
    }
    println!(
        "antt: {} damaged states, {} of them sound, {} rules broken",
        all.len(),
        most.min(met["sound"]),
        met.len() - 1
    );
    all
}

/// The states at the edge of each rule, by hand.
fn edges() -> Vec<(World, bool)> {
    let broken = BROKEN.iter().map(|&c| (changed(c), false));
    let all: Vec<(World, bool)> = broken.chain(KEPT.iter().map(|&c| (changed(c), true))).collect();
    let rules: BTreeSet<&str> = BROKEN.iter().map(|&(rule, _)| rule).collect();
    println!(
        "antt: {} states at edges, {} of them sound, {} rules broken",
        all.len(),
        KEPT.len(),
        rules.len()
    );
    all
}

/// States, and whether each is sound, in files of a name: theorem I of state `wI`, with the letter before it.
fn states(
    all: &[(World, bool)],
    name: &str,
    letter: char,
    dir: &Path,
    root: &mut String,
) -> Result<(), String> {
    for (file, part) in all.chunks(STATES).enumerate() {
        let mut text = String::from(HEAD);
        for (i, (w, good)) in part.iter().enumerate() {
            let i = STATES * file + i;
            let _ = writeln!(text, "\nabbrev w{i} : World\nw{i} = {}", world(w, None));
            let _ = writeln!(
                text,
                "{letter}{i} : sound w{i} ≡ {good}\nunfolding computed\n{letter}{i} = refl"
            );
        }
        save(dir, &format!("{name}{file}"), &text, root)?;
    }
    Ok(())
}

pub(super) fn finish(dir: &Path, root: &str) -> Result<(), String> {
    fs::write(dir.join("Lib.antt"), root).map_err(|e| e.to_string())
}

/// The states at the edges, and damaged ones of `seed`, each rule broken up to `n` times.
pub(crate) fn damaged(costs: Costs, seed: u64, n: u64, dir: &Path) -> Result<(), String> {
    let mut root = String::new();
    states(&edges(), "Edge", 'e', dir, &mut root)?;
    if n > 0 {
        states(&choose(costs, seed, 200_000, n as usize), "Damaged", 'd', dir, &mut root)?;
    }
    // Largest sizes below what is saved: the definitions charge nothing for it, as the original.
    let (start, calls) = sizes_below(costs);
    let mut text = String::from(HEAD);
    theorems(&mut text, &mut Plain::default(), 0, &Sequence { start, calls: calls.into() });
    save(dir, "Sizes", &text, &mut root)?;
    finish(dir, &root)
}

/// `n` random sequences of `seed`.
pub(crate) fn random(
    original: &mut dyn Engine,
    costs: Costs,
    seed: u64,
    n: u64,
    dir: &Path,
) -> Result<(), String> {
    let mut root = String::new();
    let all: Vec<Sequence> = (0..n).map(|i| sequence(&mut rng(seed, i), costs, LENGTH)).collect();
    traces(original, &all, 0, dir, &mut root)?;
    finish(dir, &root)
}

/// The recorded sequences `from` up to `to`; the engine must give what is recorded.
pub(crate) fn recorded(
    engine: &mut dyn Engine,
    from: usize,
    to: usize,
    dir: &Path,
) -> Result<(), String> {
    let mut root = String::new();
    let all = replayed(engine, from, to)?;
    traces(engine, &all, from, dir, &mut root)?;
    finish(dir, &root)
}

/// Recorded sequences; the engine must give what is recorded.
pub(super) fn replayed(
    engine: &mut dyn Engine,
    from: usize,
    to: usize,
) -> Result<Vec<Sequence>, String> {
    let mut part = Vec::new();
    for (i, r) in super::recorded::load()?.into_iter().enumerate().take(to).skip(from) {
        replay(engine, &r).map_err(|j| format!("sequence {i} differs at its call {j}"))?;
        part.push(Sequence {
            start: r.start,
            calls: r.lines.into_iter().map(|l| l.call).collect(),
        });
    }
    Ok(part)
}
