//! The words of a state, of a call and of an answer.

use super::{AnswerWords, CallWords, Words};
use crate::call::{Answer, Call, Case, Kind, Step};
use crate::world::{Active, Cont, Coro, Driver, Frame, Func, Object, Setup, Slot, Stop, World};

/// The words, then 0 up to `n`.
fn padded(n: usize, words: impl IntoIterator<Item = u64>) -> Vec<u64> {
    let mut all: Vec<u64> = words.into_iter().collect();
    assert!(all.len() <= n, "{} words in {n}", all.len());
    all.resize(n, 0);
    all
}

fn option(o: Option<u64>) -> [u64; 2] {
    o.map_or([0, 0], |n| [1, n])
}

fn frame(f: &Frame) -> [u64; 6] {
    let (code, reg) = cont_words(f.cont);
    [u64::from(f.func), u64::from(f.pc), f.base as u64, f.closure, code, reg]
}

fn active(a: &Active) -> [u64; 6] {
    let [code, x, y, z] = match a.driver {
        Driver::Resume(r) => [0, u64::from(r), 0, 0],
        Driver::Iter { has, val, iter } => [1, u64::from(has), u64::from(val), iter],
        Driver::Host => [2, 0, 0, 0],
        Driver::Finalize => [3, 0, 0, 0],
    };
    [a.coro, a.floor as u64, code, x, y, z]
}

/// A slot in 20 words: tag, kind and fields.
fn slot(s: &Slot) -> Vec<u64> {
    let mut all = vec![u64::from(s.tag)];
    match &s.object {
        Object::Empty => all.push(0),
        Object::Func(f) => all.extend([1, u64::from(*f)]),
        Object::Int(n) => all.extend([2, *n as u64]),
        Object::Iter { src, done, key: None } => all.extend([3, *src, u64::from(*done)]),
        Object::Iter { src, done, key: Some(k) } => all.extend([4, *src, u64::from(*done), *k]),
        Object::Error { number, func, pc, payload } => {
            all.extend([5, u64::from(*number), u64::from(*func), u64::from(*pc), *payload]);
        }
        Object::Coro(c) => {
            all.push(6);
            all.extend(coro(c));
        }
    }
    padded(20, all)
}

fn coro(c: &Coro) -> [u64; 16] {
    [
        c.state.code(),
        u64::from(c.closing),
        u64::from(c.finalized),
        u64::from(c.task),
        c.seq,
        c.row as u64,
        c.regs.len() as u64,
        c.frames.len() as u64,
        c.max_regs as u64,
        c.max_frames as u64,
        u64::from(c.resume_dst),
        c.payload,
        c.key,
        c.max_key as u64,
        c.result,
        c.signal,
    ]
}

/// An outcome: kind, word, and of a failure function and pc.
fn outcome(o: Option<Stop>) -> [u64; 4] {
    match o {
        None => [0; 4],
        Some(Stop::Yielded(w)) => [1, w, 0, 0],
        Some(Stop::Awaiting(w)) => [2, w, 0, 0],
        Some(Stop::Returned(w)) => [3, w, 0, 0],
        Some(Stop::Failed(w, f, pc)) => [4, w, u64::from(f), u64::from(pc)],
        Some(Stop::CloseIgnored) => [5, 0, 0, 0],
    }
}

impl Words {
    /// The words of a sound state, in slices as long as its set-up asks.
    #[must_use]
    pub fn of(w: &World) -> Words {
        let s = &w.setup;
        let (depth, rows, slots) = (s.depth as usize * 6, s.rows as usize, s.slots as usize);
        let width = w.row_room() as usize;
        let mut saved_stack = vec![0; rows * width];
        let mut saved_frames = vec![0; rows * depth];
        for (_, c) in w.coros().filter(|(_, c)| !c.state.is_finished()) {
            saved_stack[c.row * width..][..c.regs.len()].copy_from_slice(&c.regs);
            let frames: Vec<u64> = c.frames.iter().flat_map(frame).collect();
            saved_frames[c.row * depth..][..frames.len()].copy_from_slice(&frames);
        }
        let k = &s.costs;
        let counts = [
            w.stack.len(),
            w.frames.len(),
            w.chain.len(),
            w.slots.len(),
            w.ready.len(),
            w.cleanup.len(),
        ];
        let mut machine: Vec<u64> = counts.iter().map(|&n| n as u64).collect();
        machine.extend([u64::from(w.finalizing), w.used, w.seq]);
        machine.extend(outcome(w.outcome));
        let [bank, amount] = option(w.bank);
        machine.extend([s.depth, s.stack, s.rows, s.slots, s.memory, width as u64]);
        machine.extend([k.frame, k.coro, k.coro_object, k.int, k.error, k.iter]);
        Words([
            padded(s.stack as usize, w.stack.iter().copied()),
            padded(depth, w.frames.iter().flat_map(frame)),
            padded(depth, w.chain.iter().flat_map(active)),
            padded(slots * 20, w.slots.iter().flat_map(slot)),
            saved_stack,
            saved_frames,
            padded(slots, w.ready.iter().copied()),
            padded(slots, w.cleanup.iter().copied()),
            setup_words(s),
            machine,
            vec![w.fuel, bank, amount, u64::from(w.close_ready)],
        ])
    }
}

/// A call in words; a set-up is none.
#[must_use]
pub fn call_words(call: &Call) -> Option<CallWords> {
    let number = call.number() as u64;
    let code = if number > 17 { number - 1 } else { number };
    let (p, r) = (u64::from, |n: u16| u64::from(n));
    let operands = match *call {
        Call::CoroNew { pc, dst, func, argc } => vec![p(pc), r(dst), p(func), u64::from(argc)],
        Call::CoroNewIndirect { pc, dst, callee, argc } | Call::Spawn { pc, dst, callee, argc } => {
            vec![p(pc), r(dst), r(callee), u64::from(argc)]
        }
        Call::Yield { pc, dst, src } | Call::Await { pc, dst, src } => vec![p(pc), r(dst), r(src)],
        Call::YieldKv { pc, dst, src, key } => vec![p(pc), r(dst), r(src), r(key)],
        Call::Resume { pc, dst, coro, src }
        | Call::ResumeThrow { pc, dst, coro, src }
        | Call::CoroClose { pc, dst, coro, src } => vec![p(pc), r(dst), r(coro), r(src)],
        Call::CoroStatus { pc, dst, coro }
        | Call::CoroKey { pc, dst, coro }
        | Call::CoroResult { pc, dst, coro } => vec![p(pc), r(dst), r(coro)],
        Call::CoroCurrent { pc, dst } => vec![p(pc), r(dst)],
        Call::IterNext { pc, has, iter, val, src } => {
            vec![p(pc), r(has), r(iter), r(val), r(src)]
        }
        Call::Finish { kind, word } => {
            let kind = match kind {
                Kind::None => 0,
                Kind::Dyn => 1,
                Kind::I64 => 2,
                Kind::U64 => 3,
            };
            vec![kind, word]
        }
        Call::Unwind { fault, word, pc } => {
            let [given, pc] = option(pc.map(u64::from));
            vec![u64::from(fault), if fault == 17 { word } else { 0 }, given, pc]
        }
        Call::SetUp(_) => return None,
        Call::HostCall { func } => vec![p(func)],
        Call::HostEntry { coro, word } => vec![coro, word],
        Call::FunctionCall { pc, func, cont } => {
            let (code, reg) = cont_words(cont);
            vec![p(pc), p(func), code, reg]
        }
        Call::PutWord { reg, word } => vec![r(reg), word],
        Call::SpawnTask { word } => vec![word],
        Call::MakeIterator { src } => vec![src],
        Call::HandOver { coro } => vec![coro],
        Call::Grant { fuel } => vec![fuel],
        Call::TakeOutcome | Call::StopRun | Call::Look => vec![],
    };
    let mut words = [0; 6];
    words[0] = code;
    words[1..=operands.len()].copy_from_slice(&operands);
    Some(words)
}

/// An answer to a call in words. Look's words are the state's, which is
/// compared whole.
#[must_use]
pub fn answer_words(call: &Call, a: &Answer) -> AnswerWords {
    let step = match a.step {
        Step::None => 0,
        Step::Next => 1,
        Step::Frame => 2,
        Step::Fault => 3,
        Step::Unwind => 4,
    };
    let word = matches!(call, Call::SpawnTask { .. } | Call::MakeIterator { .. });
    let (case, kind) = match a.case {
        Case::Plain if a.step != Step::None => (3, 0),
        Case::Plain if a.number != 0 => (2, 0),
        Case::Plain => (u64::from(word), 0),
        Case::Cleanup => (4, 0),
        Case::Made => (5, 0),
        Case::Exit => (6, 0),
        Case::ExitWord => (7, 0),
        Case::Resume => (8, 0),
        Case::Caught => (9, 0),
        Case::Stopped => (10, 0),
        Case::NoOutcome => (11, 0),
        Case::Yielded => (11, 1),
        Case::Awaiting => (11, 2),
        Case::Returned => (11, 3),
        Case::Failed => (11, 4),
        Case::CloseIgnored => (11, 5),
    };
    let (func, pc) = match (a.case, a.words.as_slice()) {
        (Case::Failed, &[func, pc]) => (func, pc),
        _ => (0, 0),
    };
    [u64::from(a.number), a.word, step, a.taken, case, kind, func, pc]
}

/// Five limits, six costs, the hook, the number of functions, then 35 words
/// each.
#[must_use]
pub fn setup_words(s: &Setup) -> Vec<u64> {
    let k = &s.costs;
    let mut words = vec![s.depth, s.stack, s.rows, s.slots, s.memory];
    words.extend([k.frame, k.coro, k.coro_object, k.int, k.error, k.iter]);
    words.extend(option(s.hook));
    words.push(s.funcs.len() as u64);
    s.funcs.iter().for_each(|f| words.extend(function_words(f)));
    words
}

/// Registers, parameters, the number of handlers, and eight handlers. A
/// ninth is counted and has no words.
fn function_words(f: &Func) -> [u64; 35] {
    let mut words = [0; 35];
    words[..3].copy_from_slice(&[f.nregs, f.nparams, f.handlers.len() as u64]);
    for (at, h) in f.handlers.iter().take(8).enumerate() {
        words[3 + at * 4..][..4].copy_from_slice(&[h.start, h.end, h.target, h.catch]);
    }
    words
}

fn cont_words(k: Cont) -> (u64, u64) {
    match k {
        Cont::Entry => (0, 0),
        Cont::Write(r) => (1, u64::from(r)),
        Cont::Dyn(r) => (2, u64::from(r)),
        Cont::Value(r) => (3, u64::from(r)),
        Cont::Discard => (4, 0),
        Cont::Coro => (5, 0),
    }
}
