//! The order in which a call and an answer are written.

use super::state::{cont, setup};
use crate::call::{Answer, Call, Case, Kind, Step};
use crate::codec::{Codec, Res};
use crate::world::Cont;

const KINDS: [&str; 4] = ["none", "dyn", "i64", "u64"];
const STEPS: [&str; 5] = ["-", "next", "frame", "fault", "unwind"];
const CASES: [&str; 14] = [
    "plain",
    "cleanup",
    "made",
    "caught",
    "stopped",
    "resume",
    "exit",
    "exit_word",
    "no_outcome",
    "yielded",
    "awaiting",
    "returned",
    "failed",
    "close_ignored",
];

/// A call with blank operands, to be read into.
fn blank_call(number: usize) -> Call {
    let (pc, dst, src, coro, key, callee, func, argc, word) = (0, 0, 0, 0, 0, 0, 0, 0, 0);
    match number {
        0 => Call::CoroNew { pc, dst, func, argc },
        1 => Call::CoroNewIndirect { pc, dst, callee, argc },
        2 => Call::Spawn { pc, dst, callee, argc },
        3 => Call::Yield { pc, dst, src },
        4 => Call::YieldKv { pc, dst, src, key },
        5 => Call::Await { pc, dst, src },
        6 => Call::Resume { pc, dst, coro, src },
        7 => Call::ResumeThrow { pc, dst, coro, src },
        8 => Call::CoroClose { pc, dst, coro, src },
        9 => Call::CoroStatus { pc, dst, coro },
        10 => Call::CoroCurrent { pc, dst },
        11 => Call::CoroKey { pc, dst, coro },
        12 => Call::CoroResult { pc, dst, coro },
        13 => Call::IterNext { pc, has: 0, iter: 0, val: 0, src },
        14 => Call::Finish { kind: Kind::None, word },
        15 => Call::Unwind { fault: 0, word, pc: None },
        16 => Call::SpawnTask { word },
        17 => Call::SetUp(Box::default()),
        18 => Call::HostCall { func },
        19 => Call::HostEntry { coro: 0, word },
        20 => Call::FunctionCall { pc, func, cont: Cont::Entry },
        21 => Call::PutWord { reg: 0, word },
        22 => Call::MakeIterator { src: 0 },
        23 => Call::TakeOutcome,
        24 => Call::HandOver { coro: 0 },
        25 => Call::Grant { fuel: 0 },
        26 => Call::StopRun,
        _ => Call::Look,
    }
}

pub fn call(c: &mut impl Codec, k: &mut Call) -> Res {
    let was = k.number();
    let mut i = was;
    c.pick(&Call::NAMES, &mut i)?;
    if i != was {
        *k = blank_call(i);
    }
    match k {
        Call::CoroNew { pc, dst, func, argc } => {
            c.field(pc)?;
            c.field(dst)?;
            c.field(func)?;
            c.field(argc)
        }
        Call::CoroNewIndirect { pc, dst, callee, argc } | Call::Spawn { pc, dst, callee, argc } => {
            c.field(pc)?;
            c.field(dst)?;
            c.field(callee)?;
            c.field(argc)
        }
        Call::Yield { pc, dst, src } | Call::Await { pc, dst, src } => {
            c.field(pc)?;
            c.field(dst)?;
            c.field(src)
        }
        Call::YieldKv { pc, dst, src, key } => {
            c.field(pc)?;
            c.field(dst)?;
            c.field(src)?;
            c.field(key)
        }
        Call::Resume { pc, dst, coro, src }
        | Call::ResumeThrow { pc, dst, coro, src }
        | Call::CoroClose { pc, dst, coro, src } => {
            c.field(pc)?;
            c.field(dst)?;
            c.field(coro)?;
            c.field(src)
        }
        Call::CoroStatus { pc, dst, coro }
        | Call::CoroKey { pc, dst, coro }
        | Call::CoroResult { pc, dst, coro } => {
            c.field(pc)?;
            c.field(dst)?;
            c.field(coro)
        }
        Call::CoroCurrent { pc, dst } => {
            c.field(pc)?;
            c.field(dst)
        }
        Call::IterNext { pc, has, iter, val, src } => {
            c.field(pc)?;
            c.field(has)?;
            c.field(iter)?;
            c.field(val)?;
            c.field(src)
        }
        Call::Finish { kind, word } => {
            let mut i = *kind as usize;
            c.pick(&KINDS, &mut i)?;
            *kind = [Kind::None, Kind::Dyn, Kind::I64, Kind::U64][i];
            c.num(word)
        }
        Call::Unwind { fault, word, pc } => {
            c.field(fault)?;
            c.num(word)?;
            c.option(pc)
        }
        Call::SetUp(s) => setup(c, s),
        Call::HostCall { func } => c.field(func),
        Call::HostEntry { coro, word } => {
            c.num(coro)?;
            c.num(word)
        }
        Call::FunctionCall { pc, func, cont: k } => {
            c.field(pc)?;
            c.field(func)?;
            cont(c, k)
        }
        Call::PutWord { reg, word } => {
            c.field(reg)?;
            c.num(word)
        }
        Call::SpawnTask { word: x }
        | Call::MakeIterator { src: x }
        | Call::HandOver { coro: x }
        | Call::Grant { fuel: x } => c.num(x),
        Call::TakeOutcome | Call::StopRun | Call::Look => Ok(()),
    }
}

pub fn answer(c: &mut impl Codec, a: &mut Answer) -> Res {
    c.key("answer")?;
    c.field(&mut a.number)?;
    c.num(&mut a.word)?;
    let mut i = a.step as usize;
    c.pick(&STEPS, &mut i)?;
    a.step = [Step::None, Step::Next, Step::Frame, Step::Fault, Step::Unwind][i];
    c.num(&mut a.taken)?;
    let mut i = a.case as usize;
    c.pick(&CASES, &mut i)?;
    a.case = [
        Case::Plain,
        Case::Cleanup,
        Case::Made,
        Case::Caught,
        Case::Stopped,
        Case::Resume,
        Case::Exit,
        Case::ExitWord,
        Case::NoOutcome,
        Case::Yielded,
        Case::Awaiting,
        Case::Returned,
        Case::Failed,
        Case::CloseIgnored,
    ][i];
    c.words(&mut a.words)
}
