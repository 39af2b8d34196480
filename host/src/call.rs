//! The calls with typed operands, and their six words (docs/ABI.md, "The
//! call"). The set-up is [`Setup`](crate::Setup).

use crate::{Fault, Word};

/// A register of the top frame, counted from its base.
#[derive(Clone, Copy, PartialEq, Eq, Hash, PartialOrd, Ord, Debug)]
pub struct Reg(pub u16);

/// A program counter.
#[derive(Clone, Copy, PartialEq, Eq, Hash, PartialOrd, Ord, Debug)]
pub struct Pc(pub u32);

/// A function, by its number in the set-up.
#[derive(Clone, Copy, PartialEq, Eq, Hash, PartialOrd, Ord, Debug)]
pub struct FunctionId(pub u32);

/// The result of a frame, which `finish` hands to its continuation.
///
/// An integer is a number, and no word: `Value::I64(5)` is five, where
/// `Value::Word(Word(5))` is the word with these bits.
#[derive(Clone, Copy, PartialEq, Eq, Hash, Debug)]
pub enum Value {
    /// No result.
    None,
    /// A word.
    Word(Word),
    /// A signed integer.
    I64(i64),
    /// An unsigned integer; above 2^63 - 1 it is refused with 7 where it
    /// becomes a word.
    U64(u64),
}

impl Value {
    /// Its kind's code, and its 64 bits.
    pub(crate) fn words(self) -> [u64; 2] {
        match self {
            Value::None => [0, 0],
            Value::Word(w) => [1, w.0],
            Value::I64(n) => [2, n as u64],
            Value::U64(n) => [3, n],
        }
    }
}

/// What happens to a frame's result. A function call takes [`Cont::Write`],
/// [`Cont::Dyn`], [`Cont::Value`] and [`Cont::Discard`]; the others are
/// refused with 13.
#[derive(Clone, Copy, PartialEq, Eq, Hash, Debug)]
pub enum Cont {
    /// The frame of a host call.
    Entry,
    /// The result's bits go to a register; [`Value::None`] leaves it.
    Write(Reg),
    /// The result as a word goes to a register: an integer as an inline one, or
    /// as an object; nil for none.
    Dyn(Reg),
    /// The result's bits, or nil for none, go to a register.
    Value(Reg),
    /// The result is dropped.
    Discard,
    /// The body of a coroutine.
    Coro,
}

impl Cont {
    pub(crate) fn words(self) -> [u64; 2] {
        match self {
            Cont::Entry => [0, 0],
            Cont::Write(r) => [1, r.0.into()],
            Cont::Dyn(r) => [2, r.0.into()],
            Cont::Value(r) => [3, r.0.into()],
            Cont::Discard => [4, 0],
            Cont::Coro => [5, 0],
        }
    }

    pub(crate) fn read(code: u64, reg: u64) -> Cont {
        let reg = Reg(reg as u16);
        match code {
            0 => Cont::Entry,
            1 => Cont::Write(reg),
            2 => Cont::Dyn(reg),
            3 => Cont::Value(reg),
            4 => Cont::Discard,
            _ => Cont::Coro,
        }
    }
}

/// A call as a value, for [`Machine::call`](crate::Machine::call) and
/// [`Batch`](crate::Batch). What each needs, does, answers and leaves stands at
/// the method of [`Machine`](crate::Machine) with its name. Instructions take
/// the pc first, then their operands in the order the original spells them.
#[derive(Clone, Copy, PartialEq, Eq, Hash, Debug)]
#[allow(missing_docs)]
pub enum Call {
    CoroNew { pc: Pc, dst: Reg, func: FunctionId, argc: u8 },
    CoroNewIndirect { pc: Pc, dst: Reg, callee: Reg, argc: u8 },
    Spawn { pc: Pc, dst: Reg, callee: Reg, argc: u8 },
    Yield { pc: Pc, dst: Reg, src: Reg },
    YieldKv { pc: Pc, dst: Reg, src: Reg, key: Reg },
    Await { pc: Pc, dst: Reg, src: Reg },
    Resume { pc: Pc, dst: Reg, coro: Reg, src: Reg },
    ResumeThrow { pc: Pc, dst: Reg, coro: Reg, src: Reg },
    CoroClose { pc: Pc, dst: Reg, coro: Reg, src: Reg },
    CoroStatus { pc: Pc, dst: Reg, coro: Reg },
    CoroCurrent { pc: Pc, dst: Reg },
    CoroKey { pc: Pc, dst: Reg, coro: Reg },
    CoroResult { pc: Pc, dst: Reg, coro: Reg },
    IterNext { pc: Pc, has: Reg, iter: Reg, val: Reg, src: Reg },
    Finish { value: Value },
    Unwind { fault: Fault, pc: Option<Pc> },
    SpawnTask { word: Word },
    HostCall { func: FunctionId },
    HostEntry { coro: Word, word: Word },
    FunctionCall { pc: Pc, func: FunctionId, cont: Cont },
    PutWord { reg: Reg, word: Word },
    MakeIterator { src: Word },
    TakeOutcome,
    HandOver { coro: Word },
    Grant { amount: u64 },
    StopRun,
    Look,
}

impl Call {
    /// The call's six words: its code and five operands (docs/ABI.md).
    #[must_use]
    pub fn words(&self) -> [u64; 6] {
        let (p, r) = (|pc: Pc| u64::from(pc.0), |r: Reg| u64::from(r.0));
        let f = |f: FunctionId| u64::from(f.0);
        match *self {
            Call::CoroNew { pc, dst, func, argc } => [0, p(pc), r(dst), f(func), argc.into(), 0],
            Call::CoroNewIndirect { pc, dst, callee, argc } => {
                [1, p(pc), r(dst), r(callee), argc.into(), 0]
            }
            Call::Spawn { pc, dst, callee, argc } => [2, p(pc), r(dst), r(callee), argc.into(), 0],
            Call::Yield { pc, dst, src } => [3, p(pc), r(dst), r(src), 0, 0],
            Call::YieldKv { pc, dst, src, key } => [4, p(pc), r(dst), r(src), r(key), 0],
            Call::Await { pc, dst, src } => [5, p(pc), r(dst), r(src), 0, 0],
            Call::Resume { pc, dst, coro, src } => [6, p(pc), r(dst), r(coro), r(src), 0],
            Call::ResumeThrow { pc, dst, coro, src } => [7, p(pc), r(dst), r(coro), r(src), 0],
            Call::CoroClose { pc, dst, coro, src } => [8, p(pc), r(dst), r(coro), r(src), 0],
            Call::CoroStatus { pc, dst, coro } => [9, p(pc), r(dst), r(coro), 0, 0],
            Call::CoroCurrent { pc, dst } => [10, p(pc), r(dst), 0, 0, 0],
            Call::CoroKey { pc, dst, coro } => [11, p(pc), r(dst), r(coro), 0, 0],
            Call::CoroResult { pc, dst, coro } => [12, p(pc), r(dst), r(coro), 0, 0],
            Call::IterNext { pc, has, iter, val, src } => {
                [13, p(pc), r(has), r(iter), r(val), r(src)]
            }
            Call::Finish { value } => {
                let [kind, bits] = value.words();
                [14, kind, bits, 0, 0, 0]
            }
            Call::Unwind { fault, pc } => {
                let given = pc.map_or([0, 0], |pc| [1, p(pc)]);
                [15, fault.number(), fault.word().0, given[0], given[1], 0]
            }
            Call::SpawnTask { word } => [16, word.0, 0, 0, 0, 0],
            Call::HostCall { func } => [17, f(func), 0, 0, 0, 0],
            Call::HostEntry { coro, word } => [18, coro.0, word.0, 0, 0, 0],
            Call::FunctionCall { pc, func, cont } => {
                let [code, reg] = cont.words();
                [19, p(pc), f(func), code, reg, 0]
            }
            Call::PutWord { reg, word } => [20, r(reg), word.0, 0, 0, 0],
            Call::MakeIterator { src } => [21, src.0, 0, 0, 0, 0],
            Call::TakeOutcome => [22, 0, 0, 0, 0, 0],
            Call::HandOver { coro } => [23, coro.0, 0, 0, 0, 0],
            Call::Grant { amount } => [24, amount, 0, 0, 0, 0],
            Call::StopRun => [25, 0, 0, 0, 0, 0],
            Call::Look => [26, 0, 0, 0, 0, 0],
        }
    }
}
