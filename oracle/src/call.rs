//! The calls of 01, and their answers.

use crate::world::{Cont, Setup, Stop};

/// The kind of a result handed to `finish`.
#[derive(Clone, Copy, PartialEq, Eq, Debug)]
pub enum Kind {
    None,
    Dyn,
    I64,
    U64,
}

/// One call. Instructions take the pc first, then their operands in the order
/// the original spells them.
#[derive(Clone, PartialEq, Eq, Debug)]
pub enum Call {
    CoroNew { pc: u32, dst: u16, func: u32, argc: u8 },
    CoroNewIndirect { pc: u32, dst: u16, callee: u16, argc: u8 },
    Spawn { pc: u32, dst: u16, callee: u16, argc: u8 },
    Yield { pc: u32, dst: u16, src: u16 },
    YieldKv { pc: u32, dst: u16, src: u16, key: u16 },
    Await { pc: u32, dst: u16, src: u16 },
    Resume { pc: u32, dst: u16, coro: u16, src: u16 },
    ResumeThrow { pc: u32, dst: u16, coro: u16, src: u16 },
    CoroClose { pc: u32, dst: u16, coro: u16, src: u16 },
    CoroStatus { pc: u32, dst: u16, coro: u16 },
    CoroCurrent { pc: u32, dst: u16 },
    CoroKey { pc: u32, dst: u16, coro: u16 },
    CoroResult { pc: u32, dst: u16, coro: u16 },
    IterNext { pc: u32, has: u16, iter: u16, val: u16, src: u16 },
    Finish { kind: Kind, word: u64 },
    Unwind { fault: u8, word: u64, pc: Option<u32> },
    SpawnTask { word: u64 },
    SetUp(Box<Setup>),
    HostCall { func: u32 },
    HostEntry { coro: u64, word: u64 },
    FunctionCall { pc: u32, func: u32, cont: Cont },
    PutWord { reg: u16, word: u64 },
    MakeIterator { src: u64 },
    TakeOutcome,
    HandOver { coro: u64 },
    Grant { fuel: u64 },
    StopRun,
    Look,
}

impl Call {
    /// The calls' names, in 01's order; the index is the call's number.
    pub const NAMES: [&'static str; 28] = [
        "CoroNew",
        "CoroNewIndirect",
        "Spawn",
        "Yield",
        "YieldKv",
        "Await",
        "Resume",
        "ResumeThrow",
        "CoroClose",
        "CoroStatus",
        "CoroCurrent",
        "CoroKey",
        "CoroResult",
        "iter_next",
        "finish",
        "unwind",
        "spawn_task",
        "set_up",
        "host_call",
        "host_entry",
        "function_call",
        "put_word",
        "make_iterator",
        "take_outcome",
        "hand_over",
        "grant",
        "stop_run",
        "look",
    ];

    /// The call's number, from 0.
    #[must_use]
    pub fn number(&self) -> usize {
        match self {
            Call::CoroNew { .. } => 0,
            Call::CoroNewIndirect { .. } => 1,
            Call::Spawn { .. } => 2,
            Call::Yield { .. } => 3,
            Call::YieldKv { .. } => 4,
            Call::Await { .. } => 5,
            Call::Resume { .. } => 6,
            Call::ResumeThrow { .. } => 7,
            Call::CoroClose { .. } => 8,
            Call::CoroStatus { .. } => 9,
            Call::CoroCurrent { .. } => 10,
            Call::CoroKey { .. } => 11,
            Call::CoroResult { .. } => 12,
            Call::IterNext { .. } => 13,
            Call::Finish { .. } => 14,
            Call::Unwind { .. } => 15,
            Call::SpawnTask { .. } => 16,
            Call::SetUp(_) => 17,
            Call::HostCall { .. } => 18,
            Call::HostEntry { .. } => 19,
            Call::FunctionCall { .. } => 20,
            Call::PutWord { .. } => 21,
            Call::MakeIterator { .. } => 22,
            Call::TakeOutcome => 23,
            Call::HandOver { .. } => 24,
            Call::Grant { .. } => 25,
            Call::StopRun => 26,
            Call::Look => 27,
        }
    }

    #[must_use]
    pub fn name(&self) -> &'static str {
        Call::NAMES[self.number()]
    }

    #[must_use]
    pub fn is_instruction(&self) -> bool {
        self.number() < 14
    }

    /// An instruction's pc.
    #[must_use]
    pub fn pc(&self) -> Option<u32> {
        match *self {
            Call::CoroNew { pc, .. }
            | Call::CoroNewIndirect { pc, .. }
            | Call::Spawn { pc, .. }
            | Call::Yield { pc, .. }
            | Call::YieldKv { pc, .. }
            | Call::Await { pc, .. }
            | Call::Resume { pc, .. }
            | Call::ResumeThrow { pc, .. }
            | Call::CoroClose { pc, .. }
            | Call::CoroStatus { pc, .. }
            | Call::CoroCurrent { pc, .. }
            | Call::CoroKey { pc, .. }
            | Call::CoroResult { pc, .. }
            | Call::IterNext { pc, .. } => Some(pc),
            _ => None,
        }
    }

    /// The registers that an instruction names.
    #[must_use]
    pub fn registers(&self) -> Vec<u16> {
        match *self {
            Call::CoroNew { dst, .. } | Call::CoroCurrent { dst, .. } => vec![dst],
            Call::CoroNewIndirect { dst, callee, .. } | Call::Spawn { dst, callee, .. } => {
                vec![dst, callee]
            }
            Call::Yield { dst, src, .. } | Call::Await { dst, src, .. } => vec![dst, src],
            Call::YieldKv { dst, src, key, .. } => vec![dst, src, key],
            Call::Resume { dst, coro, src, .. }
            | Call::ResumeThrow { dst, coro, src, .. }
            | Call::CoroClose { dst, coro, src, .. } => vec![dst, coro, src],
            Call::CoroStatus { dst, coro, .. }
            | Call::CoroKey { dst, coro, .. }
            | Call::CoroResult { dst, coro, .. } => vec![dst, coro],
            Call::IterNext { has, iter, val, src, .. } => vec![has, iter, val, src],
            _ => Vec::new(),
        }
    }

    /// The first register past an instruction's argument window, if it has
    /// one: the window is `dst + 1 .. this`.
    #[must_use]
    pub fn window_end(&self) -> Option<usize> {
        match *self {
            Call::CoroNew { dst, argc, .. }
            | Call::CoroNewIndirect { dst, argc, .. }
            | Call::Spawn { dst, argc, .. } => Some(usize::from(dst) + 1 + usize::from(argc)),
            _ => None,
        }
    }
}

/// What an instruction tells the dispatch loop.
#[derive(Clone, Copy, PartialEq, Eq, Debug)]
pub enum Step {
    /// Not an instruction, or refused by the gate.
    None,
    Next,
    Frame,
    Fault,
    Unwind,
}

/// What happened, where the number alone does not say it.
#[derive(Clone, Copy, PartialEq, Eq, Debug)]
pub enum Case {
    /// The number says it all.
    Plain,
    /// The charge started a cleanup.
    Cleanup,
    /// Spawn's 10 after its coroutine was made.
    Made,
    /// `unwind` took a handler.
    Caught,
    /// `unwind` stopped at the host, at a cleanup or at a close that succeeded.
    Stopped,
    /// `finish` goes on in the frame below.
    Resume,
    /// `finish` leaves without a word.
    Exit,
    /// `finish` leaves with a word.
    ExitWord,
    /// Take outcome: there was none.
    NoOutcome,
    Yielded,
    Awaiting,
    Returned,
    Failed,
    CloseIgnored,
}

#[derive(Clone, PartialEq, Eq, Debug)]
pub struct Answer {
    pub number: u8,
    pub word: u64,
    pub step: Step,
    /// Queue words that the start of a cleanup took off.
    pub taken: u64,
    pub case: Case,
    /// Look: the words seen. A failed outcome: function and pc.
    pub words: Vec<u64>,
}

impl Answer {
    /// A refusal, or an acceptance with no word of its own.
    #[must_use]
    pub fn plain(number: u8) -> Answer {
        Answer { number, word: 0, step: Step::None, taken: 0, case: Case::Plain, words: Vec::new() }
    }

    #[must_use]
    pub fn word(word: u64) -> Answer {
        Answer { word, ..Answer::plain(0) }
    }

    #[must_use]
    pub fn case(number: u8, word: u64, case: Case) -> Answer {
        Answer { word, case, ..Answer::plain(number) }
    }

    /// The answer of an instruction.
    #[must_use]
    pub fn step(number: u8, word: u64, step: Step) -> Answer {
        Answer { word, step, ..Answer::plain(number) }
    }

    /// Take outcome's answer.
    #[must_use]
    pub fn outcome(stop: Option<Stop>) -> Answer {
        match stop {
            None => Answer::case(0, 0, Case::NoOutcome),
            Some(Stop::Yielded(w)) => Answer::case(0, w, Case::Yielded),
            Some(Stop::Awaiting(w)) => Answer::case(0, w, Case::Awaiting),
            Some(Stop::Returned(w)) => Answer::case(0, w, Case::Returned),
            Some(Stop::Failed(w, func, pc)) => Answer {
                words: vec![u64::from(func), u64::from(pc)],
                ..Answer::case(0, w, Case::Failed)
            },
            Some(Stop::CloseIgnored) => Answer::case(0, 0, Case::CloseIgnored),
        }
    }
}
