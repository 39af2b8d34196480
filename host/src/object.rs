//! Objects, to be read: what a word names.

use alloc::vec::Vec;

use crate::ffi::typed;
use crate::view::{frame, Frame};
use crate::{FunctionId, Machine, Pc, Reg, Word};

/// A coroutine's state; the number is 01's code.
#[derive(Clone, Copy, PartialEq, Eq, Debug)]
#[allow(missing_docs)]
pub enum State {
    Created,
    Running,
    Yielded,
    Awaiting,
    Returned,
    Failed,
}

impl State {
    const ALL: [State; 6] = [
        State::Created,
        State::Running,
        State::Yielded,
        State::Awaiting,
        State::Returned,
        State::Failed,
    ];

    /// 01's code, which CoroStatus writes.
    #[must_use]
    pub fn code(self) -> u64 {
        self as u64
    }

    /// The state of a code.
    #[must_use]
    pub fn of(code: u64) -> Option<State> {
        State::ALL.get(usize::try_from(code).ok()?).copied()
    }
}

/// A coroutine, as far as a host asks.
#[derive(Clone, Copy, PartialEq, Eq, Debug)]
pub struct Coroutine {
    /// Its state.
    pub state: State,
    /// Whether it is being closed.
    pub closing: bool,
    /// Whether it was handed over for a cleanup.
    pub finalized: bool,
    /// Whether it is a task.
    pub task: bool,
    /// Its creation's number.
    pub sequence: u64,
    /// Its row, while it is unfinished.
    pub row: usize,
    /// How many words it has saved.
    pub words: usize,
    /// How many frames it has saved.
    pub frames: usize,
    /// The register that a sent word comes to.
    pub waiting: Reg,
    /// What it yielded or awaits last.
    pub payload: Word,
    /// The key of its last yield.
    pub key: Word,
    /// What it returned, or what escaped it.
    pub result: Word,
}

/// What a reference finds.
#[derive(Clone, Copy, PartialEq, Eq, Debug)]
#[allow(missing_docs)]
pub enum Object {
    Function(FunctionId),
    Integer(i64),
    Iterator { source: Word, done: bool, key: Option<Word> },
    Error { number: u64, function: FunctionId, pc: Pc, word: Word },
    Coroutine(Coroutine),
}

impl Machine {
    /// The object that a word finds: a filled slot with an equal tag.
    #[must_use]
    pub fn object(&self, word: Word) -> Option<Object> {
        let (slot, tag) = word.as_reference()?;
        let words = self.words();
        let (slot, count) = (slot as usize, words.machine[3] as usize);
        let x = (slot < count).then(|| &words.slots[slot * 20..][..20])?;
        if x[0] != u64::from(tag) {
            return None;
        }
        let iterator = |key| Object::Iterator { source: Word(x[2]), done: x[3] != 0, key };
        Some(match x[1] {
            1 => Object::Function(FunctionId(x[2] as u32)),
            2 => Object::Integer(x[2] as i64),
            3 => iterator(None),
            4 => iterator(Some(Word(x[4]))),
            5 => Object::Error {
                number: x[2],
                function: FunctionId(x[3] as u32),
                pc: Pc(x[4] as u32),
                word: Word(x[5]),
            },
            6 => Object::Coroutine(Coroutine {
                state: State::of(x[2])?,
                closing: x[3] != 0,
                finalized: x[4] != 0,
                task: x[5] != 0,
                sequence: x[6],
                row: x[7] as usize,
                words: x[8] as usize,
                frames: x[9] as usize,
                waiting: Reg(x[12] as u16),
                payload: Word(x[13]),
                key: Word(x[14]),
                result: Word(x[16]),
            }),
            _ => return None,
        })
    }

    /// The integer that a word stands for: an inline one, or an object.
    #[must_use]
    pub fn integer(&self, word: Word) -> Option<i64> {
        match (word.as_int(), self.object(word)) {
            (Some(n), _) | (None, Some(Object::Integer(n))) => Some(n),
            _ => None,
        }
    }

    /// The coroutine that a word names.
    #[must_use]
    pub fn coroutine(&self, word: Word) -> Option<Coroutine> {
        match self.object(word)? {
            Object::Coroutine(c) => Some(c),
            _ => None,
        }
    }

    /// The words and frames that a sleeping coroutine has saved; bases count
    /// from 0.
    #[must_use]
    pub fn saved(&self, word: Word) -> Option<(&[Word], Vec<Frame>)> {
        let c = self.coroutine(word)?;
        let words = self.words();
        if matches!(c.state, State::Returned | State::Failed) {
            return Some((&[], Vec::new()));
        }
        let (width, depth) = (words.machine[18] as usize, words.machine[13] as usize * 6);
        let frames = words.saved_frames[c.row * depth..][..c.frames * 6].chunks(6);
        let held = typed(&words.saved_stack[c.row * width..][..c.words]);
        Some((held, frames.map(frame).collect()))
    }
}
