//! The whole state as plain values: what a dump holds.

use crate::word;

/// A try region of a function.
#[derive(Clone, Copy, PartialEq, Eq, Debug)]
pub struct Handler {
    pub start: u64,
    pub end: u64,
    pub target: u64,
    pub catch: u64,
}

#[derive(Clone, PartialEq, Eq, Debug, Default)]
pub struct Func {
    pub nregs: u64,
    pub nparams: u64,
    pub handlers: Vec<Handler>,
}

/// The set-up's costs in bytes: 01's F, C, A, I, E, T.
#[derive(Clone, Copy, PartialEq, Eq, Debug, Default)]
pub struct Costs {
    pub frame: u64,
    pub coro: u64,
    pub coro_object: u64,
    pub int: u64,
    pub error: u64,
    pub iter: u64,
}

/// The set-up numbers. They may break the rules: then a set-up answers 11.
#[derive(Clone, PartialEq, Eq, Debug, Default)]
pub struct Setup {
    pub depth: u64,
    pub stack: u64,
    pub rows: u64,
    pub slots: u64,
    pub memory: u64,
    pub costs: Costs,
    pub hook: Option<u64>,
    pub funcs: Vec<Func>,
}

/// What happens to a callee's result.
#[derive(Clone, Copy, PartialEq, Eq, Debug)]
pub enum Cont {
    Entry,
    Write(u16),
    Dyn(u16),
    Value(u16),
    Discard,
    Coro,
}

#[derive(Clone, Copy, PartialEq, Eq, Debug)]
pub struct Frame {
    pub func: u32,
    pub pc: u32,
    pub base: usize,
    pub closure: u64,
    pub cont: Cont,
}

/// Who resumed a running coroutine.
#[derive(Clone, Copy, PartialEq, Eq, Debug)]
pub enum Driver {
    Resume(u16),
    Iter { has: u16, val: u16, iter: u64 },
    Host,
    Finalize,
}

/// A running coroutine: its body frame is frame number `floor`.
#[derive(Clone, Copy, PartialEq, Eq, Debug)]
pub struct Active {
    pub coro: u64,
    pub floor: usize,
    pub driver: Driver,
}

/// A coroutine's state; the number is 01's code.
#[derive(Clone, Copy, PartialEq, Eq, Debug)]
pub enum State {
    Created,
    Running,
    Yielded,
    Awaiting,
    Returned,
    Failed,
}

impl State {
    pub const ALL: [State; 6] = [
        State::Created,
        State::Running,
        State::Yielded,
        State::Awaiting,
        State::Returned,
        State::Failed,
    ];

    #[must_use]
    pub fn code(self) -> u64 {
        self as u64
    }

    #[must_use]
    pub fn is_resumable(self) -> bool {
        matches!(self, State::Created) || self.is_suspended()
    }

    #[must_use]
    pub fn is_suspended(self) -> bool {
        matches!(self, State::Yielded | State::Awaiting)
    }

    #[must_use]
    pub fn is_finished(self) -> bool {
        matches!(self, State::Returned | State::Failed)
    }
}

#[derive(Clone, PartialEq, Eq, Debug)]
pub struct Coro {
    pub state: State,
    pub closing: bool,
    pub finalized: bool,
    pub task: bool,
    pub seq: u64,
    /// The row of an unfinished coroutine; 0 for a finished one.
    pub row: usize,
    /// The waiting register.
    pub resume_dst: u16,
    pub payload: u64,
    pub key: u64,
    pub max_key: i64,
    pub result: u64,
    pub signal: u64,
    /// The largest saved sizes so far: words and frames.
    pub max_regs: usize,
    pub max_frames: usize,
    pub regs: Vec<u64>,
    pub frames: Vec<Frame>,
}

impl Coro {
    /// One that has nothing yet; the largest key's start is -1.
    pub fn blank(state: State) -> Self {
        Coro {
            state,
            closing: false,
            finalized: false,
            task: false,
            seq: 0,
            row: 0,
            resume_dst: 0,
            payload: 0,
            key: 0,
            max_key: -1,
            result: 0,
            signal: 0,
            max_regs: 0,
            max_frames: 0,
            regs: Vec::new(),
            frames: Vec::new(),
        }
    }
}

#[derive(Clone, PartialEq, Eq, Debug)]
pub enum Object {
    Empty,
    Func(u32),
    Int(i64),
    Iter { src: u64, done: bool, key: Option<u64> },
    Error { number: u8, func: u32, pc: u32, payload: u64 },
    Coro(Box<Coro>),
}

#[derive(Clone, PartialEq, Eq, Debug)]
pub struct Slot {
    pub tag: u16,
    pub object: Object,
}

/// What a coroutine that the host drives did.
#[derive(Clone, Copy, PartialEq, Eq, Debug)]
pub enum Stop {
    Yielded(u64),
    Awaiting(u64),
    Returned(u64),
    Failed(u64, u32, u32),
    CloseIgnored,
}

#[derive(Clone, PartialEq, Eq, Debug, Default)]
pub struct World {
    pub setup: Setup,
    pub stack: Vec<u64>,
    /// Bottom first.
    pub frames: Vec<Frame>,
    /// Outermost first.
    pub chain: Vec<Active>,
    pub slots: Vec<Slot>,
    pub ready: Vec<u64>,
    pub cleanup: Vec<u64>,
    pub fuel: u64,
    pub bank: Option<u64>,
    pub close_ready: bool,
    pub finalizing: bool,
    pub used: u64,
    pub seq: u64,
    pub outcome: Option<Stop>,
}

impl World {
    /// The machine that an accepted set-up leaves: a function object for each
    /// function, uncharged, and no fuel.
    #[must_use]
    pub fn fresh(setup: Setup) -> World {
        let slots = (0..setup.funcs.len() as u32)
            .map(|f| Slot { tag: 0, object: Object::Func(f) })
            .collect();
        World { setup, slots, ..World::default() }
    }

    /// The object that a word finds: a filled slot with an equal tag.
    #[must_use]
    pub fn get(&self, w: u64) -> Option<&Object> {
        let slot = self.slots.get(self.slot_of(w)?)?;
        Some(&slot.object)
    }

    pub fn get_mut(&mut self, w: u64) -> Option<&mut Object> {
        let i = self.slot_of(w)?;
        Some(&mut self.slots[i].object)
    }

    /// The slot that a word finds.
    #[must_use]
    pub fn slot_of(&self, w: u64) -> Option<usize> {
        let (slot, tag) = word::ref_parts(w);
        let found = self.slots.get(slot as usize)?;
        (word::is_ref(w) && found.tag == tag && found.object != Object::Empty)
            .then_some(slot as usize)
    }

    #[must_use]
    pub fn coro(&self, w: u64) -> Option<&Coro> {
        match self.get(w)? {
            Object::Coro(c) => Some(c),
            _ => None,
        }
    }

    pub fn coro_mut(&mut self, w: u64) -> Option<&mut Coro> {
        match self.get_mut(w)? {
            Object::Coro(c) => Some(c),
            _ => None,
        }
    }

    /// Every coroutine with the word that names it, by slot.
    pub fn coros(&self) -> impl Iterator<Item = (u64, &Coro)> {
        self.slots.iter().enumerate().filter_map(|(i, s)| match &s.object {
            Object::Coro(c) => Some((word::from_ref(i as u32, s.tag), &**c)),
            _ => None,
        })
    }

    /// Rows of unfinished coroutines.
    #[must_use]
    pub fn rows_taken(&self) -> Vec<bool> {
        let mut taken = vec![false; self.setup.rows as usize];
        for (_, c) in self.coros().filter(|(_, c)| !c.state.is_finished()) {
            if let Some(t) = taken.get_mut(c.row) {
                *t = true;
            }
        }
        taken
    }

    /// The registers of the top frame.
    #[must_use]
    pub fn window(&self) -> &[u64] {
        self.frames.last().map_or(&[], |f| &self.stack[f.base..])
    }

    /// What a charge can draw on: the bank if there is one, else the fuel.
    #[must_use]
    pub fn available(&self) -> u64 {
        self.bank.unwrap_or(self.fuel)
    }

    /// The words that a row has room for.
    #[must_use]
    pub fn row_room(&self) -> u64 {
        let most = self.setup.funcs.iter().map(|f| f.nregs).max();
        self.setup.stack.max(most.unwrap_or(0))
    }
}
