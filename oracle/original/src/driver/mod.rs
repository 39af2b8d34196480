//! The original behind 01's calls: the gate, the added calls, rows,
//! and answer 14 are the driver's; everything else is the original's code.

pub(crate) mod bench;
pub(crate) mod bridge;
mod full;
mod instruction;
mod outer;

use oracle::call::{Answer, Call, Step};
use oracle::engine::{gate, Engine};
use oracle::world::{Func, Object, Setup, World};

use crate::fault::Fault;
use crate::machine::Machine;
use crate::program::Program;

/// The original, holding one state.
pub struct Original {
    prog: Program,
    m: Machine,
    stack: Vec<u64>,
    /// The state as values: what the last call left.
    world: World,
}

impl Engine for Original {
    fn load(&mut self, w: &World) {
        *self = Original::new(w);
    }

    fn call(&mut self, call: &Call) -> Answer {
        if let Some(number) = gate(&self.world, call) {
            return Answer::plain(number);
        }
        if !matches!(call, Call::SetUp(_)) {
            assert_eq!(self.world.setup.costs, bridge::costs(), "costs of another build");
        }
        let answer = match call {
            Call::SetUp(s) => {
                self.load(&World::fresh((**s).clone()));
                return Answer::plain(0);
            }
            c if c.is_instruction() => self.instruction(c),
            c => self.outer(c),
        };
        self.note_state();
        answer
    }

    fn world(&self) -> World {
        self.world.clone()
    }
}

impl Original {
    /// The original before any set-up: the least machine there is.
    #[must_use]
    pub fn blank() -> Original {
        let setup = Setup {
            depth: 1,
            stack: 1,
            rows: 1,
            slots: 1,
            costs: bridge::costs(),
            funcs: vec![Func::default()],
            ..Setup::default()
        };
        Original::new(&World::fresh(setup))
    }

    /// Takes over a sound state. No call but a set-up follows one whose costs
    /// are not this build's.
    pub(crate) fn new(w: &World) -> Original {
        let prog = bridge::program(&w.setup);
        let m = bridge::machine(&prog, w);
        Original { prog, m, stack: w.stack.clone(), world: w.clone() }
    }

    /// Reads the state back after a call. A new coroutine takes the lowest
    /// free row and a finished one has given its row back. The original knows
    /// the largest saved sizes as capacities, so what a loaded state has below
    /// what is saved shows until the entry.
    fn note_state(&mut self) {
        let old = &self.world;
        let free = old.rows_taken().iter().position(|&t| !t);
        let row = |slot: usize| match old.slots.get(slot).map(|s| &s.object) {
            Some(Object::Coro(c)) => c.row,
            _ => free.expect("14 comes before a creation without a row"),
        };
        let mut new = bridge::world(&old.setup, &self.m, &self.stack, row);
        for (i, slot) in new.slots.iter_mut().enumerate() {
            let Object::Coro(c) = &mut slot.object else {
                continue;
            };
            let Some(Object::Coro(was)) = old.slots.get(i).map(|s| &s.object) else {
                continue;
            };
            if c.state.is_finished() {
                c.row = 0;
            }
            if was.state.is_resumable() && c.state.is_resumable() {
                // Still asleep: its sizes are what they were.
                (c.max_regs, c.max_frames) = (was.max_regs, was.max_frames);
            }
        }
        self.world = new;
    }
}

fn of_fault(f: Fault, step: Step) -> Answer {
    match f {
        Fault::Throw(w) => Answer::step(17, w, step),
        Fault::Raise(k) | Fault::RaiseWith(k, _) | Fault::Trap(k) => {
            Answer::step(bridge::number_of(k), 0, step)
        }
    }
}
