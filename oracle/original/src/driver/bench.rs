//! The original's speed, without the gate and the dumps around it.

use std::hint::black_box;

use bytecode_lang::{FuncId, Inst, Reg, ValType};
use oracle::switch::{setup, Switch};
use oracle::world::{Costs, World};

use super::{bridge, outer};
use crate::coll;
use crate::coro;
use crate::exec::{Cx, Step};
use crate::fault::Fault;
use crate::machine::{Cont, Machine};
use crate::program::Program;

/// A machine with a bottom frame and a coroutine's word in its register 0.
pub struct Bench {
    prog: Program,
    m: Machine,
    stack: Vec<u64>,
}

/// A fresh one. Its round trips are compiled in this crate.
#[must_use]
pub fn switch(costs: Costs) -> Box<dyn Switch> {
    Box::new(Bench::new(costs))
}

impl Bench {
    #[must_use]
    pub fn new(costs: Costs) -> Bench {
        let w = World::fresh(setup(costs));
        let prog = bridge::program(&w.setup);
        let mut m = bridge::machine(&prog, &w);
        m.fuel = u64::MAX;
        let mut b = Bench { prog, m, stack: Vec::new() };
        b.call(0, Cont::Entry);
        b
    }

    /// The words on the stack.
    #[must_use]
    pub fn stack(&self) -> &[u64] {
        &self.stack
    }

    /// How many frames there are.
    #[must_use]
    pub fn depth(&self) -> usize {
        self.m.frames.len()
    }

    /// A word into a register of the running frame.
    pub fn put(&mut self, reg: u64, word: u64) {
        let base = self.m.frames[self.m.frames.len() - 1].base;
        self.stack[base + reg as usize] = word;
    }

    fn call(&mut self, func: u32, cont: Cont) {
        let pushed = self.m.push_frame(&mut self.stack, &self.prog, func, 0, cont);
        assert!(pushed.is_ok(), "room for a frame");
    }

    fn step(&mut self, inst: Inst) -> Step {
        let fi = self.m.frames.len() - 1;
        let top = self.m.frames[fi];
        let cx = Cx {
            info: &self.prog.funcs[top.func as usize],
            base: top.base,
            closure: top.closure,
            fi,
        };
        coro::exec(&mut self.m, &mut self.stack, &self.prog, &cx, 0, inst)
    }

    fn unwound(&mut self, fault: Fault) {
        let Bench { prog, m, stack } = self;
        assert!(m.unwind(stack, prog, fault).is_ok(), "unwound");
    }

    /// A step that raises a word, and the unwinding of it.
    fn raised(&mut self, inst: Inst) {
        let Step::Unwind(fault) = self.step(inst) else { panic!("a word is raised") };
        self.unwound(fault);
    }
}

impl Switch for Bench {
    fn push(&mut self, func: u32) {
        self.call(func, Cont::Discard);
    }

    fn create(&mut self, func: u32) {
        let step = self.step(Inst::CoroNew { dst: Reg(0), func: FuncId(func), argc: 0 });
        assert!(matches!(step, Step::Next), "created");
    }

    fn resume(&mut self) {
        let step = self.step(Inst::Resume { dst: Reg(1), coro: Reg(0), src: Reg(2) });
        assert!(matches!(step, Step::Frame), "entered");
    }

    fn suspend(&mut self) {
        let step = self.step(Inst::Yield { dst: Reg(0), src: Reg(1) });
        assert!(matches!(step, Step::Frame), "suspended");
    }

    fn throw(&mut self) {
        self.raised(Inst::ResumeThrow { dst: Reg(1), coro: Reg(0), src: Reg(2) });
    }

    fn close(&mut self) {
        self.raised(Inst::CoroClose { dst: Reg(1), coro: Reg(0), src: Reg(2) });
    }

    fn iterate(&mut self) {
        let made = coll::new_iter(&mut self.m.heap, self.stack[0], true);
        self.stack[3] = made.and_then(Result::ok).expect("a coroutine");
    }

    fn next(&mut self) {
        let fi = self.m.frames.len() - 1;
        let top = self.m.frames[fi];
        let cx = Cx {
            info: &self.prog.funcs[top.func as usize],
            base: top.base,
            closure: top.closure,
            fi,
        };
        let (iter, src) = (self.stack[top.base + 3], self.stack[top.base]);
        let (m, stack) = (&mut self.m, &mut self.stack);
        let step = coro::iter_next(m, stack, &self.prog, &cx, 0, (1, iter, 2), src);
        assert!(matches!(step, Step::Frame), "entered");
    }

    fn unwind(&mut self) {
        self.unwound(Fault::Throw(black_box(7)));
    }

    fn finish(&mut self) {
        let done = self.m.finish(&mut self.stack, Some(5), Some(ValType::Dyn));
        assert!(done.is_ok(), "returned");
    }

    fn clean(&mut self) {
        assert!(outer::hand_over(&mut self.m, self.stack[0]).is_ok(), "handed over");
        self.raised(Inst::CoroCurrent { dst: Reg(1) });
    }
}
