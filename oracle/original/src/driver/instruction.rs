//! The fourteen instructions on the original.

use bytecode_lang::{FuncId, Inst, Reg};
use oracle::call::{Answer, Call, Case, Step};

use super::{of_fault, Original};
use crate::coro;
use crate::exec;
use crate::machine::Driver;

impl Original {
    /// One of the fourteen.
    pub(super) fn instruction(&mut self, call: &Call) -> Answer {
        let queued = self.m.finalize.len();
        let starved = self.starve(call);
        let step = self.exec(call);
        let taken = (queued - self.m.finalize.len()) as u64;
        let cleanup = self.m.coros.len() > self.world.chain.len()
            && self.m.coros.last().is_some_and(|a| a.driver == Driver::Finalize);
        let made = self.m.heap.slot_count() > self.world.slots.len();
        let mut answer = match step {
            exec::Step::Next => Answer::step(0, 0, Step::Next),
            exec::Step::Frame => Answer::step(0, 0, Step::Frame),
            exec::Step::Fault(f) => of_fault(f, Step::Fault),
            exec::Step::Unwind(f) => of_fault(f, Step::Unwind),
        };
        answer.number = self.feed(starved, answer.number);
        answer.taken = taken;
        answer.case = match call {
            _ if cleanup => Case::Cleanup,
            Call::Spawn { .. } if answer.number == 10 && made => Case::Made,
            _ => Case::Plain,
        };
        answer
    }

    /// Runs the original's code for an instruction.
    fn exec(&mut self, call: &Call) -> exec::Step {
        let (prog, m, stack) = (&self.prog, &mut self.m, &mut self.stack);
        let fi = m.frames.len() - 1;
        let top = m.frames[fi];
        let cx = exec::Cx {
            info: prog.func(top.func).expect("every frame names a function"),
            base: top.base,
            closure: top.closure,
            fi,
        };
        let r = Reg;
        let inst = match *call {
            Call::CoroNew { dst, func, argc, .. } => {
                Inst::CoroNew { dst: r(dst), func: FuncId(func), argc }
            }
            Call::CoroNewIndirect { dst, callee, argc, .. } => {
                Inst::CoroNewIndirect { dst: r(dst), callee: r(callee), argc }
            }
            Call::Spawn { dst, callee, argc, .. } => {
                Inst::Spawn { dst: r(dst), callee: r(callee), argc }
            }
            Call::Yield { dst, src, .. } => Inst::Yield { dst: r(dst), src: r(src) },
            Call::YieldKv { dst, src, key, .. } => {
                Inst::YieldKv { dst: r(dst), src: r(src), key: r(key) }
            }
            Call::Await { dst, src, .. } => Inst::Await { dst: r(dst), src: r(src) },
            Call::Resume { dst, coro, src, .. } => {
                Inst::Resume { dst: r(dst), coro: r(coro), src: r(src) }
            }
            Call::ResumeThrow { dst, coro, src, .. } => {
                Inst::ResumeThrow { dst: r(dst), coro: r(coro), src: r(src) }
            }
            Call::CoroClose { dst, coro, src, .. } => {
                Inst::CoroClose { dst: r(dst), coro: r(coro), src: r(src) }
            }
            Call::CoroStatus { dst, coro, .. } => Inst::CoroStatus { dst: r(dst), coro: r(coro) },
            Call::CoroCurrent { dst, .. } => Inst::CoroCurrent { dst: r(dst) },
            Call::CoroKey { dst, coro, .. } => Inst::CoroKey { dst: r(dst), coro: r(coro) },
            Call::CoroResult { dst, coro, .. } => Inst::CoroResult { dst: r(dst), coro: r(coro) },
            Call::IterNext { pc, has, iter, val, src } => {
                let iter = stack[top.base + usize::from(iter)];
                let src = stack[top.base + usize::from(src)];
                return coro::iter_next(m, stack, prog, &cx, pc as usize, (has, iter, val), src);
            }
            _ => unreachable!("not an instruction"),
        };
        let pc = call.pc().expect("an instruction has a pc") as usize;
        coro::exec(m, stack, prog, &cx, pc, inst)
    }
}
