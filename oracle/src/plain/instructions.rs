//! The fourteen instructions, past the gate.

use super::fuel::Charge;
use super::wrong::Wrong;
use super::{refuse, Outcome, Plain, Refusal};
use crate::call::{Answer, Call, Case, Step};
use crate::word;
use crate::world::{Cont, Driver, Object, State};

/// How an instruction ends when it does not simply go on.
enum Stop {
    /// Refused at its own pc.
    Fault(Refusal),
    /// An unwinding in the new top frame.
    Unwind(Refusal),
}

impl From<Refusal> for Stop {
    fn from(r: Refusal) -> Stop {
        Stop::Fault(r)
    }
}

type Done = Result<Step, Stop>;

/// A refusal at the instruction's own pc.
fn fault(number: u8) -> Done {
    Err(Stop::Fault(Refusal { number, word: 0 }))
}

fn thrown(word: u64) -> Refusal {
    Refusal { number: 17, word }
}

impl Plain {
    pub(super) fn instruction(&mut self, call: &Call) -> Answer {
        let queued = self.w.cleanup.len();
        let objects = self.w.slots.len();
        let mut case = Case::Plain;
        let done = match self.charge(call.pc().unwrap_or(0)) {
            Ok(Charge::Done) => self.run(call),
            Ok(Charge::Cleanup) => {
                case = Case::Cleanup;
                Err(Stop::Unwind(thrown(word::NIL)))
            }
            Err(r) => Err(Stop::Fault(r)),
        };
        let (step, r) = match done {
            Ok(step) => (step, Refusal { number: 0, word: 0 }),
            Err(Stop::Fault(r)) => (Step::Fault, r),
            Err(Stop::Unwind(r)) => (Step::Unwind, r),
        };
        if r.number == 10 && self.w.slots.len() > objects {
            case = Case::Made;
        }
        let taken =
            if self.is(Wrong::InventsTheCount) { queued } else { queued - self.w.cleanup.len() };
        Answer { taken: taken as u64, case, ..Answer::step(r.number, r.word, step) }
    }

    fn reg(&self, r: u16) -> u64 {
        self.w.window()[usize::from(r)]
    }

    fn run(&mut self, call: &Call) -> Done {
        match *call {
            Call::CoroNew { dst, func, argc, .. } => {
                let args = self.arguments(dst, argc);
                let made = self.create(func, word::NIL, &args)?;
                self.put(dst, made);
            }
            Call::CoroNewIndirect { dst, callee, argc, .. } => {
                let made = self.indirect(dst, callee, argc)?;
                self.put(dst, made);
            }
            Call::Spawn { pc, dst, callee, argc } => return self.spawn(pc, dst, callee, argc),
            Call::Yield { pc, dst, src } => return self.yields(pc, dst, src, None),
            Call::YieldKv { pc, dst, src, key } => return self.yields(pc, dst, src, Some(key)),
            Call::Await { pc, dst, src } => return self.awaits(pc, dst, src),
            Call::Resume { pc, dst, coro, src } => return self.resume(pc, dst, coro, src),
            Call::ResumeThrow { pc, dst, coro, src } => return self.throw(pc, dst, coro, src),
            Call::CoroClose { pc, dst, coro, src } => return self.close(pc, dst, coro, src),
            Call::CoroStatus { dst, coro, .. } => {
                let state = self.state(self.reg(coro))?;
                self.put(dst, state.code());
            }
            Call::CoroCurrent { dst, .. } => {
                let current = self.w.chain.last().map_or(word::NIL, |a| a.coro);
                self.put(dst, current);
            }
            Call::CoroKey { dst, coro, .. } => {
                let key = self.coro(self.reg(coro))?.key;
                self.put(dst, key);
            }
            Call::CoroResult { dst, coro, .. } => {
                let c = self.coro(self.reg(coro))?;
                let failed = c.state == State::Failed && self.is(Wrong::FailedHasAResult);
                if c.state != State::Returned && !failed {
                    return fault(3);
                }
                let result = c.result;
                self.put(dst, result);
            }
            Call::IterNext { .. } => return self.iter_next(call),
            _ => unreachable!("not an instruction"),
        }
        Ok(Step::Next)
    }

    /// The argument window, set aside.
    fn arguments(&self, dst: u16, argc: u8) -> Vec<u64> {
        let first = usize::from(dst) + 1;
        self.w.window()[first..first + usize::from(argc)].to_vec()
    }

    fn indirect(&mut self, dst: u16, callee: u16, argc: u8) -> Outcome<u64> {
        let closure = self.reg(callee);
        let func = match self.find(closure) {
            Some(&Object::Func(f)) => f,
            _ => return Err(self.not_a(closure)),
        };
        let Some(body) = self.w.setup.funcs.get(func as usize) else {
            return refuse(2);
        };
        if body.nparams != u64::from(argc) {
            return refuse(2);
        }
        let args = self.arguments(dst, argc);
        let closure = if self.is(Wrong::ClosureForgotten) { word::NIL } else { closure };
        self.create(func, closure, &args)
    }

    fn spawn(&mut self, pc: u32, dst: u16, callee: u16, argc: u8) -> Done {
        let hook = self.w.setup.hook;
        let late = self.is(Wrong::HookTestedLate);
        if hook.is_none() && !late {
            return fault(8);
        }
        let made = self.indirect(dst, callee, argc)?;
        let Some(hook) = hook else { return fault(8) };
        if !self.is(Wrong::SpawnTakesOneUnit) {
            self.charge_within()?;
        }
        let caller = self.w.frames.len() - 1;
        if self.is(Wrong::SpawnStoresPcEarly) {
            self.w.frames[caller].pc = pc;
        }
        self.push_frame(hook as u32, Cont::Value(dst))?;
        self.put(0, made);
        self.w.frames[caller].pc = pc;
        Ok(Step::Frame)
    }

    fn yields(&mut self, pc: u32, dst: u16, src: u16, keyed: Option<u16>) -> Done {
        if self.is(Wrong::PcBeforeFive) {
            self.store_pc(pc);
        }
        let Some(&act) = self.w.chain.last() else { return fault(5) };
        let payload = self.reg(src);
        let largest = self.coro(act.coro)?.max_key;
        let objects = self.w.slots.len();
        let used = self.w.used;
        let key = match keyed {
            Some(r) => {
                let key = self.reg(r);
                let raised = match self.integer(key) {
                    Some(i) if self.is(Wrong::LargestFollowsEveryKey) => i,
                    Some(i) => largest.max(i),
                    None => largest,
                };
                (key, raised)
            }
            None => {
                if self.is(Wrong::PcBeforeSeven) {
                    self.store_pc(pc);
                }
                let Some(next) = largest.checked_add(1) else { return fault(7) };
                (self.encode(next)?, next)
            }
        };
        self.store_pc(pc);
        let out = self.suspend(State::Yielded, dst, payload, Some(key));
        if out.is_err() && self.is(Wrong::KeyObjectTakenBack) {
            self.w.slots.truncate(objects);
            self.w.used = used;
        }
        let (driver, event) = out?;
        self.deliver(driver, event).map_err(Stop::Unwind)?;
        Ok(Step::Frame)
    }

    fn awaits(&mut self, pc: u32, dst: u16, src: u16) -> Done {
        let Some(&act) = self.w.chain.last() else { return fault(5) };
        let looped = matches!(act.driver, Driver::Iter { .. });
        if looped && self.is(Wrong::LoopAwaitRefusedEarly) {
            return fault(2);
        }
        let payload = self.reg(src);
        self.store_pc(pc);
        let (driver, event) = self.suspend(State::Awaiting, dst, payload, None)?;
        self.deliver(driver, event).map_err(Stop::Unwind)?;
        Ok(Step::Frame)
    }

    fn resume(&mut self, pc: u32, dst: u16, coro: u16, src: u16) -> Done {
        let (c, sent) = (self.reg(coro), self.reg(src));
        let fresh = self.state(c) == Ok(State::Created);
        if fresh && sent != word::NIL && self.is(Wrong::FreshRefusesAWord) {
            return fault(2);
        }
        if !self.is(Wrong::ResumeStoresPcLate) {
            self.store_pc(pc);
        }
        let caller = self.w.frames.len() - 1;
        let waiting = self.enter(c, Driver::Resume(dst))?;
        self.w.frames[caller].pc = pc;
        if let Some(d) = waiting {
            self.send(d, sent);
        }
        Ok(Step::Frame)
    }

    fn throw(&mut self, pc: u32, dst: u16, coro: u16, src: u16) -> Done {
        let (c, word) = (self.reg(coro), self.reg(src));
        let state = self.state(c)?;
        if state == State::Created {
            self.end_coro(c, State::Failed, word);
            return Err(Stop::Fault(thrown(word)));
        }
        if state.is_finished() && self.is(Wrong::ClosedRaisesTheThrown) {
            return Err(Stop::Fault(thrown(word)));
        }
        self.store_pc(pc);
        let waiting = self.enter(c, Driver::Resume(dst))?;
        if self.is(Wrong::ThrowStepsPc) && waiting.is_some() {
            self.step_pc();
        }
        Err(Stop::Unwind(thrown(word)))
    }

    fn close(&mut self, pc: u32, dst: u16, coro: u16, src: u16) -> Done {
        let (c, signal) = (self.reg(coro), self.reg(src));
        match self.state(c)? {
            State::Created => self.end_coro(c, State::Returned, word::NIL),
            State::Returned | State::Failed => {}
            State::Running => return fault(3),
            State::Yielded | State::Awaiting => {
                self.store_pc(pc);
                self.enter(c, Driver::Resume(dst))?;
                let nil = self.is(Wrong::SignalIsNil);
                let co = self.coro_mut(c);
                co.closing = true;
                co.signal = if nil { word::NIL } else { signal };
                return Err(Stop::Unwind(thrown(signal)));
            }
        }
        self.put(dst, word::NIL);
        Ok(Step::Next)
    }

    fn iter_next(&mut self, call: &Call) -> Done {
        let Call::IterNext { pc, has, iter, val, src } = *call else {
            unreachable!("not iter_next")
        };
        let (iter, src) = (self.reg(iter), self.reg(src));
        let done = matches!(self.find(iter), Some(Object::Iter { done: true, .. }));
        if done && self.is(Wrong::DoneBeforeKind) {
            self.put(has, 0);
            return Ok(Step::Next);
        }
        let state = self.state(src)?;
        if done || state == State::Returned {
            if let Some(Object::Iter { done, .. }) = self.w.get_mut(iter) {
                *done = true;
            }
            self.put(has, 0);
            return Ok(Step::Next);
        }
        if state == State::Awaiting && !self.is(Wrong::LoopWakesAwaiting) {
            return fault(2);
        }
        self.store_pc(pc);
        if let Some(d) = self.enter(src, Driver::Iter { has, val, iter })? {
            self.send(d, word::NIL);
        }
        Ok(Step::Frame)
    }
}
