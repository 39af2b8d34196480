//! Returns, escapes and handlers.

use super::wrong::Wrong;
use super::{refuse, Outcome, Plain, Refusal};
use crate::call::{Answer, Case, Kind};
use crate::word;
use crate::world::{Cont, Driver, Handler, Object, State, Stop};

impl Plain {
    /// Marks a coroutine finished: nothing saved, its row given back.
    pub(super) fn end_coro(&mut self, coro: u64, state: State, result: u64) {
        let keeps_sizes = self.is(Wrong::FinishedKeepsSizes);
        let keeps_row = self.is(Wrong::FinishedKeepsRow);
        let c = self.coro_mut(coro);
        c.state = state;
        c.result = result;
        c.closing = false;
        c.signal = word::NIL;
        c.regs.clear();
        c.frames.clear();
        if !keeps_row {
            c.row = 0;
        }
        if !keeps_sizes {
            (c.max_regs, c.max_frames) = (0, 0);
        }
    }

    /// A result as a dynamic word.
    fn as_dynamic(&mut self, result: Option<u64>, kind: Kind) -> Outcome<u64> {
        match (result, kind) {
            (None, _) | (_, Kind::None) => Ok(word::NIL),
            (Some(w), Kind::Dyn) => Ok(w),
            (Some(w), Kind::I64) => self.encode(w as i64),
            (Some(w), Kind::U64) => match i64::try_from(w) {
                Err(_) if !self.is(Wrong::LargeU64Wraps) => refuse(7),
                _ => self.encode(w as i64),
            },
        }
    }

    /// `finish`: the top frame returns.
    pub(super) fn finish(&mut self, result: Option<u64>, kind: Kind) -> Outcome<Answer> {
        let exit = |engine: &Plain| match result {
            Some(w) => Answer::case(0, w, Case::ExitWord),
            None if engine.is(Wrong::ExitAlwaysHasAWord) => Answer::case(0, 0, Case::ExitWord),
            None => Answer::case(0, 0, Case::Exit),
        };
        let Some(&frame) = self.w.frames.last() else {
            return Ok(exit(self));
        };
        if frame.cont == Cont::Coro {
            // Converted before the frame is given up.
            let mut value = self.as_dynamic(result, kind)?;
            self.pop();
            if let Some(act) = self.w.chain.pop() {
                let closing = self.coro(act.coro)?.closing;
                self.end_coro(act.coro, State::Returned, value);
                if closing && self.is(Wrong::CloseDropsTheValue) {
                    value = word::NIL;
                }
                self.deliver_return(act.driver, value);
            }
            return Ok(Answer::case(0, 0, Case::Resume));
        }
        self.pop();
        match frame.cont {
            Cont::Entry => return Ok(exit(self)),
            Cont::Write(r) => {
                let result = if self.is(Wrong::VoidWritesNil) {
                    Some(result.unwrap_or(word::NIL))
                } else {
                    result
                };
                if let Some(w) = result {
                    self.put(r, w);
                }
            }
            Cont::Dyn(r) => {
                let w = self.as_dynamic(result, kind)?;
                self.put(r, w);
            }
            Cont::Value(r) => self.put(r, result.unwrap_or(word::NIL)),
            Cont::Discard | Cont::Coro => {}
        }
        self.step_pc();
        Ok(Answer::case(0, 0, Case::Resume))
    }

    fn pop(&mut self) {
        if let Some(f) = self.w.frames.pop() {
            self.w.stack.truncate(f.base);
        }
    }

    /// `unwind`, with a pc to be stored first.
    pub(super) fn unwind(&mut self, fault: u8, thrown: u64, pc: Option<u32>) -> Outcome<Answer> {
        let passes = matches!(fault, 9 | 10);
        if let Some(pc) = pc.filter(|_| !(passes && self.is(Wrong::UnwindDropsPcOfTraps))) {
            self.store_pc(pc);
        }
        let at = self.w.frames.last().map_or((0, 0), |f| (f.func, f.pc));
        let value = match fault {
            17 => thrown,
            9 | 10 => return refuse(fault),
            number => {
                let error = Object::Error { number, func: at.0, pc: at.1, payload: word::NIL };
                self.alloc(self.w.setup.costs.error, error)?
            }
        };
        let uncaught = Err(Refusal { number: 17, word: value });
        loop {
            let Some(&frame) = self.w.frames.last() else {
                return uncaught;
            };
            if let Some(h) = self.handler(frame.func, frame.pc) {
                if !self.is(Wrong::HandlersAreFree) {
                    self.charge_within()?;
                }
                self.store_pc(h.target as u32);
                self.put(h.catch as u16, value);
                return Ok(Answer::case(0, 0, Case::Caught));
            }
            self.pop();
            match frame.cont {
                Cont::Entry => return uncaught,
                Cont::Coro if self.escaped(value, at) => {
                    return Ok(Answer::case(0, 0, Case::Stopped));
                }
                _ => {}
            }
        }
    }

    /// The first in program order with start ≤ pc < end.
    fn handler(&self, func: u32, pc: u32) -> Option<Handler> {
        let pc = u64::from(pc);
        let late = self.is(Wrong::HandlerEndIncluded);
        let covers = |h: &&Handler| h.start <= pc && (pc < h.end || late && pc == h.end);
        let handlers = &self.w.setup.funcs[func as usize].handlers;
        if self.is(Wrong::LastHandlerWins) {
            return handlers.iter().rfind(covers).copied();
        }
        handlers.iter().find(covers).copied()
    }

    /// A word escaped the innermost body. Whether unwinding stops here.
    fn escaped(&mut self, value: u64, at: (u32, u32)) -> bool {
        let Some(act) = self.w.chain.pop() else {
            return false;
        };
        let Ok(c) = self.coro(act.coro) else {
            return false;
        };
        let own = value == c.signal || self.is(Wrong::AnyEscapeCloses);
        let closed = c.closing && own && !self.is(Wrong::OwnSignalFails);
        if closed {
            self.end_coro(act.coro, State::Returned, word::NIL);
            self.deliver_return(act.driver, word::NIL);
            return true;
        }
        self.end_coro(act.coro, State::Failed, value);
        match act.driver {
            Driver::Host => {
                self.w.outcome = Some(Stop::Failed(value, at.0, at.1));
                true
            }
            Driver::Finalize => {
                self.set_finalizing(false);
                !self.is(Wrong::CleanupErrorsGoOn)
            }
            Driver::Resume(_) | Driver::Iter { .. } => false,
        }
    }
}
