//! `finish`, `unwind`, `spawn_task` and the added calls on the original.

use bytecode_lang::{ErrorKind, IntTy, ValType};
use oracle::call::{Answer, Call, Case, Kind, Step};
use oracle::word;

use super::{bridge, of_fault, Original};
use crate::coro::Entered;
use crate::error::VmError;
use crate::fault::Fault;
use crate::machine::{Cont, Driver, Machine, Next};
use crate::{coll, conv};

impl Original {
    /// One of these calls, past the gate.
    pub(super) fn outer(&mut self, call: &Call) -> Answer {
        let starved = self.starve(call);
        let answer = self.run_outer(call);
        Answer { number: self.feed(starved, answer.number), ..answer }
    }

    fn run_outer(&mut self, call: &Call) -> Answer {
        let (prog, m, stack) = (&self.prog, &mut self.m, &mut self.stack);
        match *call {
            Call::Finish { kind, word } => {
                let (result, ty) = match kind {
                    Kind::None => (None, None),
                    Kind::Dyn => (Some(word), Some(ValType::Dyn)),
                    Kind::I64 => (Some(word), Some(ValType::Int(IntTy::I64))),
                    Kind::U64 => (Some(word), Some(ValType::Int(IntTy::U64))),
                };
                match m.finish(stack, result, ty) {
                    Ok(Next::Resume) => Answer::case(0, 0, Case::Resume),
                    Ok(Next::Exit(None)) => Answer::case(0, 0, Case::Exit),
                    Ok(Next::Exit(Some(w))) => Answer::case(0, w, Case::ExitWord),
                    Err(f) => of_fault(f, Step::None),
                }
            }
            Call::Unwind { fault, word, pc } => self.unwind(fault, word, pc),
            Call::SpawnTask { word } => {
                let arg = conv::dyn_value(&m.heap, word);
                result(m.spawn_task(arg))
            }
            Call::HostCall { func } => {
                let cont = Cont::Entry;
                result(m.push_frame(stack, prog, func, word::NIL, cont).map(|_| 0))
            }
            Call::HostEntry { coro, word } => match m.coro_enter(stack, coro, Driver::Host) {
                Ok(Entered::Fresh) => Answer::plain(0),
                Ok(Entered::Suspended(dst)) => {
                    m.coro_send(stack, dst, word);
                    Answer::plain(0)
                }
                Err(f) => of_fault(f, Step::None),
            },
            Call::FunctionCall { pc, func, cont } => {
                let fi = m.frames.len() - 1;
                let pushed = m.push_frame(stack, prog, func, word::NIL, bridge::to_cont(cont));
                if pushed.is_ok() {
                    m.frames[fi].pc = pc;
                }
                result(pushed.map(|_| 0))
            }
            Call::PutWord { reg, word } => {
                let base = m.frames.last().map_or(0, |f| f.base);
                stack[base + usize::from(reg)] = word;
                Answer::plain(0)
            }
            Call::MakeIterator { src } => match coll::new_iter(&mut m.heap, src, true) {
                Some(made) => result(made),
                None => of_fault(coll::not_a(&m.heap, src), Step::None),
            },
            Call::TakeOutcome => Answer::outcome(m.outcome.take().map(bridge::from_stop)),
            Call::HandOver { coro } => result(hand_over(m, coro).map(|()| 0)),
            Call::Grant { fuel } => {
                let record = m.bank.as_mut().unwrap_or(&mut m.fuel);
                *record += fuel;
                Answer::plain(0)
            }
            Call::StopRun => {
                m.abort_coros();
                m.frames.clear();
                stack.clear();
                Answer::plain(0)
            }
            Call::Look => {
                let base = m.frames.last().map_or(stack.len(), |f| f.base);
                Answer { words: stack[base..].to_vec(), ..Answer::plain(0) }
            }
            _ => unreachable!("an instruction or a set-up"),
        }
    }

    /// `unwind`, with the pc stored first. Taking a handler costs one unit and
    /// stopping costs none, so what is left tells the two apart.
    fn unwind(&mut self, number: u8, word: u64, pc: Option<u32>) -> Answer {
        let m = &mut self.m;
        let fault = match number {
            17 => Fault::Throw(word),
            9 | 10 => Fault::Trap(bridge::KINDS[usize::from(number) - 1]),
            _ => Fault::Raise(bridge::KINDS[usize::from(number) - 1]),
        };
        if let (Some(pc), Some(top)) = (pc, m.frames.last_mut()) {
            top.pc = pc;
        }
        let made = word::from_ref(m.heap.slot_count() as u32, 0);
        match m.unwind(&mut self.stack, &self.prog, fault) {
            Ok(()) => {
                let left = m.bank.unwrap_or(m.fuel);
                let case =
                    if left == self.world.available() { Case::Stopped } else { Case::Caught };
                Answer::case(0, 0, case)
            }
            Err(VmError::Trap { kind, .. }) => Answer::plain(bridge::number_of(kind)),
            Err(VmError::Raised { .. } | VmError::Thrown { .. }) => {
                Answer { word: if number == 17 { word } else { made }, ..Answer::plain(17) }
            }
        }
    }
}

/// A Yielded or Awaiting coroutine, not handed over before, joins the queue.
pub(super) fn hand_over(m: &mut Machine, coro: u64) -> Result<(), Fault> {
    use bytecode_lang::CoroState::{Awaiting, Yielded};
    let state = m.coro_state(coro)?;
    let co = m.heap.coro_mut(coro).expect("it has a state");
    if !matches!(state, Yielded | Awaiting) || co.finalized {
        return Err(Fault::raise(ErrorKind::InvalidCoroState));
    }
    co.finalized = true;
    m.finalize.push_back(coro);
    m.set_finalizing(m.finalizing);
    Ok(())
}

fn result(r: Result<u64, Fault>) -> Answer {
    match r {
        Ok(w) => Answer::word(w),
        Err(f) => of_fault(f, Step::None),
    }
}
