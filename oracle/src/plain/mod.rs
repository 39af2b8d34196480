//! A second engine, written from 01's prose over plain values. It is
//! slow and simple: it checks the driver around the original, and its wrong
//! forms (see `wrong`) show what the recorded answers can tell apart.

mod create;
mod ending;
mod fuel;
mod instructions;
mod memory;
mod switch;
pub mod wrong;

use crate::call::{Answer, Call, Case, Kind};
use crate::engine::{gate, Engine};
use crate::world::{Cont, World};
use wrong::Wrong;

/// A refusal: the fault's number, and the word of a 17.
#[derive(Clone, Copy, PartialEq, Eq, Debug)]
pub(crate) struct Refusal {
    number: u8,
    word: u64,
}

type Outcome<T = ()> = Result<T, Refusal>;

fn refuse<T>(number: u8) -> Outcome<T> {
    Err(Refusal { number, word: 0 })
}

/// The engine, right or wrong in one way.
#[derive(Default)]
pub struct Plain {
    w: World,
    wrong: Option<Wrong>,
}

impl Engine for Plain {
    fn load(&mut self, w: &World) {
        self.w = w.clone();
    }

    fn call(&mut self, call: &Call) -> Answer {
        match self.wrong {
            Some(Wrong::ConstantAnswer) => {
                self.answer(call);
                return Answer::plain(0);
            }
            Some(Wrong::AlwaysRefuses) => return Answer::plain(3),
            Some(Wrong::DoesNothing) => {
                let before = self.w.clone();
                let answer = self.answer(call);
                self.w = before;
                return answer;
            }
            _ => {}
        }
        self.answer(call)
    }

    fn world(&self) -> World {
        self.w.clone()
    }
}

impl Plain {
    /// An engine that is wrong in the given way.
    #[must_use]
    pub fn wrong(wrong: Wrong) -> Plain {
        Plain { w: World::default(), wrong: Some(wrong) }
    }

    fn is(&self, wrong: Wrong) -> bool {
        self.wrong == Some(wrong)
    }

    fn answer(&mut self, call: &Call) -> Answer {
        if let Some(number) = self.gate(call) {
            return Answer::plain(number);
        }
        if call.is_instruction() {
            return self.instruction(call);
        }
        match self.outer(call) {
            Ok(answer) => answer,
            Err(r) => Answer { word: r.word, ..Answer::plain(r.number) },
        }
    }

    fn gate(&self, call: &Call) -> Option<u8> {
        let regs = self.w.window().len();
        let last = |&r: &u16| usize::from(r) + 1 == regs;
        if self.is(Wrong::LastRegisterRefused) && call.registers().iter().any(last) {
            return Some(13);
        }
        if self.is(Wrong::EmptyWindowRefused) && call.window_end() == Some(regs) {
            return Some(13);
        }
        gate(&self.w, call)
    }

    /// `finish`, `unwind`, `spawn_task` and the added calls, past the gate.
    fn outer(&mut self, call: &Call) -> Outcome<Answer> {
        match *call {
            Call::SetUp(ref s) => self.w = World::fresh((**s).clone()),
            Call::Finish { kind, word } => {
                let result = (kind != Kind::None).then_some(word);
                return self.finish(result, kind);
            }
            Call::Unwind { fault, word, pc } => return self.unwind(fault, word, pc),
            Call::SpawnTask { word } => {
                self.spawn_task(word)?;
                return Ok(Answer::word(word));
            }
            Call::HostCall { func } => self.push_frame(func, Cont::Entry)?,
            Call::HostEntry { coro, word } => self.host_entry(coro, word)?,
            Call::FunctionCall { pc, func, cont } => {
                let caller = self.w.frames.len() - 1;
                let pushed = self.push_frame(func, cont);
                if pushed.is_ok() || self.is(Wrong::CallStoresPcOnRefusal) {
                    self.w.frames[caller].pc = pc;
                }
                pushed?;
            }
            Call::PutWord { reg, word } => self.put(reg, word),
            Call::MakeIterator { src } => return self.make_iterator(src).map(Answer::word),
            Call::TakeOutcome => {
                let stop = self.w.outcome;
                if !self.is(Wrong::OutcomeStays) {
                    self.w.outcome = None;
                }
                return Ok(Answer::outcome(stop));
            }
            Call::HandOver { coro } => self.hand_over(coro)?,
            Call::Grant { fuel } => match &mut self.w.bank {
                Some(bank) if self.wrong != Some(Wrong::GrantPassesTheBank) => *bank += fuel,
                _ => self.w.fuel = self.w.fuel.wrapping_add(fuel),
            },
            Call::StopRun => self.stop_run(),
            Call::Look => {
                return Ok(Answer { words: self.w.window().to_vec(), ..Answer::plain(0) })
            }
            _ => unreachable!("an instruction"),
        }
        Ok(Answer::case(0, 0, Case::Plain))
    }
}
