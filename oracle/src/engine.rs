//! What a driver, the second engine and a replay have in common.

use crate::call::{Answer, Call};
use crate::sound::good_setup;
use crate::world::{Cont, World};

/// Something that runs calls from a state.
pub trait Engine {
    /// Takes over a sound state.
    fn load(&mut self, w: &World);

    fn call(&mut self, call: &Call) -> Answer;

    /// The whole state as values.
    fn world(&self) -> World;
}

/// 01's gate, short of soundness: 11 for a bad set-up or no fault of
/// `unwind`'s, then 12 or 15, then 13 or 16. It is the same for every engine.
#[must_use]
pub fn gate(w: &World, call: &Call) -> Option<u8> {
    let func = |f: u32| (f as usize) < w.setup.funcs.len();
    let top = w.frames.last().map(|f| w.stack.len() - f.base);
    match *call {
        Call::SetUp(ref s) => good_setup(s).is_err().then_some(11),
        Call::Unwind { fault, .. } => (!matches!(fault, 1..=10 | 17)).then_some(11),
        Call::HostCall { .. } | Call::HostEntry { .. } if top.is_some() => Some(15),
        Call::HostCall { func: f } => (!func(f)).then_some(13),
        Call::Grant { fuel } => w.available().checked_add(fuel).is_none().then_some(16),
        Call::PutWord { reg, .. } => match top {
            None => Some(12),
            Some(regs) => (usize::from(reg) >= regs).then_some(13),
        },
        Call::FunctionCall { func: f, cont, .. } => {
            let Some(regs) = top else { return Some(12) };
            let allowed = match cont {
                Cont::Write(r) | Cont::Dyn(r) | Cont::Value(r) => usize::from(r) < regs,
                Cont::Discard => true,
                Cont::Entry | Cont::Coro => false,
            };
            (!func(f) || !allowed).then_some(13)
        }
        ref inst if inst.is_instruction() => {
            let Some(regs) = top else { return Some(12) };
            let inside = inst.registers().iter().all(|&r| usize::from(r) < regs);
            let window = inst.window_end().is_none_or(|end| end <= regs);
            let named = match *inst {
                Call::CoroNew { func: f, .. } => func(f),
                _ => true,
            };
            (!(inside && window && named)).then_some(13)
        }
        _ => None,
    }
}
