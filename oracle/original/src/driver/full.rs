//! Answer 14, which the original does not have: it grows its tables.

use oracle::call::Call;
use oracle::word;
use oracle::world::Object;

use super::Original;

impl Original {
    /// Makes the next memory test fail if `call` may be about to fill a slot
    /// that is not there, and gives the bytes that this test asks for.
    pub(super) fn starve(&mut self, call: &Call) -> Option<u64> {
        let w = &self.world;
        let k = &w.setup.costs;
        let no_slot = w.slots.len() as u64 >= w.setup.slots;
        let no_row = w.rows_taken().iter().all(|&t| t);
        let created = |func: u32| {
            let f = w.setup.funcs.get(func as usize).filter(|_| no_slot || no_row)?;
            Some(8 * f.nregs + k.coro + k.frame)
        };
        let asked = match *call {
            Call::CoroNew { func, .. } => created(func),
            Call::CoroNewIndirect { callee, .. } | Call::Spawn { callee, .. } => {
                match w.get(w.window()[usize::from(callee)]) {
                    Some(&Object::Func(func)) => created(func),
                    _ => None,
                }
            }
            // Only a key that is no inline integer needs a slot.
            Call::Yield { .. } => {
                let active = w.chain.last().and_then(|a| w.coro(a.coro));
                let key = active.and_then(|c| c.max_key.checked_add(1));
                let needs = key.is_some_and(|k| word::inline_int(k).is_none());
                (no_slot && needs).then_some(k.int)
            }
            Call::Finish { .. } => no_slot.then_some(k.int),
            Call::Unwind { fault: 1..=8, .. } => no_slot.then_some(k.error),
            Call::MakeIterator { .. } => no_slot.then_some(k.iter),
            _ => None,
        };
        if asked.is_some() {
            self.m.heap.limit = 0;
        }
        asked
    }

    /// Gives the true limit back. A failed memory test of a starved heap means
    /// 14 exactly if it would have passed.
    pub(super) fn feed(&mut self, starved: Option<u64>, number: u8) -> u8 {
        let limit = self.world.setup.memory;
        self.m.heap.limit = limit as usize;
        match starved {
            Some(asked) if number == 9 && self.world.used.saturating_add(asked) <= limit => 14,
            _ => number,
        }
    }
}
