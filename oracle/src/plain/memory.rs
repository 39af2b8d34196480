//! Words, objects, and the memory figure.

use super::wrong::Wrong;
use super::{refuse, Outcome, Plain, Refusal};
use crate::word;
use crate::world::{Coro, Object, Slot, State};

impl Plain {
    /// The object that a word finds.
    pub(super) fn find(&self, w: u64) -> Option<&Object> {
        if self.is(Wrong::TagIgnored) && word::is_ref(w) {
            let slot = self.w.slots.get(word::ref_parts(w).0 as usize)?;
            return (slot.object != Object::Empty).then_some(&slot.object);
        }
        self.w.get(w)
    }

    /// 1 for nil or a reference that finds no object, else 2.
    pub(super) fn not_a(&self, w: u64) -> Refusal {
        let dead = word::is_ref(w) && self.find(w).is_none();
        let dead = dead && !self.is(Wrong::DeadReferenceIsTwo);
        let number = if w == word::NIL || dead { 1 } else { 2 };
        Refusal { number, word: 0 }
    }

    /// The coroutine that a word names, else 1 or 2.
    pub(super) fn coro(&self, w: u64) -> Outcome<&Coro> {
        match self.find(w) {
            Some(Object::Coro(c)) => Ok(c),
            _ => Err(self.not_a(w)),
        }
    }

    /// The same, to be changed; the caller has found it before.
    pub(super) fn coro_mut(&mut self, w: u64) -> &mut Coro {
        let slot = word::ref_parts(w).0 as usize;
        match &mut self.w.slots[slot].object {
            Object::Coro(c) => c,
            _ => unreachable!("found before"),
        }
    }

    pub(super) fn state(&self, w: u64) -> Outcome<State> {
        self.coro(w).map(|c| c.state)
    }

    fn sum(&self, bytes: u64) -> u64 {
        if self.is(Wrong::MemoryWraps) {
            return self.w.used.wrapping_add(bytes);
        }
        self.w.used.saturating_add(bytes)
    }

    /// A fit test.
    pub(super) fn fits(&self, bytes: u64) -> Outcome {
        let limit = self.w.setup.memory;
        let fits = if self.is(Wrong::MemoryEqualityRefused) {
            self.sum(bytes) < limit
        } else {
            self.sum(bytes) <= limit
        };
        fits.then_some(()).map_or_else(|| refuse(9), Ok)
    }

    /// A memory charge.
    pub(super) fn pay(&mut self, bytes: u64) -> Outcome {
        self.fits(bytes)?;
        self.w.used = self.sum(bytes);
        Ok(())
    }

    /// 14 if every slot is taken.
    pub(super) fn slot_free(&self) -> Outcome {
        let room = (self.w.slots.len() as u64) < self.w.setup.slots;
        room.then_some(()).map_or_else(|| refuse(14), Ok)
    }

    /// Fills the next slot; its memory is paid for.
    pub(super) fn store(&mut self, object: Object) -> u64 {
        let index = self.w.slots.len() as u32;
        self.w.slots.push(Slot { tag: 0, object });
        word::from_ref(index, 0)
    }

    /// A new object: memory (9), then a slot (14).
    pub(super) fn alloc(&mut self, bytes: u64, object: Object) -> Outcome<u64> {
        if self.is(Wrong::SlotBeforeMemory) {
            self.slot_free()?;
        }
        self.fits(bytes)?;
        self.slot_free()?;
        self.pay(bytes)?;
        Ok(self.store(object))
    }

    /// The word of an integer, inline or an object.
    pub(super) fn encode(&mut self, i: i64) -> Outcome<u64> {
        let inline = if self.is(Wrong::InlineOneMore) && i == word::INLINE_END {
            Some(word::INT_TAG | 1 << 47)
        } else {
            word::inline_int(i)
        };
        match inline {
            Some(w) => Ok(w),
            None => self.alloc(self.w.setup.costs.int, Object::Int(i)),
        }
    }

    /// The integer that a word holds.
    pub(super) fn integer(&self, w: u64) -> Option<i64> {
        match (word::inline_value(w), self.find(w)) {
            (Some(i), _) => Some(i),
            (None, Some(Object::Int(i))) if !self.is(Wrong::IntObjectNoKey) => Some(*i),
            _ => None,
        }
    }

    /// A fresh iterator over a coroutine.
    pub(super) fn make_iterator(&mut self, src: u64) -> Outcome<u64> {
        self.coro(src)?;
        let iter = Object::Iter { src, done: false, key: None };
        self.alloc(self.w.setup.costs.iter, iter)
    }
}
