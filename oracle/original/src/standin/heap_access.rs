//! A child module of the original's heap.rs (added at build time): reads and
//! sets the slots and the memory figure, which are private there. It changes
//! no behaviour of the heap.

use super::{Heap, Object, Slot};

impl Heap {
    /// The slots in order: tag and object.
    pub(crate) fn slots_in_order(&self) -> impl Iterator<Item = (u16, Option<&Object>)> {
        self.slots.iter().map(|s| (s.tag, s.obj.as_ref()))
    }

    /// Appends a slot without charging for it.
    pub(crate) fn push_slot(&mut self, tag: u16, obj: Option<Object>) {
        if matches!(obj, Some(Object::Coro(_))) {
            self.coros.push(self.slots.len() as u32);
        }
        self.slots.push(Slot { tag, obj });
    }

    pub(crate) fn slot_count(&self) -> usize {
        self.slots.len()
    }

    pub(crate) fn set_used(&mut self, used: usize) {
        self.used = used;
    }

    /// What an object is charged when it is stored.
    pub(crate) fn cost(obj: &Object) -> usize {
        obj.bytes()
    }
}
