//! Words for registers.

use super::Rng;
use crate::word;
use crate::world::World;

/// Words of every class that a register may hold.
pub(super) struct Words(Vec<u64>);

impl Words {
    pub(super) fn of(w: &World) -> Words {
        let mut words = vec![word::NIL; 2];
        for (i, s) in w.slots.iter().enumerate() {
            words.push(word::from_ref(i as u32, s.tag));
        }
        for i in [0, 1, -1, (1 << 47) - 1, -(1 << 47)] {
            words.extend(word::inline_int(i));
        }
        // A wrong tag, no such slot, and words of no class.
        words.push(word::from_ref(0, 3));
        words.push(word::from_ref(w.slots.len() as u32, 0));
        words.extend([1, 2 * word::REF_BASE, 1 << 63, u64::MAX, 0xFFFD << 48]);
        Words(words)
    }

    pub(super) fn one(&self, rng: &mut Rng) -> u64 {
        rng.pick(&self.0)
    }
}

pub(super) fn some_words(rng: &mut Rng, words: &Words, n: usize) -> Vec<u64> {
    (0..n).map(|_| words.one(rng)).collect()
}
