//! Lent memories that no machine left: random words, and sound ones damaged.

use super::{Words, CHAIN, FRAMES, FUEL, MACHINE, NAMES, SAVED_FRAMES, SAVED_STACK, SLOTS, STACK};
use crate::generate::Rng;

/// What was done to a memory.
#[derive(Clone, Copy, PartialEq, Eq, PartialOrd, Ord, Debug)]
pub enum Damage {
    /// Random words in slices of any length.
    Random,
    /// Random words, with a good set-up.
    RandomMachine,
    /// One to three words changed.
    Changed,
    /// A slice too short by one.
    Short,
    /// A slice too long, with a word that is not 0.
    Long,
    /// A slice longer than needed, with zeros.
    Longer,
    /// Nothing.
    None,
}

fn some_word(rng: &mut Rng) -> u64 {
    match rng.below(6) {
        0 | 1 => 0,
        2 => rng.below(8) as u64,
        3 => rng.pick(&[1 << 16, 1 << 32, 1 << 48, u64::MAX, (1 << 16) - 1, (1 << 32) - 1]),
        4 => (1 << 48) | rng.below(12) as u64,
        _ => rng.word(),
    }
}

/// Random words in slices of any length; or, in the lengths of a sound memory,
/// with its set-up and sizes.
pub fn random(rng: &mut Rng, sound: &Words) -> (Words, Damage) {
    let mut words = sound.clone();
    if rng.chance(50) {
        for ws in &mut words.0 {
            let n = rng.pick(&[0, 1, 3, 4, 6, 13, 14, 20, 25, 49, 60]);
            *ws = (0..n).map(|_| some_word(rng)).collect();
        }
        return (words, Damage::Random);
    }
    for i in (0..words.0.len()).filter(|&i| NAMES[i] != "setup") {
        let kept = if i == MACHINE { 13 } else { words.0[i].len() };
        for w in &mut words.0[i][..kept] {
            *w = some_word(rng);
        }
    }
    (words, Damage::RandomMachine)
}

/// A sound memory damaged, or left as it is.
pub fn damaged(rng: &mut Rng, sound: &Words) -> (Words, Damage) {
    let mut words = sound.clone();
    let slice = rng.below(words.0.len());
    match rng.below(20) {
        0..=12 => {
            for _ in 0..rng.range(1, 3) {
                change(rng, &mut words);
            }
            (words, Damage::Changed)
        }
        13..=14 => {
            words.0[slice].pop();
            (words, Damage::Short)
        }
        15..=16 => {
            let zeros = rng.below(3);
            let ws = &mut words.0[slice];
            ws.extend(std::iter::repeat_n(0, zeros));
            ws.push(rng.pick(&[1, 7, u64::MAX]));
            (words, Damage::Long)
        }
        17 => {
            for ws in &mut words.0 {
                ws.extend(std::iter::repeat_n(0, rng.pick(&[0, 1, 2, 40])));
            }
            (words, Damage::Longer)
        }
        _ => (words, Damage::None),
    }
}

/// One word is another one now. Words that are in use are hit more often.
pub fn change(rng: &mut Rng, words: &mut Words) {
    let slice = match rng.below(10) {
        0..=1 => MACHINE,
        2 => FUEL,
        3..=4 => SLOTS,
        _ => rng.below(words.0.len()),
    };
    let machine = &words.0[MACHINE];
    let count = |i: usize| machine[i] as usize;
    let in_use = match slice {
        STACK => count(0),
        FRAMES => count(1).saturating_mul(6),
        CHAIN => count(2).saturating_mul(6),
        SLOTS => count(3).saturating_mul(20),
        SAVED_STACK | SAVED_FRAMES => {
            words.0[slice].iter().rposition(|&w| w != 0).map_or(0, |i| i + 1)
        }
        // the numbers rather than the set-up's sizes
        MACHINE => 13,
        _ => words.0[slice].len(),
    };
    let len = words.0[slice].len();
    let within = if rng.chance(80) { in_use.min(len) } else { len };
    if within == 0 {
        return;
    }
    let at = match rng.below(10) {
        0 => len - 1,
        1 => within - 1,
        _ => rng.below(within),
    };
    let other = words.0[slice][rng.below(len)];
    let old = words.0[slice][at];
    words.0[slice][at] = match rng.below(8) {
        0 => 0,
        1 | 2 => old.wrapping_add(1),
        3 | 4 => old.wrapping_sub(1),
        5 => other,
        6 => rng.below(9) as u64,
        _ => some_word(rng),
    };
}
