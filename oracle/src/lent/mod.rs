//! A machine, calls and answers in words, as the static library takes them
//! (docs/ABI.md). Written from that table and 01: what the library
//! leaves is compared with `write`, and which words are sound is asked of
//! `read`.

mod damage;
mod read;
mod write;

pub use damage::{change, damaged, random, Damage};
pub use read::{read, setup as read_setup};
pub use write::{answer_words, call_words, setup_words};

/// A call in words: its code and five operands.
pub type CallWords = [u64; 6];

/// Number, word, step, words taken off, case, and of an outcome its kind,
/// function and pc.
pub type AnswerWords = [u64; 8];

/// A refusal's words.
#[must_use]
pub fn refused(number: u64) -> AnswerWords {
    [number, 0, 0, 0, 2, 0, 0, 0]
}

pub const STACK: usize = 0;
pub const FRAMES: usize = 1;
pub const CHAIN: usize = 2;
pub const SLOTS: usize = 3;
pub const SAVED_STACK: usize = 4;
pub const SAVED_FRAMES: usize = 5;
pub const READY: usize = 6;
pub const FINALIZE: usize = 7;
pub const SETUP: usize = 8;
pub const MACHINE: usize = 9;
pub const FUEL: usize = 10;

/// The slices' names, in the order in which they are lent.
pub const NAMES: [&str; 11] = [
    "stack",
    "frames",
    "chain",
    "slots",
    "saved_stack",
    "saved_frames",
    "ready",
    "finalize",
    "setup",
    "machine",
    "fuel",
];

/// All that a call is lent: the nine slices, the machine's numbers, the fuel.
#[derive(Clone, PartialEq, Eq, Debug, Default)]
pub struct Words(pub [Vec<u64>; 11]);

impl Words {
    /// The first slice that differs, the index and both words.
    #[must_use]
    pub fn differs(&self, other: &Words) -> Option<String> {
        let (name, (a, b)) =
            NAMES.iter().zip(self.0.iter().zip(&other.0)).find(|(_, (a, b))| a != b)?;
        Some(match a.iter().zip(b).position(|(x, y)| x != y) {
            Some(i) => format!("{name}[{i}] is {}, not {}", b[i], a[i]),
            None => format!("{name} has {} words, not {}", b.len(), a.len()),
        })
    }

    /// The same words in slices as long as those of another, with 0 after;
    /// beyond the machine's numbers and the fuel stands what stood there.
    #[must_use]
    pub fn within(mut self, other: &Words) -> Words {
        for (i, (ws, like)) in self.0.iter_mut().zip(&other.0).enumerate() {
            match like.get(ws.len()..) {
                Some(more) if i >= MACHINE => ws.extend(more),
                _ => ws.resize(ws.len().max(like.len()), 0),
            }
        }
        self
    }

    /// How many words there are.
    #[must_use]
    pub fn count(&self) -> usize {
        self.0.iter().map(Vec::len).sum()
    }
}
