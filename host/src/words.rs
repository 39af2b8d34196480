//! A machine as plain words: to store it, to send it, to read it back.

use alloc::boxed::Box;
use alloc::vec::Vec;
use core::{error, fmt};

/// All the words of a machine and its fuel (docs/ABI.md). What they hold is
/// nobody's promise: [`Machine::from_words`](crate::Machine::from_words)
/// tests it.
#[derive(Clone, PartialEq, Eq, Debug, Default)]
#[allow(missing_docs)]
pub struct Words {
    pub stack: Vec<u64>,
    pub frames: Vec<u64>,
    pub chain: Vec<u64>,
    pub slots: Vec<u64>,
    pub saved_stack: Vec<u64>,
    pub saved_frames: Vec<u64>,
    pub ready: Vec<u64>,
    pub finalize: Vec<u64>,
    pub setup: Vec<u64>,
    /// 13 numbers of the machine and 12 of its set-up.
    pub machine: Vec<u64>,
    /// 4 words.
    pub fuel: Vec<u64>,
}

impl Words {
    /// The machine's slices, in the order of the library's parameters.
    pub(crate) fn parts(&self) -> [&[u64]; 10] {
        let Words { stack, frames, chain, slots, saved_stack, saved_frames, .. } = self;
        let Words { ready, finalize, setup, machine, .. } = self;
        [stack, frames, chain, slots, saved_stack, saved_frames, ready, finalize, setup, machine]
    }
}

/// Words that are no well-formed machine: 11. Nothing of them is lost.
#[derive(Clone, PartialEq, Eq, Debug)]
pub struct Unsound(pub Box<Words>);

impl fmt::Display for Unsound {
    fn fmt(&self, f: &mut fmt::Formatter<'_>) -> fmt::Result {
        f.write_str("11: the words are no sound machine's")
    }
}

impl error::Error for Unsound {}
