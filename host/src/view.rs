//! What a machine holds, to be read: counts, stack, frames, chain, queues. Nothing
//! here changes a word; the layout is that of docs/ABI.md and
//! docs/DECISIONS.md, 35, 36 and 38.

use crate::ffi::typed;
use crate::{Cont, FunctionId, Machine, Outcome, Pc, Reg, Setup, Word};

/// A frame.
#[derive(Clone, Copy, PartialEq, Eq, Debug)]
pub struct Frame {
    /// The function that it runs.
    pub function: FunctionId,
    /// Where it stands; of the top frame: where it goes on after a
    /// [`Step::Frame`](crate::Step::Frame), a `Resume` or a `Caught`.
    pub pc: Pc,
    /// Its first register on the stack.
    pub base: usize,
    /// The closure that runs, or nil.
    pub closure: Word,
    /// What happens to its result.
    pub cont: Cont,
}

/// By whom a running coroutine was entered.
#[derive(Clone, Copy, PartialEq, Eq, Hash, Debug)]
pub enum Driver {
    /// Resume, ResumeThrow or CoroClose, of the frame below: what comes back
    /// goes to this register of it.
    Resume(Reg),
    /// iter_next, of the frame below, with these registers of it and the word of
    /// the iterator.
    #[allow(missing_docs)]
    Iter { has: Reg, val: Reg, iter: Word },
    /// The host: what comes back is the outcome.
    Host,
    /// A charge, from the cleanup queue.
    Finalize,
}

/// A running coroutine.
#[derive(Clone, Copy, PartialEq, Eq, Hash, Debug)]
pub struct Running {
    /// Its word.
    pub coroutine: Word,
    /// The place of its body's frame, from the bottom: the frames from there on
    /// are its own, up to the next one's floor.
    pub floor: usize,
    /// By whom it was entered.
    pub driver: Driver,
}

pub(crate) fn frame(words: &[u64]) -> Frame {
    Frame {
        function: FunctionId(words[0] as u32),
        pc: Pc(words[1] as u32),
        base: words[2] as usize,
        closure: Word(words[3]),
        cont: Cont::read(words[4], words[5]),
    }
}

fn running(words: &[u64]) -> Running {
    let reg = |i: usize| Reg(words[i] as u16);
    let driver = match words[2] {
        0 => Driver::Resume(reg(3)),
        1 => Driver::Iter { has: reg(3), val: reg(4), iter: Word(words[5]) },
        2 => Driver::Host,
        _ => Driver::Finalize,
    };
    Running { coroutine: Word(words[0]), floor: words[1] as usize, driver }
}

impl Machine {
    /// How many frames there are.
    #[must_use]
    pub fn depth(&self) -> usize {
        self.words().machine[1] as usize
    }

    /// How many words are on the stack.
    #[must_use]
    pub fn height(&self) -> usize {
        self.words().machine[0] as usize
    }

    /// How many coroutines run, each inside the one before.
    #[must_use]
    pub fn active(&self) -> usize {
        self.words().machine[2] as usize
    }

    /// How many slots are taken; a slot is never used again.
    #[must_use]
    pub fn slots_used(&self) -> usize {
        self.words().machine[3] as usize
    }

    /// How many bytes were charged against the memory limit; they are never
    /// given back.
    #[must_use]
    pub fn bytes_used(&self) -> u64 {
        self.words().machine[7]
    }

    /// The number of the next coroutine to be made.
    #[must_use]
    pub fn next_sequence(&self) -> u64 {
        self.words().machine[8]
    }

    /// Whether a cleanup runs.
    #[must_use]
    pub fn cleaning(&self) -> bool {
        self.words().machine[6] == 1
    }

    /// The outcome that waits to be taken.
    #[must_use]
    pub fn outcome(&self) -> Option<Outcome> {
        let words = self.words().machine;
        Outcome::read([words[9], words[10], words[11], words[12]])
    }

    /// The set-up that the machine was made of.
    ///
    /// ```
    /// # use humdelzi::{Function, Setup};
    /// let setup = Setup::new().depth(5).function(Function::new(4).parameters(2));
    /// let (m, _) = setup.machine()?;
    /// assert_eq!(m.setup(), setup);
    /// # Ok::<(), humdelzi::SetupError>(())
    /// ```
    #[must_use]
    pub fn setup(&self) -> Setup {
        Setup::read(self.words().setup)
    }

    /// The stack, bottom first.
    #[must_use]
    pub fn stack(&self) -> &[Word] {
        typed(&self.words().stack[..self.height()])
    }

    /// Frame number `i`, from the bottom.
    #[must_use]
    pub fn frame(&self, i: usize) -> Option<Frame> {
        (i < self.depth()).then(|| frame(&self.words().frames[i * 6..]))
    }

    /// The frames, bottom first.
    pub fn frames(&self) -> impl DoubleEndedIterator<Item = Frame> + ExactSizeIterator + '_ {
        self.words().frames[..self.depth() * 6].chunks(6).map(frame)
    }

    /// The top frame.
    #[must_use]
    pub fn top(&self) -> Option<Frame> {
        self.frame(self.depth().checked_sub(1)?)
    }

    /// Look, the last of 01's calls: the top frame's registers.
    ///
    /// - **Needs** nothing.
    /// - **Does** nothing.
    /// - **Answers** the registers as part of the machine's words, from the top
    ///   frame's base to the end of the stack; without a frame, an empty part.
    /// - **Leaves** all as it was.
    #[must_use]
    pub fn look(&self) -> &[Word] {
        self.top().map_or(&[], |f| &self.stack()[f.base..])
    }

    /// A register of the top frame.
    #[must_use]
    pub fn register(&self, reg: Reg) -> Option<Word> {
        self.look().get(usize::from(reg.0)).copied()
    }

    /// The running coroutines, outermost first: the chain.
    pub fn chain(&self) -> impl DoubleEndedIterator<Item = Running> + ExactSizeIterator + '_ {
        self.words().chain[..self.active() * 6].chunks(6).map(running)
    }

    /// The coroutines in the ready queue, first in first: tasks, for the host to
    /// run.
    #[must_use]
    pub fn ready_queue(&self) -> &[Word] {
        let words = self.words();
        typed(&words.ready[..words.machine[4] as usize])
    }

    /// The coroutines in the cleanup queue, first in first: those handed over.
    #[must_use]
    pub fn cleanup_queue(&self) -> &[Word] {
        let words = self.words();
        typed(&words.finalize[..words.machine[5] as usize])
    }
}
