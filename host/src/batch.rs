//! Many calls at once.

use alloc::vec;
use alloc::vec::Vec;

use crate::ffi::{AnswerWords, CallWords};
use crate::{Answer, Call};

/// Calls in words, for [`Machine::run`](crate::Machine::run), as often as
/// wanted. A batch has no answers: a run gives them.
///
/// ```
/// # use humdelzi::{Answer, Batch, Call, Function, FunctionId, Reg, Setup, Word};
/// let (mut m, mut fuel) = Setup::new().function(Function::new(1)).machine()?;
/// let mut batch = Batch::new(&[
///     Call::HostCall { func: FunctionId(0) },
///     Call::PutWord { reg: Reg(0), word: Word(7) },
/// ]);
/// let answers = m.run(&mut fuel, &mut batch);
/// assert!(answers.iter().all(|a| a == Answer::Accepted));
/// assert_eq!(m.look(), [Word(7)]);
/// # Ok::<(), humdelzi::SetupError>(())
/// ```
#[derive(Clone, Debug, Default)]
pub struct Batch {
    calls: Vec<CallWords>,
    /// Room for the answers of a run.
    room: Vec<AnswerWords>,
}

impl Batch {
    /// These calls.
    #[must_use]
    pub fn new(calls: &[Call]) -> Batch {
        let calls: Vec<_> = calls.iter().map(Call::words).collect();
        Batch { room: vec![[0; 8]; calls.len()], calls }
    }

    /// How many calls there are.
    #[must_use]
    pub fn len(&self) -> usize {
        self.calls.len()
    }

    /// Whether there is none.
    #[must_use]
    pub fn is_empty(&self) -> bool {
        self.calls.is_empty()
    }

    /// The first `n` calls alone, if there are more.
    pub fn truncate(&mut self, n: usize) {
        self.calls.truncate(n);
        self.room.truncate(n);
    }

    /// The calls, and as much room for answers.
    pub(crate) fn words(&mut self) -> (&mut [CallWords], &mut [AnswerWords]) {
        (&mut self.calls, &mut self.room)
    }

    /// What the run that just ended has left there.
    pub(crate) fn answers(&self) -> Answers<'_> {
        Answers(&self.room)
    }
}

/// The answers of a run, in the order of its calls.
#[must_use = "a call of the batch may have been refused"]
#[derive(Clone, Copy, Debug)]
pub struct Answers<'a>(&'a [AnswerWords]);

impl<'a> Answers<'a> {
    /// How many there are: as many as calls.
    #[must_use]
    pub fn len(&self) -> usize {
        self.0.len()
    }

    /// Whether there is none.
    #[must_use]
    pub fn is_empty(&self) -> bool {
        self.0.is_empty()
    }

    /// The answer of call `i`.
    #[must_use]
    pub fn get(&self, i: usize) -> Option<Answer> {
        self.0.get(i).map(Answer::read)
    }

    /// The answers in order.
    pub fn iter(&self) -> impl Iterator<Item = Answer> + 'a {
        self.0.iter().map(Answer::read)
    }
}
