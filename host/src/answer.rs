//! What a call answers, and its eight words (docs/ABI.md, "The answer").

use core::{error, fmt};

use crate::{Fault, FunctionId, Pc, Word};

/// How the program goes on after an instruction that was accepted.
#[must_use = "the dispatch loop has to go on there"]
#[derive(Clone, Copy, PartialEq, Eq, Hash, Debug)]
pub enum Step {
    /// With the next instruction of the same frame: its pc is the host's to
    /// count.
    Next,
    /// At the pc of the frame that is on top now. Where none is, the coroutine
    /// was the host's: [`take_outcome`](crate::Machine::take_outcome) tells
    /// what it did.
    Frame,
}

/// What an instruction answered in place of a [`Step`]. It is an error, and not a
/// step, so that `?` stops at every refusal and at every fault that is to be
/// raised: no host goes on past an instruction that had no fuel.
///
/// [`Machine::raise`](crate::Machine::raise) does with each what is due.
#[derive(Clone, Copy, PartialEq, Eq, Hash)]
pub enum StepError {
    /// Refused at its gate (12 or 13): the program is wrong, and nothing has
    /// changed.
    Refused(Fault),
    /// A fault of the instruction, to be raised at its own pc. Two are for the
    /// host alone. Of [`Fault::Full`]: `unwind` does not take it. Of
    /// [`Fault::OutOfFuel`]: nothing was done but what stands at
    /// [every instruction](crate::Machine#instructions), and the instruction
    /// can be made again after a grant.
    Fault(Fault),
    /// The frames changed, and the fault is to be raised in the new top frame,
    /// at the pc that it holds: of a word thrown into a coroutine, of its close,
    /// and where a delivery was refused.
    Unwind(Fault),
    /// The charge started a cleanup: nil is to be raised in the coroutine that
    /// was entered. The instruction was not done. It comes again when the
    /// cleanup is over, since the frame below holds its pc.
    Cleanup {
        /// Cleanup-queue words taken off.
        taken: u64,
    },
    /// Spawn's 10 at its hook: the coroutine was made and is in no register,
    /// and one unit is gone. Made again, Spawn makes another.
    Unpaid,
}

impl StepError {
    /// The fault with its number: 17 with nil of a cleanup, 10 of an unpaid
    /// Spawn.
    #[must_use]
    pub fn fault(self) -> Fault {
        match self {
            StepError::Refused(f) | StepError::Fault(f) | StepError::Unwind(f) => f,
            StepError::Cleanup { .. } => Fault::Throw(Word::NIL),
            StepError::Unpaid => Fault::OutOfFuel,
        }
    }
}

impl fmt::Display for StepError {
    fn fmt(&self, f: &mut fmt::Formatter<'_>) -> fmt::Result {
        fmt::Display::fmt(&self.fault(), f)?;
        f.write_str(match self {
            StepError::Refused(_) => ", at the gate of the instruction",
            StepError::Fault(_) => ", at the instruction",
            StepError::Unwind(_) => ", in the frame that is on top now",
            StepError::Cleanup { .. } => ", of a cleanup that starts before the instruction",
            StepError::Unpaid => ", at the hook of the Spawn",
        })
    }
}

/// As it is displayed: this is what a `main` prints that returns it. A log has no
/// derived form.
impl fmt::Debug for StepError {
    fn fmt(&self, f: &mut fmt::Formatter<'_>) -> fmt::Result {
        fmt::Display::fmt(self, f)
    }
}

impl error::Error for StepError {}

/// Where `finish` leads.
#[must_use = "the dispatch loop has to go on there"]
#[derive(Clone, Copy, PartialEq, Eq, Hash, Debug)]
pub enum Finished {
    /// The frame of a host call is gone (or there was none): the run is over,
    /// with this word or with none. Of an integer ([`Value::I64`](crate::Value::I64),
    /// [`Value::U64`](crate::Value::U64)) the word is its 64 bits as they are.
    Exit(Option<Word>),
    /// At the pc of the frame that is on top now. Where none is, the coroutine
    /// was the host's: [`take_outcome`](crate::Machine::take_outcome).
    Resume,
}

/// Where `unwind` leads.
#[must_use = "the dispatch loop has to go on there"]
#[derive(Clone, Copy, PartialEq, Eq, Hash, Debug)]
pub enum Unwound {
    /// A handler was taken: at the pc of the frame that is on top now.
    Caught,
    /// It stopped at a coroutine that the host drives, at a cleanup, or at a
    /// close that succeeded: at the pc of the frame that is on top now. Where
    /// none is, [`take_outcome`](crate::Machine::take_outcome) tells the rest.
    Stopped,
}

/// What a coroutine that the host drives did.
#[derive(Clone, Copy, PartialEq, Eq, Hash, Debug)]
pub enum Outcome {
    /// It yielded this word.
    Yielded(Word),
    /// It awaits this word.
    Awaiting(Word),
    /// It returned this word.
    Returned(Word),
    /// This word escaped it, raised at this function and pc.
    Failed(Word, FunctionId, Pc),
    /// It yielded while it was being closed.
    CloseIgnored,
}

/// What any call answers, as [`Machine::call`](crate::Machine::call) and a
/// [`Batch`](crate::Batch) tell it. The methods for the single calls have
/// types of their own.
#[must_use = "a call may have been refused"]
#[derive(Clone, Copy, PartialEq, Eq, Hash, Debug)]
pub enum Answer {
    /// Accepted, with no word of its own.
    Accepted,
    /// Accepted: the word of make iterator or spawn_task.
    Word(Word),
    /// Refused: a call that is no instruction, or an instruction at its gate.
    Refused(Fault),
    /// An instruction that was accepted.
    Stepped {
        /// How the program goes on.
        step: Step,
        /// Cleanup-queue words that its charge took off.
        taken: u64,
    },
    /// An instruction that was not, past its gate.
    Raised {
        /// What is to be raised, and where.
        error: StepError,
        /// Cleanup-queue words that its charge took off.
        taken: u64,
    },
    /// `finish`, accepted.
    Finished(Finished),
    /// `unwind`, accepted.
    Unwound(Unwound),
    /// Take outcome: what was there.
    Took(Option<Outcome>),
}

impl Answer {
    /// The answer, if it is accepted.
    ///
    /// # Errors
    ///
    /// The fault of any other.
    #[inline]
    pub fn accepted(self) -> Result<Answer, Fault> {
        match self.fault() {
            Some(f) => Err(f),
            None => Ok(self),
        }
    }

    /// The fault sheet's number; 0 if accepted.
    #[must_use]
    pub fn number(&self) -> u64 {
        self.fault().map_or(0, Fault::number)
    }

    /// The fault of a call that is not accepted.
    #[must_use]
    #[inline]
    pub fn fault(&self) -> Option<Fault> {
        match *self {
            Answer::Refused(f) => Some(f),
            Answer::Raised { error, .. } => Some(error.fault()),
            _ => None,
        }
    }

    /// The answer's word: of a 17, of make iterator and spawn_task, of an exit
    /// or an outcome; else nil.
    #[must_use]
    pub fn word(&self) -> Word {
        match *self {
            Answer::Word(w) | Answer::Finished(Finished::Exit(Some(w))) => w,
            Answer::Took(Some(
                Outcome::Yielded(w)
                | Outcome::Awaiting(w)
                | Outcome::Returned(w)
                | Outcome::Failed(w, ..),
            )) => w,
            _ => self.fault().map_or(Word::NIL, Fault::word),
        }
    }

    /// How the program goes on after an instruction.
    ///
    /// # Errors
    ///
    /// What it answered in place of a step; of a call that is no instruction,
    /// and was refused, the same as of one at its gate.
    ///
    /// # Panics
    ///
    /// Where it is the accepted answer of a call that is no instruction.
    #[inline]
    pub(crate) fn step(self) -> Result<Step, StepError> {
        match self {
            Answer::Stepped { step, .. } => Ok(step),
            Answer::Raised { error, .. } => Err(error),
            Answer::Refused(f) => Err(StepError::Refused(f)),
            _ => unreachable!("an instruction's answer"),
        }
    }

    /// Cleanup-queue words that an instruction's charge took off.
    #[must_use]
    pub fn taken(&self) -> u64 {
        match *self {
            Answer::Stepped { taken, .. } | Answer::Raised { taken, .. } => taken,
            _ => 0,
        }
    }

    /// The answer that eight words tell. That of a switch is told apart first,
    /// by single words: a wider load would wait for the library's stores.
    #[inline]
    pub(crate) fn read(words: &[u64; 8]) -> Answer {
        if words[4] == 3 && words[2] == 2 {
            return Answer::Stepped { step: Step::Frame, taken: words[3] };
        }
        Answer::read_any(words)
    }

    #[cold]
    fn read_any(words: &[u64; 8]) -> Answer {
        let [number, word, step, taken, case, kind, func, pc] = *words;
        let fault = || Fault::read(number, word);
        let raised = |error| Answer::Raised { error, taken };
        match (case, step) {
            (0, _) => Answer::Accepted,
            (1, _) => Answer::Word(Word(word)),
            (2, _) => Answer::Refused(fault()),
            (3, 1) => Answer::Stepped { step: Step::Next, taken },
            (3, 2) => Answer::Stepped { step: Step::Frame, taken },
            (3, 3) => raised(StepError::Fault(fault())),
            (3, _) => raised(StepError::Unwind(fault())),
            (4, _) => raised(StepError::Cleanup { taken }),
            (5, _) => raised(StepError::Unpaid),
            (6, _) => Answer::Finished(Finished::Exit(None)),
            (7, _) => Answer::Finished(Finished::Exit(Some(Word(word)))),
            (8, _) => Answer::Finished(Finished::Resume),
            (9, _) => Answer::Unwound(Unwound::Caught),
            (10, _) => Answer::Unwound(Unwound::Stopped),
            _ => Answer::Took(Outcome::read([kind, word, func, pc])),
        }
    }
}

impl Outcome {
    /// The outcome that four words tell: kind, word, function and pc.
    pub(crate) fn read([kind, word, func, pc]: [u64; 4]) -> Option<Outcome> {
        let word = Word(word);
        match kind {
            0 => None,
            1 => Some(Outcome::Yielded(word)),
            2 => Some(Outcome::Awaiting(word)),
            3 => Some(Outcome::Returned(word)),
            4 => Some(Outcome::Failed(word, FunctionId(func as u32), Pc(pc as u32))),
            _ => Some(Outcome::CloseIgnored),
        }
    }
}
