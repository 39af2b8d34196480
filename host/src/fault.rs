//! The fault sheet: why a call was refused, or what it raises.

use core::{error, fmt};

use crate::{StepError, Word};

/// Why a call was refused, or what it raises: the fault sheet of "01", the
/// build description. [`Fault::number`] is its number, and what is displayed
/// are the number and the sheet's words.
///
/// ```
/// use humdelzi::Fault;
/// assert_eq!(Fault::OutOfFuel.to_string(), "10: bank and fuel both used up");
/// ```
#[derive(Clone, Copy, PartialEq, Eq, Hash)]
pub enum Fault {
    /// 1: nil or a dead reference.
    NullReference,
    /// 2: wrong kind of object or word, wrong argument count, await in a loop.
    TypeError,
    /// 3: coroutine state forbids it, or handed over before.
    InvalidCoroState,
    /// 4: depth or stack limit passed.
    StackOverflow,
    /// 5: suspending without an active coroutine.
    CannotSuspend,
    /// 6: yield while closing.
    CloseIgnored,
    /// 7: integer out of range.
    ArithOverflow,
    /// 8: Spawn without a hook.
    NoScheduler,
    /// 9: a memory charge or fit test fails.
    OutOfMemory,
    /// 10: bank and fuel both used up.
    OutOfFuel,
    /// 11: set-up or machine breaks the rules, or `unwind` gets no such fault.
    Unsound,
    /// 12: instruction, put word or function call without a frame.
    NoFrame,
    /// 13: register outside the frame, no such function, continuation not
    /// allowed.
    BadOperand,
    /// 14: every slot taken, or every row held by an unfinished coroutine.
    Full,
    /// 15: host call or entry while a frame stands.
    Busy,
    /// 16: grant's sum above 2^64 - 1.
    GrantTooLarge,
    /// 17: a thrown or uncaught word.
    Throw(Word),
}

/// Those without a word, from 1 on, with the sheet's words.
const PLAIN: [(Fault, &str); 16] = [
    (Fault::NullReference, "nil or a dead reference"),
    (Fault::TypeError, "wrong kind of object or word, wrong argument count, await in a loop"),
    (Fault::InvalidCoroState, "coroutine state forbids it, or handed over before"),
    (Fault::StackOverflow, "depth or stack limit passed"),
    (Fault::CannotSuspend, "suspending without an active coroutine"),
    (Fault::CloseIgnored, "yield while closing"),
    (Fault::ArithOverflow, "integer out of range"),
    (Fault::NoScheduler, "Spawn without a hook"),
    (Fault::OutOfMemory, "a memory charge or fit test fails"),
    (Fault::OutOfFuel, "bank and fuel both used up"),
    (Fault::Unsound, "set-up or machine breaks the rules, or unwind gets no such fault"),
    (Fault::NoFrame, "instruction, put word or function call without a frame"),
    (Fault::BadOperand, "register outside the frame, no such function, continuation not allowed"),
    (Fault::Full, "every slot taken, or every row held by an unfinished coroutine"),
    (Fault::Busy, "host call or entry while a frame stands"),
    (Fault::GrantTooLarge, "grant's sum above 2^64 - 1"),
];

impl Fault {
    /// The fault sheet's number.
    ///
    /// ```
    /// use humdelzi::{Fault, Word};
    /// assert_eq!(Fault::StackOverflow.number(), 4);
    /// assert_eq!(Fault::Throw(Word::NIL).number(), 17);
    /// ```
    #[must_use]
    pub fn number(self) -> u64 {
        match PLAIN.iter().position(|(f, _)| *f == self) {
            Some(i) => i as u64 + 1,
            None => 17,
        }
    }

    /// The word of a 17; else nil.
    #[must_use]
    pub fn word(self) -> Word {
        match self {
            Fault::Throw(w) => w,
            _ => Word::NIL,
        }
    }

    /// The sheet's words.
    #[must_use]
    pub fn words(self) -> &'static str {
        match PLAIN.iter().find(|(f, _)| *f == self) {
            Some((_, words)) => words,
            None => "a thrown or uncaught word",
        }
    }

    pub(crate) fn read(number: u64, word: u64) -> Fault {
        match number {
            1..=16 => PLAIN[number as usize - 1].0,
            _ => Fault::Throw(Word(word)),
        }
    }
}

impl fmt::Display for Fault {
    fn fmt(&self, f: &mut fmt::Formatter<'_>) -> fmt::Result {
        write!(f, "{}: {}", self.number(), self.words())?;
        match self {
            Fault::Throw(w) => write!(f, " ({w})"),
            _ => Ok(()),
        }
    }
}

/// As it is displayed: this is what a `main` prints that returns it.
impl fmt::Debug for Fault {
    fn fmt(&self, f: &mut fmt::Formatter<'_>) -> fmt::Result {
        fmt::Display::fmt(self, f)
    }
}

impl error::Error for Fault {}

/// The fault of what an instruction answered in place of a step.
impl From<StepError> for Fault {
    fn from(e: StepError) -> Fault {
        e.fault()
    }
}
