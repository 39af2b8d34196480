//! A machine: made, tested, called.

use alloc::vec::Vec;
use core::fmt;

use crate::batch::{Answers, Batch};
use crate::ffi::{Sound, View};
use crate::words::{Unsound, Words};
use crate::{Answer, Call, Fault, Fuel, Pc, Setup, SetupError, StepError, Unwound, Word};

/// A machine. Its words are its own: what a call leaves is what the next one
/// finds.
///
/// # Calls
///
/// Each of 01's 28 calls is a method, documented in one form: what it *needs*,
/// what it *does*, what it *answers*, what it *leaves* where it is not
/// accepted. Every call leaves a well-formed machine. A refusal by 11, 12, 13,
/// 15 or 16 changes nothing.
///
/// # Instructions
///
/// Fourteen calls are the instructions of a script: `coro_new` to `iter_next`
/// below, each with the pc at which it stands. All of them
///
/// - need a frame (else 12), registers of that frame, from its base to the end
///   of the stack (else 13), and a unit of fuel (else 10);
/// - do first their charge: it takes the unit, or starts a cleanup that is due,
///   and takes none ([`StepError::Cleanup`]);
/// - answer a [`Step`](crate::Step), or what is raised instead
///   ([`StepError`]); [`Machine::raise`] raises it;
/// - leave, refused by 12 or 13, all as it was; with 10, no more than a bank of 0
///   given up; else the charge stays done.
#[derive(Clone, PartialEq, Eq)]
pub struct Machine(pub(crate) Sound);

impl fmt::Debug for Machine {
    fn fmt(&self, f: &mut fmt::Formatter<'_>) -> fmt::Result {
        let frames: Vec<_> = self.frames().collect();
        f.debug_struct("Machine")
            .field("stack", &self.stack())
            .field("frames", &frames)
            .finish_non_exhaustive()
    }
}

impl Machine {
    /// The library tests the set-up; which rule it breaks is told here.
    pub(crate) fn begin(setup: &Setup) -> Result<(Machine, Fuel), SetupError> {
        match Sound::set_up(setup.room(), &setup.words()) {
            Some((sound, record)) => Ok((Machine(sound), Fuel(record))),
            None => Err(setup.broken().expect("a refused set-up breaks a rule")),
        }
    }

    pub(crate) fn words(&self) -> View<'_> {
        self.0.words()
    }

    /// Any call, as a value.
    pub fn call(&mut self, fuel: &mut Fuel, call: Call) -> Answer {
        let switched = match call {
            Call::Resume { pc, dst, coro, src } => {
                self.0.try_resume(&mut fuel.0, pc.0, [dst.0, coro.0, src.0])
            }
            Call::Yield { pc, dst, src } => self.0.try_yield(&mut fuel.0, pc.0, [dst.0, src.0]),
            _ => false,
        };
        if switched {
            return Answer::Stepped { step: crate::Step::Frame, taken: 0 };
        }
        self.any(fuel, call)
    }

    /// Any call, by the function for all. Inlined it would keep the slices for a
    /// second call.
    #[inline(never)]
    pub(crate) fn any(&mut self, fuel: &mut Fuel, call: Call) -> Answer {
        Answer::read(self.0.call(&mut fuel.0, call.words()))
    }

    /// The batch's calls, one after the other, refused ones too, by one call of
    /// the library. It tests the machine's words first, as
    /// [`check`](Machine::check) does: of few calls on a large machine, single
    /// ones are faster.
    pub fn run<'a>(&mut self, fuel: &mut Fuel, batch: &'a mut Batch) -> Answers<'a> {
        let (calls, answers) = batch.words();
        self.0.batch(&mut fuel.0, calls, answers);
        batch.answers()
    }

    /// Raises what an instruction at `pc` answered in place of a step: by
    /// [`unwind`](Machine::unwind), at that pc or in the frame that is on top
    /// now. After `Ok` the program goes on at the top frame's pc.
    ///
    /// ```
    /// # use humdelzi::{Function, FunctionId, Handler, Pc, Reg, Setup, Unwound};
    /// let handler = Handler { start: Pc(0), end: Pc(9), target: Pc(20), catch: Reg(1) };
    /// let setup = Setup::new().function(Function::new(2).handler(handler));
    /// let (mut m, mut fuel) = setup.machine()?;
    /// m.grant(&mut fuel, 9)?;
    /// m.host_call(&mut fuel, FunctionId(0))?;
    /// // nil is no coroutine (1); the handler takes the error object
    /// let error = m.resume(&mut fuel, Pc(4), Reg(1), Reg(0), Reg(0)).unwrap_err();
    /// assert_eq!(m.raise(&mut fuel, error, Pc(4))?, Unwound::Caught);
    /// assert_eq!(m.top().unwrap().pc, Pc(20));
    /// # Ok::<(), Box<dyn std::error::Error>>(())
    /// ```
    ///
    /// # Errors
    ///
    /// - 12 or 13, which are not raised: the program is wrong.
    /// - 14 of the instruction, which is not raised either: no handler takes it.
    ///   Where a row was lacking, it can be made again once a coroutine is over.
    /// - 10 of an instruction that answered 10 ([`StepError::fault`]): its pc is
    ///   stored. After a grant the program goes on at the top frame's pc, and
    ///   makes it again.
    /// - 10 of any other: a handler could not be paid, and the frames above its
    ///   own are gone. After a grant, [`unwind`](Machine::unwind) the same fault
    ///   without a pc.
    /// - 17 with the word that nobody caught: no frame is left.
    /// - 9 or 14: no room for the error object.
    pub fn raise(&mut self, fuel: &mut Fuel, error: StepError, pc: Pc) -> Result<Unwound, Fault> {
        match error {
            StepError::Refused(f) | StepError::Fault(f @ Fault::Full) => Err(f),
            StepError::Fault(f) => self.unwind(fuel, f, Some(pc)),
            StepError::Unpaid => self.unwind(fuel, Fault::OutOfFuel, Some(pc)),
            StepError::Unwind(f) => self.unwind(fuel, f, None),
            StepError::Cleanup { .. } => self.unwind(fuel, Fault::Throw(Word::NIL), None),
        }
    }

    /// Tests every word: whether the machine is well-formed.
    ///
    /// ```
    /// # use humdelzi::{Function, Setup};
    /// let (m, fuel) = Setup::new().function(Function::new(1)).machine()?;
    /// assert!(m.check(&fuel));
    /// # Ok::<(), humdelzi::SetupError>(())
    /// ```
    #[must_use]
    pub fn check(&self, fuel: &Fuel) -> bool {
        self.0.is_sound(&fuel.0)
    }

    /// A machine from words that come from elsewhere, with its fuel. They are
    /// tested once.
    ///
    /// ```
    /// # use humdelzi::{Function, Machine, Setup};
    /// let (m, fuel) = Setup::new().function(Function::new(1)).machine()?;
    /// let mut words = m.clone().into_words(&fuel);
    /// words.machine[6] = 2; // a flag that is neither 0 nor 1
    /// let Err(refused) = Machine::from_words(words) else { panic!("accepted") };
    /// words = *refused.0; // nothing is lost
    /// words.machine[6] = 0;
    /// assert_eq!(Machine::from_words(words).unwrap(), (m, fuel));
    /// # Ok::<(), humdelzi::SetupError>(())
    /// ```
    ///
    /// # Errors
    ///
    /// The words as they were, if they are no well-formed machine (11), or if
    /// the fuel has other than four words.
    pub fn from_words(words: Words) -> Result<(Machine, Fuel), Unsound> {
        match Sound::test(words) {
            Ok((sound, record)) => Ok((Machine(sound), Fuel(record))),
            Err(words) => Err(Unsound(words)),
        }
    }

    /// The machine's words, with its fuel's.
    #[must_use]
    pub fn into_words(self, fuel: &Fuel) -> Words {
        let [stack, frames, chain, slots, saved_stack, saved_frames, ready, finalize, setup, machine] =
            self.words().parts().map(<[u64]>::to_vec);
        let fuel = fuel.0.words().to_vec();
        Words {
            stack,
            frames,
            chain,
            slots,
            saved_stack,
            saved_frames,
            ready,
            finalize,
            setup,
            machine,
            fuel,
        }
    }
}
