//! The calls that are no instructions: `finish`, `unwind`, `spawn_task`, and
//! those that 01 adds. None of them but a taken handler spends fuel.

use crate::{
    Answer, Call, Cont, Fault, Finished, Fuel, FunctionId, Machine, Outcome, Pc, Reg, Setup,
    SetupError, Unwound, Value, Word,
};

/// # Errors
///
/// Each of these calls: the fault with which it was refused.
impl Machine {
    /// finish: the top frame ends with a result.
    ///
    /// - **Needs** nothing; without a frame the result is handed back.
    /// - **Does** take the frame away and hand the result to its continuation:
    ///   to a register of the frame below, whose pc steps; to the host, from the
    ///   frame of a host call, an integer as its bits; to the driver, from the body
    ///   of a coroutine, which is Returned then.
    /// - **Answers** [`Finished::Resume`] or [`Finished::Exit`]; where an integer
    ///   has to become a word: 7 above 2^63 - 1, 9 or 14 without room for its
    ///   object.
    /// - **Leaves**, refused, the frame of a coroutine's body in place, any other
    ///   gone.
    pub fn finish(&mut self, fuel: &mut Fuel, value: Value) -> Result<Finished, Fault> {
        match self.any(fuel, Call::Finish { value }) {
            Answer::Finished(finished) => Ok(finished),
            answer => Err(refusal(answer)),
        }
    }

    /// unwind: raises a fault, from the top frame down. Of what an instruction
    /// answered, [`raise`](Machine::raise) does it.
    ///
    /// - **Needs** a fault 1 to 10, or [`Fault::Throw`] with its word.
    /// - **Does** store `pc`, if one is given, in the top frame; make an error
    ///   object of a fault 1 to 8. Then the first handler of the top frame's
    ///   function that covers its pc takes the word, for one unit of fuel; else
    ///   the frame is left, and so on down. A coroutine that it leaves has Failed,
    ///   or is Returned with nil where the word is its own close signal.
    /// - **Answers** [`Unwound::Caught`]; [`Unwound::Stopped`] where the host or a
    ///   cleanup drove the coroutine that was left, and where a close succeeded;
    ///   17 with the word that nobody took; 9 and 10 as they were given; 11 for
    ///   another fault; 9 or 14 without room for the error object; 10 without the
    ///   unit.
    /// - **Leaves**, with 11, all as it was; with 9 or 10 given and with no room,
    ///   `pc` stored; with 17 and without the unit, the frames above gone.
    pub fn unwind(
        &mut self,
        fuel: &mut Fuel,
        fault: Fault,
        pc: Option<Pc>,
    ) -> Result<Unwound, Fault> {
        match self.any(fuel, Call::Unwind { fault, pc }) {
            Answer::Unwound(unwound) => Ok(unwound),
            answer => Err(refusal(answer)),
        }
    }

    /// spawn_task: makes a coroutine a task.
    ///
    /// - **Needs** the word of a coroutine.
    /// - **Does** append it to the ready queue ([`Machine::ready_queue`]) and mark
    ///   it a task, if it is none yet and is Created, Yielded or Awaiting.
    /// - **Answers** that word; 2 where it names no coroutine.
    /// - **Leaves**, refused, all as it was.
    pub fn spawn_task(&mut self, fuel: &mut Fuel, word: Word) -> Result<Word, Fault> {
        worded(self.any(fuel, Call::SpawnTask { word }))
    }

    /// Set-up: a fresh machine in place of this one.
    ///
    /// - **Needs** a set-up that keeps the rules of 01's closing list.
    /// - **Does** make a machine without a frame, whose slots hold the functions'
    ///   objects, and an empty fuel record. No coroutine from before is entered
    ///   again.
    /// - **Answers** nothing; the rule that is broken (11).
    /// - **Leaves**, refused, all as it was.
    pub fn set_up(&mut self, fuel: &mut Fuel, setup: &Setup) -> Result<(), SetupError> {
        (*self, *fuel) = Machine::begin(setup)?;
        Ok(())
    }

    /// Host call: a frame of a function, on an empty stack.
    ///
    /// - **Needs** no frame; a function `func`; room for its registers.
    /// - **Does** push its frame: pc 0, all registers nil, a nil closure.
    /// - **Answers** nothing; 15 while a frame stands, 13 without such a function,
    ///   4 without room.
    /// - **Leaves**, refused, all as it was.
    pub fn host_call(&mut self, fuel: &mut Fuel, func: FunctionId) -> Result<(), Fault> {
        plain(self.any(fuel, Call::HostCall { func }))
    }

    /// Host entry: enters a coroutine that the host drives, on an empty stack.
    ///
    /// - **Needs** no frame; the word of a coroutine that is Created, Yielded or
    ///   Awaiting; room for what it saved.
    /// - **Does** enter it. A sleeper gets `word` in its waiting register, and its
    ///   pc steps. What it does then is the outcome
    ///   ([`take_outcome`](Machine::take_outcome)).
    /// - **Answers** nothing; 15 while a frame stands; 1 or 2 where `coro` names no
    ///   coroutine, 3 in another state, 4 without room.
    /// - **Leaves**, refused, all as it was.
    pub fn host_entry(&mut self, fuel: &mut Fuel, coro: Word, word: Word) -> Result<(), Fault> {
        plain(self.any(fuel, Call::HostEntry { coro, word }))
    }

    /// Function call: a frame of a function on the top frame.
    ///
    /// - **Needs** a frame; a function `func`; a continuation Write, Dyn, Value
    ///   (of a register of the top frame) or Discard; room for its registers.
    /// - **Does** store `pc` in the top frame and push the function's: pc 0, all
    ///   registers nil, a nil closure.
    /// - **Answers** nothing; 12 without a frame, 13 for another function or
    ///   continuation, 4 without room.
    /// - **Leaves**, refused, all as it was.
    pub fn function_call(
        &mut self,
        fuel: &mut Fuel,
        pc: Pc,
        func: FunctionId,
        cont: Cont,
    ) -> Result<(), Fault> {
        plain(self.any(fuel, Call::FunctionCall { pc, func, cont }))
    }

    /// Put word: one register of the top frame.
    ///
    /// - **Needs** a frame, and that register of it.
    /// - **Does** write the word there.
    /// - **Answers** nothing; 12 without a frame, 13 for another register.
    /// - **Leaves**, refused, all as it was.
    pub fn put_word(&mut self, fuel: &mut Fuel, reg: Reg, word: Word) -> Result<(), Fault> {
        plain(self.any(fuel, Call::PutWord { reg, word }))
    }

    /// Make iterator: the object of a loop over a coroutine.
    ///
    /// - **Needs** the word of a coroutine; memory and a slot.
    /// - **Does** make an iterator over it, not done, without a key.
    /// - **Answers** the iterator's word; 1 or 2 where `src` names no coroutine, 9
    ///   without memory, 14 without a slot.
    /// - **Leaves**, refused, all as it was.
    pub fn make_iterator(&mut self, fuel: &mut Fuel, src: Word) -> Result<Word, Fault> {
        worded(self.any(fuel, Call::MakeIterator { src }))
    }

    /// Take outcome: what the coroutine that the host drove did.
    ///
    /// - **Needs** nothing.
    /// - **Does** read the outcome and clear it.
    /// - **Answers** the outcome, or none.
    /// - **Leaves** nothing else changed. It is never refused.
    #[must_use = "the outcome is cleared"]
    pub fn take_outcome(&mut self, fuel: &mut Fuel) -> Option<Outcome> {
        match self.any(fuel, Call::TakeOutcome) {
            Answer::Took(outcome) => outcome,
            answer => unreachable!("take outcome answered {answer:?}"),
        }
    }

    /// Hand over: a sleeping coroutine is to be cleaned up.
    ///
    /// - **Needs** the word of a coroutine that is Yielded or Awaiting and was not
    ///   handed over before.
    /// - **Does** append it to the cleanup queue and mark it. If no cleanup runs,
    ///   what fuel there is goes to the bank, and the next instruction's charge
    ///   enters the first of the queue that still sleeps and fits, closing it
    ///   with nil.
    /// - **Answers** nothing; 1 or 2 where `coro` names no coroutine, 3 for any
    ///   other.
    /// - **Leaves**, refused, all as it was.
    pub fn hand_over(&mut self, fuel: &mut Fuel, coro: Word) -> Result<(), Fault> {
        plain(self.any(fuel, Call::HandOver { coro }))
    }

    /// Grant: more fuel.
    ///
    /// - **Needs** a sum of at most 2^64 - 1.
    /// - **Does** add the amount to the bank if there is one, else to what is left.
    /// - **Answers** nothing; 16 for a greater sum.
    /// - **Leaves**, refused, all as it was.
    pub fn grant(&mut self, fuel: &mut Fuel, amount: u64) -> Result<(), Fault> {
        plain(self.any(fuel, Call::Grant { amount }))
    }

    /// Stop run: the run is over.
    ///
    /// - **Needs** nothing.
    /// - **Does** end every running coroutine as Failed, and take all frames and
    ///   the stack away. Sleepers stay.
    /// - **Answers** nothing. It is never refused.
    /// - **Leaves** no frame.
    pub fn stop_run(&mut self, fuel: &mut Fuel) {
        let answer = self.any(fuel, Call::StopRun);
        debug_assert_eq!(answer, Answer::Accepted);
    }
}

/// The fault of an answer that is not accepted.
fn refusal(answer: Answer) -> Fault {
    match answer.fault() {
        Some(fault) => fault,
        None => unreachable!("another call's answer: {answer:?}"),
    }
}

/// The answer of a call without a word.
fn plain(answer: Answer) -> Result<(), Fault> {
    match answer {
        Answer::Accepted => Ok(()),
        _ => Err(refusal(answer)),
    }
}

/// The answer of a call with a word.
fn worded(answer: Answer) -> Result<Word, Fault> {
    match answer {
        Answer::Word(word) => Ok(word),
        _ => Err(refusal(answer)),
    }
}
