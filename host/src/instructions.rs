//! The fourteen instructions of a script, each as a method. What all of them
//! need, do, answer and leave stands at [`Machine`].

use crate::{Call, Fuel, FunctionId, Machine, Pc, Reg, Step, StepError};

/// One method for an instruction.
macro_rules! instructions {
    ($($(#[$doc:meta])* $name:ident($($operand:ident: $type:ty),*) = $call:ident;)*) => {
        $($(#[$doc])*
        pub fn $name(
            &mut self,
            fuel: &mut Fuel,
            pc: Pc,
            $($operand: $type),*
        ) -> Result<Step, StepError> {
            self.instruction(fuel, Call::$call { pc, $($operand),* })
        })*
    };
}

/// # Errors
///
/// Each instruction: what is raised in place of a step. See
/// [Instructions](Machine#instructions).
impl Machine {
    /// Resume: enters a coroutine and sends it a word.
    ///
    /// - **Needs** a coroutine in `coro` that is Created, Yielded or Awaiting,
    ///   and room for its frames and registers within the limits.
    /// - **Does** store `pc`, and put the coroutine's frames and registers on
    ///   those of the caller. A sleeper gets the word in `src` in its waiting
    ///   register, and its pc steps; a Created one gets neither. What it yields,
    ///   awaits or returns comes to `dst`, and the caller's pc steps then.
    /// - **Answers** [`Step::Frame`]; 1 or 2 where `coro` holds no coroutine, 3
    ///   in another state, 4 without room.
    /// - **Leaves**, raised, `pc` stored.
    #[inline]
    pub fn resume(
        &mut self,
        fuel: &mut Fuel,
        pc: Pc,
        dst: Reg,
        coro: Reg,
        src: Reg,
    ) -> Result<Step, StepError> {
        if self.0.try_resume(&mut fuel.0, pc.0, [dst.0, coro.0, src.0]) {
            return Ok(Step::Frame);
        }
        self.instruction(fuel, Call::Resume { pc, dst, coro, src })
    }

    /// Yield: suspends the innermost running coroutine with the next key.
    ///
    /// - **Needs** a running coroutine, its largest integer key below 2^63 - 1,
    ///   and memory for what it saves beyond its largest sizes so far.
    /// - **Does** store `pc`, and save the coroutine's frames and registers. Its
    ///   driver gets the word in `src` (docs/STATEMENTS.md, "What an entry sends,
    ///   and what comes back"). A word that is sent later comes to `dst`.
    /// - **Answers** [`Step::Frame`]; 5 without a running coroutine, 7 without a
    ///   next key, 9 without memory, 9 or 14 where a large key finds no room for
    ///   its object; 6 to be raised in the driver's frame (`Unwind`) where a Resume
    ///   or a loop drives it and it is closing.
    /// - **Leaves**, with 5, 7 or no room for the key, the charge alone; with 9
    ///   after that, `pc` stored and a key object that was made; with 6, the
    ///   coroutine asleep.
    #[inline]
    pub fn yield_(
        &mut self,
        fuel: &mut Fuel,
        pc: Pc,
        dst: Reg,
        src: Reg,
    ) -> Result<Step, StepError> {
        if self.0.try_yield(&mut fuel.0, pc.0, [dst.0, src.0]) {
            return Ok(Step::Frame);
        }
        self.instruction(fuel, Call::Yield { pc, dst, src })
    }

    /// Any instruction, by the function for all calls. Inlined into `resume` it
    /// would keep the slices for the second call.
    #[inline(never)]
    fn instruction(&mut self, fuel: &mut Fuel, call: Call) -> Result<Step, StepError> {
        self.any(fuel, call).step()
    }

    instructions! {
        /// CoroNew: a new coroutine of a function.
        ///
        /// - **Needs** a function `func`, and `argc` registers after `dst` (13);
        ///   memory, a slot and a row.
        /// - **Does** make a Created coroutine whose first registers are the
        ///   `argc` words after `dst`, the others nil; all are nil where there are
        ///   more words than registers. Its word comes to `dst`.
        /// - **Answers** [`Step::Next`]; 9 without memory, 14 without a slot or a
        ///   row.
        /// - **Leaves**, with 9 at its charge, the sequence number advanced.
        coro_new(dst: Reg, func: FunctionId, argc: u8) = CoroNew;
        /// CoroNewIndirect: a new coroutine of the function object in a register.
        ///
        /// - **Needs** a function object in `callee`
        ///   ([`Word::function`](crate::Word::function)) with `argc` parameters,
        ///   and `argc` registers after `dst` (13); memory, a slot and a row.
        /// - **Does** what CoroNew does; the object is the closure of its frame.
        /// - **Answers** [`Step::Next`]; 1 or 2 where `callee` holds no function
        ///   object, 2 with another number of arguments; 9, 14 as CoroNew.
        /// - **Leaves** what CoroNew leaves.
        coro_new_indirect(dst: Reg, callee: Reg, argc: u8) = CoroNewIndirect;
        /// Spawn: a new coroutine, handed to the hook.
        ///
        /// - **Needs** a hook in the set-up, what CoroNewIndirect needs, a second
        ///   unit of fuel, and room for the hook's frame.
        /// - **Does** make the coroutine, store `pc`, and push a frame of the hook
        ///   with the coroutine's word in its first register; what the hook
        ///   returns comes to `dst`.
        /// - **Answers** [`Step::Frame`]; 8 without a hook; 1, 2, 9, 14 as
        ///   CoroNewIndirect; [`StepError::Unpaid`] without the second unit; 4
        ///   without room for the frame.
        /// - **Leaves**, unpaid or with 4, the coroutine made, and `pc` not stored.
        spawn(dst: Reg, callee: Reg, argc: u8) = Spawn;
        /// YieldKv: suspends the innermost running coroutine with a key of its own.
        ///
        /// - **Needs** a running coroutine, and memory for what it saves.
        /// - **Does** what Yield does, with the word in `key` as key; an integer
        ///   above the largest key so far becomes the largest.
        /// - **Answers** [`Step::Frame`]; 5, 9 and 6 as Yield.
        /// - **Leaves**, with 5, the charge alone; with 9, `pc` stored; with 6, the
        ///   coroutine asleep.
        yield_kv(dst: Reg, src: Reg, key: Reg) = YieldKv;
        /// Await: suspends the innermost running coroutine, which awaits a word.
        ///
        /// - **Needs** a running coroutine, and memory for what it saves.
        /// - **Does** what Yield does, without a key: it is Awaiting then, and
        ///   stays closing if it was.
        /// - **Answers** [`Step::Frame`]; 5 and 9 as Yield; 2 to be raised in the
        ///   frame of a loop (`Unwind`), which cannot await.
        /// - **Leaves**, with 5, the charge alone; with 9, `pc` stored; with 2, the
        ///   coroutine asleep.
        await_(dst: Reg, src: Reg) = Await;
        /// ResumeThrow: enters a coroutine and raises a word in it.
        ///
        /// - **Needs** what Resume needs.
        /// - **Does** put a sleeper's frames and registers on those of the caller,
        ///   as Resume does, and sends nothing. A Created one is not entered: it
        ///   has Failed of the word.
        /// - **Answers** 17 with the word in `src`: in the frame that was entered
        ///   (`Unwind`), or at the instruction (`Fault`) of a Created one; 1, 2, 3,
        ///   4 as Resume. It never answers a step.
        /// - **Leaves**, with 17, that entry or that failure; with 3 or 4, `pc`
        ///   stored.
        resume_throw(dst: Reg, coro: Reg, src: Reg) = ResumeThrow;
        /// CoroClose: raises a signal in a coroutine, so that it may end.
        ///
        /// - **Needs** a coroutine in `coro` that is not Running, and room as
        ///   Resume.
        /// - **Does** enter a sleeper, mark it closing, and keep the word in `src`
        ///   as its signal. A Created one is Returned with nil. A coroutine that
        ///   lets its own signal escape is Returned with nil too.
        /// - **Answers** 17 with the word in `src`, in the frame that was entered
        ///   (`Unwind`); [`Step::Next`] with nil in `dst` of one that is Created or
        ///   over; 1, 2, 3, 4 as Resume.
        /// - **Leaves**, with 17, the entry; with 4, `pc` stored.
        coro_close(dst: Reg, coro: Reg, src: Reg) = CoroClose;
        /// CoroStatus: the state of a coroutine.
        ///
        /// - **Needs** a coroutine in `coro`.
        /// - **Does** write the state's code ([`State::code`](crate::State::code),
        ///   a bare number) to `dst`.
        /// - **Answers** [`Step::Next`]; 1 or 2 where `coro` holds no coroutine.
        /// - **Leaves**, raised, the charge alone.
        coro_status(dst: Reg, coro: Reg) = CoroStatus;
        /// CoroCurrent: the innermost running coroutine.
        ///
        /// - **Needs** nothing more.
        /// - **Does** write its word, or nil if none runs, to `dst`.
        /// - **Answers** [`Step::Next`].
        /// - **Leaves** nothing else changed.
        coro_current(dst: Reg) = CoroCurrent;
        /// CoroKey: the key of a coroutine's last yield.
        ///
        /// - **Needs** a coroutine in `coro`.
        /// - **Does** write the key, or nil before the first, to `dst`.
        /// - **Answers** [`Step::Next`]; 1 or 2 where `coro` holds no coroutine.
        /// - **Leaves**, raised, the charge alone.
        coro_key(dst: Reg, coro: Reg) = CoroKey;
        /// CoroResult: what a coroutine returned.
        ///
        /// - **Needs** a coroutine in `coro` that is Returned.
        /// - **Does** write its result to `dst`.
        /// - **Answers** [`Step::Next`]; 1 or 2 where `coro` holds no coroutine, 3
        ///   in another state.
        /// - **Leaves**, raised, the charge alone.
        coro_result(dst: Reg, coro: Reg) = CoroResult;
        /// iter_next: the next turn of a loop over a coroutine.
        ///
        /// - **Needs** a coroutine in `src`, Created, Yielded or Returned; the
        ///   word of its iterator in `iter`
        ///   ([`make_iterator`](Machine::make_iterator)); room as Resume.
        /// - **Does** enter the coroutine, sending nil. When it yields, the
        ///   iterator gets the key, `val` the word and `has` 1, and the caller's
        ///   pc steps; when it returns, the iterator is done and `has` is 0. Without
        ///   an iterator in `iter` the turn is the same, and no key is kept.
        /// - **Answers** [`Step::Frame`]; [`Step::Next`] with 0 in `has` where the
        ///   iterator is done or the coroutine Returned; 1 or 2 where `src` holds
        ///   no coroutine, 2 if it is Awaiting, 3 in another state, 4 without room.
        /// - **Leaves**, with 3 or 4, `pc` stored.
        iter_next(has: Reg, iter: Reg, val: Reg, src: Reg) = IterNext;
    }
}
