//! Lists of calls in which every kind of call, answer and object is met, and all
//! that a host can see of a machine.

use humdelzi::*;

/// Function 0 calls (8 registers), 1 is a script (4, one of them a parameter), 2 the hook (1), 3 a script with a handler (3).
fn begun() -> (Machine, Fuel) {
    let handler = Handler { start: Pc(0), end: Pc(50), target: Pc(60), catch: Reg(2) };
    let setup = Setup::new()
        .hook(FunctionId(2))
        .function(Function::new(8))
        .function(Function::new(4).parameters(1))
        .function(Function::new(1).parameters(1))
        .function(Function::new(3).handler(handler));
    let (mut m, mut fuel) = setup.machine().unwrap();
    assert_eq!(m.grant(&mut fuel, 100), Ok(()));
    assert_eq!(m.host_call(&mut fuel, FunctionId(0)), Ok(()));
    (m, fuel)
}

fn int(n: i64) -> Word {
    Word::int(n).unwrap()
}

const NEXT: Result<Step, StepError> = Ok(Step::Next);
const FRAME: Result<Step, StepError> = Ok(Step::Frame);

fn fault(f: Fault) -> Result<Step, StepError> {
    Err(StepError::Fault(f))
}

#[test]
fn a_coroutine_as_it_is_seen() {
    let (mut m, mut f) = begun();
    let body = Word::function(FunctionId(1));
    // of a function object, with an argument; it yields with a key of its own
    assert_eq!(m.put_word(&mut f, Reg(1), int(820)), Ok(()));
    assert_eq!(m.put_word(&mut f, Reg(2), body), Ok(()));
    assert_eq!(m.coro_new_indirect(&mut f, Pc(1), Reg(0), Reg(2), 0), fault(Fault::TypeError));
    assert_eq!(m.coro_new_indirect(&mut f, Pc(1), Reg(0), Reg(2), 1), NEXT);
    let c = m.register(Reg(0)).unwrap();
    assert_eq!(c, Word::slot(4));
    assert_eq!(m.coroutine(c).unwrap().state, State::Created);
    assert_eq!(m.resume(&mut f, Pc(2), Reg(3), Reg(0), Reg(4)), FRAME);
    assert_eq!((m.active(), m.depth(), m.height()), (1, 2, 12));
    assert_eq!(
        m.top().map(|t| (t.function, t.base, t.closure, t.cont)),
        Some((FunctionId(1), 8, body, Cont::Coro))
    );
    assert_eq!(m.register(Reg(0)), Some(int(820)));
    assert_eq!(m.put_word(&mut f, Reg(1), int(5)), Ok(()));
    assert_eq!(m.put_word(&mut f, Reg(2), int(6)), Ok(()));
    assert_eq!(m.yield_kv(&mut f, Pc(7), Reg(3), Reg(1), Reg(2)), FRAME);
    assert_eq!(m.register(Reg(3)), Some(int(5)));
    assert_eq!(m.top().unwrap().pc, Pc(3));
    let seen = m.coroutine(c).unwrap();
    assert_eq!((seen.state, seen.words, seen.frames, seen.waiting), (State::Yielded, 4, 1, Reg(3)));
    assert_eq!((seen.payload, seen.key, seen.result), (int(5), int(6), Word::NIL));
    assert_eq!(
        (seen.closing, seen.finalized, seen.task, seen.sequence, seen.row),
        (false, false, false, 0, 0)
    );
    let (words, frames) = m.saved(c).unwrap();
    assert_eq!(words, [int(820), int(5), int(6), Word::NIL]);
    assert_eq!((frames.len(), frames[0].pc, frames[0].base), (1, Pc(7), 0));
    // a second one lies in the next row
    assert_eq!(m.coro_new(&mut f, Pc(3), Reg(5), FunctionId(3), 0), NEXT);
    let other = m.register(Reg(5)).unwrap();
    assert_eq!(m.resume(&mut f, Pc(4), Reg(6), Reg(5), Reg(4)), FRAME);
    assert_eq!(m.put_word(&mut f, Reg(0), int(1)), Ok(()));
    assert_eq!(m.await_(&mut f, Pc(9), Reg(1), Reg(0)), FRAME);
    let seen = m.coroutine(other).unwrap();
    assert_eq!((seen.state, seen.sequence, seen.row, seen.words), (State::Awaiting, 1, 1, 3));
    assert_eq!(m.saved(other).unwrap().0, [int(1), Word::NIL, Word::NIL]);
    // asked: its key, its state; a task; it returns, and is asked for its result
    assert_eq!(m.coro_key(&mut f, Pc(5), Reg(6), Reg(0)), NEXT);
    assert_eq!(m.register(Reg(6)), Some(int(6)));
    assert_eq!(m.coro_status(&mut f, Pc(5), Reg(6), Reg(0)), NEXT);
    assert_eq!(m.register(Reg(6)).map(|w| State::of(w.0)), Some(Some(State::Yielded)));
    assert_eq!(m.spawn_task(&mut f, c), Ok(c));
    assert_eq!(m.spawn_task(&mut f, int(3)), Err(Fault::TypeError));
    assert_eq!(m.ready_queue(), [c]);
    assert!(m.coroutine(c).unwrap().task && !m.coroutine(c).unwrap().finalized);
    assert_eq!(m.coro_result(&mut f, Pc(5), Reg(6), Reg(0)), fault(Fault::InvalidCoroState));
    assert_eq!(m.resume(&mut f, Pc(6), Reg(3), Reg(0), Reg(1)), FRAME);
    assert_eq!((m.register(Reg(3)), m.top().unwrap().pc), (Some(int(820)), Pc(8)));
    assert_eq!(m.coro_current(&mut f, Pc(9), Reg(2)), NEXT);
    assert_eq!(m.register(Reg(2)), Some(c));
    assert_eq!(m.finish(&mut f, Value::Word(int(77))), Ok(Finished::Resume));
    assert_eq!(
        (m.coroutine(c).unwrap().state, m.coroutine(c).unwrap().result),
        (State::Returned, int(77))
    );
    assert_eq!(m.coro_result(&mut f, Pc(5), Reg(6), Reg(0)), NEXT);
    assert_eq!(m.register(Reg(6)), Some(int(77)));
    assert_eq!(m.saved(c), Some((&[][..], vec![])));
    assert_eq!(m.object(Word::function(FunctionId(3))), Some(Object::Function(FunctionId(3))));
    assert_eq!(m.object(int(1)), None);
    assert_eq!(m.call(&mut f, Call::Look), Answer::Accepted);
    assert!(m.check(&f));
}

#[test]
fn results_and_frames() {
    let (mut m, mut f) = begun();
    let call = |m: &mut Machine, f: &mut Fuel, cont, value| {
        assert_eq!(m.put_word(f, Reg(7), int(9)), Ok(()));
        assert_eq!(m.function_call(f, Pc(3), FunctionId(3), cont), Ok(()));
        assert_eq!((m.frame(1).unwrap().cont, m.frame(0).unwrap().pc), (cont, Pc(3)));
        let answer = m.finish(f, value);
        (answer, m.register(Reg(7)).unwrap())
    };
    let seven = Reg(7);
    let resume = Ok(Finished::Resume);
    let (m, f) = (&mut m, &mut f);
    assert_eq!(call(m, f, Cont::Discard, Value::Word(int(1))), (resume, int(9)));
    assert_eq!(call(m, f, Cont::Write(seven), Value::I64(5)), (resume, Word(5)));
    assert_eq!(call(m, f, Cont::Write(seven), Value::None), (resume, int(9)));
    assert_eq!(call(m, f, Cont::Dyn(seven), Value::I64(-1)), (resume, int(-1)));
    assert_eq!(call(m, f, Cont::Dyn(seven), Value::I64(5)), (resume, int(5)));
    assert_eq!(call(m, f, Cont::Dyn(seven), Value::Word(int(5))), (resume, int(5)));
    assert_eq!(call(m, f, Cont::Dyn(seven), Value::None), (resume, Word::NIL));
    assert_eq!(call(m, f, Cont::Value(seven), Value::None), (resume, Word::NIL));
    assert_eq!(call(m, f, Cont::Value(seven), Value::U64(1 << 60)), (resume, Word(1 << 60)));
    let (slots, bytes) = (m.slots_used(), m.bytes_used());
    let (_, large) = call(m, f, Cont::Dyn(seven), Value::U64(1 << 60));
    assert_eq!(m.object(large), Some(Object::Integer(1 << 60)));
    assert_eq!(
        (m.integer(large), m.integer(int(-4)), m.integer(Word::NIL)),
        (Some(1 << 60), Some(-4), None)
    );
    assert_eq!((m.slots_used(), m.bytes_used()), (slots + 1, bytes + Costs::default().integer));
    let (over, _) = call(m, f, Cont::Dyn(seven), Value::U64(1 << 63));
    assert_eq!(over, Err(Fault::ArithOverflow));
    assert_eq!(m.function_call(f, Pc(3), FunctionId(3), Cont::Coro), Err(Fault::BadOperand));
    assert_eq!(m.finish(f, Value::Word(int(4))), Ok(Finished::Exit(Some(int(4)))));
    assert_eq!(m.host_call(f, FunctionId(0)), Ok(()));
    let left = m.call(f, Call::Finish { value: Value::I64(4) });
    assert_eq!((left, left.word()), (Answer::Finished(Finished::Exit(Some(Word(4)))), Word(4)));
    assert_eq!(m.host_call(f, FunctionId(0)), Ok(()));
    assert_eq!(m.finish(f, Value::None), Ok(Finished::Exit(None)));
    assert_eq!(m.host_call(f, FunctionId(0)), Ok(()));
    assert_eq!(m.host_call(f, FunctionId(0)), Err(Fault::Busy));
    assert_eq!(m.grant(f, u64::MAX), Err(Fault::GrantTooLarge));
    m.stop_run(f);
    assert_eq!((m.depth(), m.look().len()), (0, 0));
    assert_eq!(m.put_word(f, Reg(0), int(1)), Err(Fault::NoFrame));
    // another set-up in its place, or the same machine where it is refused
    assert!(f.left() > 0);
    assert_eq!(m.set_up(f, &Setup::new()), Err(SetupError::Functions(0)));
    assert!(f.left() > 0);
    assert_eq!(m.set_up(f, &Setup::new().function(Function::new(1))), Ok(()));
    assert_eq!((f.left(), m.check(f)), (0, true));
}

#[test]
fn throws_and_outcomes() -> Result<(), Fault> {
    let (mut m, mut f) = begun();
    // a script with a handler: a thrown word is caught at its target
    assert_eq!(m.coro_new(&mut f, Pc(0), Reg(0), FunctionId(3), 0), NEXT);
    let c = m.register(Reg(0)).unwrap();
    m.put_word(&mut f, Reg(1), int(31))?;
    assert_eq!(m.resume(&mut f, Pc(1), Reg(2), Reg(0), Reg(1))?, Step::Frame);
    m.put_word(&mut f, Reg(0), int(6))?;
    assert_eq!(m.yield_(&mut f, Pc(10), Reg(1), Reg(0))?, Step::Frame);
    assert_eq!((m.register(Reg(2)), m.coroutine(c).unwrap().waiting), (Some(int(6)), Reg(1)));
    // (at a pc that no handler of the script covers)
    let call = Call::ResumeThrow { pc: Pc(55), dst: Reg(2), coro: Reg(0), src: Reg(1) };
    let thrown = m.call(&mut f, call);
    let error = StepError::Unwind(Fault::Throw(int(31)));
    assert_eq!(thrown, Answer::Raised { error, taken: 0 });
    assert_eq!((thrown.number(), thrown.word(), thrown.taken()), (17, int(31), 0));
    assert_eq!(thrown.accepted(), Err(Fault::Throw(int(31))));
    assert_eq!(m.raise(&mut f, error, Pc(55)), Ok(Unwound::Caught));
    assert_eq!((m.top().unwrap().pc, m.register(Reg(2))), (Pc(60), Some(int(31))));
    // a fault becomes an error object; at a pc without a handler it leaves the script, and reaches the host
    assert_eq!(m.unwind(&mut f, Fault::TypeError, Some(Pc(20))), Ok(Unwound::Caught));
    let error = m.register(Reg(2)).unwrap();
    let made = Object::Error { number: 2, function: FunctionId(3), pc: Pc(20), word: Word::NIL };
    assert_eq!(m.object(error), Some(made));
    let escaped = m.unwind(&mut f, Fault::Throw(int(8)), Some(Pc(70)));
    assert_eq!(escaped, Err(Fault::Throw(int(8))));
    let seen = m.coroutine(c).unwrap();
    assert_eq!((m.depth(), seen.state, seen.result), (0, State::Failed, int(8)));
    assert_eq!(m.unwind(&mut f, Fault::Unsound, None), Err(Fault::Unsound));

    // outcomes, of one that the host drives
    let (mut m, mut f) = begun();
    let [first, second] = [Reg(0), Reg(1)].map(|r| {
        assert_eq!(m.coro_new(&mut f, Pc(0), r, FunctionId(3), 0), NEXT);
        m.register(r).unwrap()
    });
    assert_eq!(m.finish(&mut f, Value::None)?, Finished::Exit(None));
    assert_eq!(m.take_outcome(&mut f), None);
    m.host_entry(&mut f, first, Word::NIL)?;
    assert_eq!(m.chain().next().map(|r| r.driver), Some(Driver::Host));
    m.put_word(&mut f, Reg(0), int(1))?;
    assert_eq!(m.yield_(&mut f, Pc(5), Reg(1), Reg(0))?, Step::Frame);
    assert_eq!(m.outcome(), Some(Outcome::Yielded(int(1))));
    assert_eq!(m.take_outcome(&mut f), Some(Outcome::Yielded(int(1))));
    assert_eq!(m.outcome(), None);
    m.host_entry(&mut f, first, int(2))?;
    assert_eq!(m.register(Reg(1)), Some(int(2)));
    assert_eq!(m.await_(&mut f, Pc(6), Reg(2), Reg(1))?, Step::Frame);
    let took = m.call(&mut f, Call::TakeOutcome);
    assert_eq!((took, took.word()), (Answer::Took(Some(Outcome::Awaiting(int(2)))), int(2)));
    // handed over, then entered all the same: the next charge takes its word off the queue
    m.hand_over(&mut f, first)?;
    assert_eq!(m.hand_over(&mut f, first), Err(Fault::InvalidCoroState));
    let rest = f.banked().unwrap();
    assert_eq!((f.left(), f.cleanup_ready(), m.cleanup_queue()), (0, true, &[first][..]));
    assert!(m.coroutine(first).unwrap().finalized);
    m.host_entry(&mut f, first, Word::NIL)?;
    let yields = Call::Yield { pc: Pc(7), dst: Reg(2), src: Reg(1) };
    assert_eq!(m.call(&mut f, yields), Answer::Stepped { step: Step::Frame, taken: 1 });
    assert_eq!((f.left(), f.banked(), f.cleanup_ready()), (rest - 1, None, false));
    assert!(m.cleanup_queue().is_empty());
    m.host_entry(&mut f, first, Word::NIL)?;
    assert_eq!(m.finish(&mut f, Value::Word(int(3)))?, Finished::Resume);
    assert_eq!(m.take_outcome(&mut f), Some(Outcome::Returned(int(3))));
    m.host_entry(&mut f, second, Word::NIL)?;
    assert_eq!(m.unwind(&mut f, Fault::Throw(int(4)), Some(Pc(55)))?, Unwound::Stopped);
    let failed = Outcome::Failed(int(4), FunctionId(3), Pc(55));
    assert_eq!(m.take_outcome(&mut f), Some(failed));
    Ok(())
}

#[test]
fn cleanups_loops_and_spawns() -> Result<(), Fault> {
    // two sleepers are handed over; a charge starts the cleanup of the first
    let (mut m, mut f) = begun();
    for r in [Reg(0), Reg(4)] {
        assert_eq!(m.coro_new(&mut f, Pc(0), r, FunctionId(3), 0)?, Step::Next);
        assert_eq!(m.resume(&mut f, Pc(1), Reg(1), r, Reg(2))?, Step::Frame);
        assert_eq!(m.yield_(&mut f, Pc(10), Reg(1), Reg(0))?, Step::Frame);
    }
    assert_eq!(m.next_sequence(), 2);
    let [c, other] = [Reg(0), Reg(4)].map(|r| m.register(r).unwrap());
    m.hand_over(&mut f, c)?;
    m.hand_over(&mut f, other)?;
    assert_eq!(m.cleanup_queue(), [c, other]);
    let current = Call::CoroCurrent { pc: Pc(2), dst: Reg(3) };
    let cleanup = m.call(&mut f, current);
    let error = StepError::Cleanup { taken: 1 };
    assert_eq!(cleanup, Answer::Raised { error, taken: 1 });
    assert_eq!((cleanup.fault(), cleanup.number()), (Some(Fault::Throw(Word::NIL)), 17));
    assert_eq!((m.cleaning(), m.chain().next().map(|r| r.driver)), (true, Some(Driver::Finalize)));
    assert_eq!(m.raise(&mut f, error, Pc(2))?, Unwound::Caught);
    assert!(m.coroutine(c).unwrap().closing);
    // another record is marked only when that one is over
    assert_eq!((m.cleanup_queue(), m.fuel(7).cleanup_ready()), (&[other][..], false));
    assert_eq!(m.finish(&mut f, Value::None)?, Finished::Resume);
    assert_eq!((m.cleaning(), m.fuel(7).banked()), (false, Some(7)));
    assert!(m.fuel(7).cleanup_ready() && m.check(&m.fuel(7)));
    assert_eq!(m.coro_current(&mut f, Pc(2), Reg(3)), Err(error));
    assert_eq!(m.raise(&mut f, error, Pc(2))?, Unwound::Caught);
    assert_eq!(m.finish(&mut f, Value::None)?, Finished::Resume);
    assert_eq!((m.fuel(7).left(), m.fuel(7).banked()), (7, None));
    assert_eq!(m.coro_current(&mut f, Pc(2), Reg(3))?, Step::Next);

    // a loop: an iterator with the key of its last step, then done
    assert_eq!(m.coro_new(&mut f, Pc(3), Reg(0), FunctionId(3), 0)?, Step::Next);
    let source = m.register(Reg(0)).unwrap();
    let iterator = m.make_iterator(&mut f, source)?;
    assert_eq!(m.object(iterator), Some(Object::Iterator { source, done: false, key: None }));
    m.put_word(&mut f, Reg(4), iterator)?;
    assert_eq!(m.iter_next(&mut f, Pc(4), Reg(5), Reg(4), Reg(6), Reg(0))?, Step::Frame);
    let driver = Driver::Iter { has: Reg(5), val: Reg(6), iter: iterator };
    assert_eq!(m.chain().collect::<Vec<_>>(), [Running { coroutine: source, floor: 1, driver }]);
    m.put_word(&mut f, Reg(0), int(50))?;
    assert_eq!(m.yield_kv(&mut f, Pc(1), Reg(1), Reg(0), Reg(0))?, Step::Frame);
    assert_eq!((m.register(Reg(5)), m.register(Reg(6))), (Some(Word(1)), Some(int(50))));
    assert_eq!(
        m.object(iterator),
        Some(Object::Iterator { source, done: false, key: Some(int(50)) })
    );
    assert_eq!(m.iter_next(&mut f, Pc(5), Reg(5), Reg(4), Reg(6), Reg(0))?, Step::Frame);
    assert_eq!(m.finish(&mut f, Value::None)?, Finished::Resume);
    assert_eq!(m.register(Reg(5)), Some(Word(0)));
    assert!(matches!(m.object(iterator), Some(Object::Iterator { done: true, .. })));

    // a spawn runs the hook with the new coroutine, and costs two units; with one left it is unpaid
    m.put_word(&mut f, Reg(0), Word::function(FunctionId(3)))?;
    assert_eq!(m.spawn(&mut f, Pc(6), Reg(1), Reg(0), 0)?, Step::Frame);
    assert_eq!(m.top().unwrap().function, FunctionId(2));
    assert!(m.register(Reg(0)).is_some_and(|w| m.coroutine(w).is_some()));
    assert_eq!(m.finish(&mut f, Value::None)?, Finished::Resume);
    while f.left() > 1 {
        assert_eq!(m.coro_current(&mut f, Pc(7), Reg(3))?, Step::Next);
    }
    let unpaid = m.spawn(&mut f, Pc(8), Reg(1), Reg(0), 0).unwrap_err();
    assert_eq!((unpaid, unpaid.fault()), (StepError::Unpaid, Fault::OutOfFuel));
    assert_eq!(m.raise(&mut f, unpaid, Pc(8)), Err(Fault::OutOfFuel));
    assert_eq!(m.top().unwrap().pc, Pc(8));
    // used up: the instruction can be made again after a grant
    let spent = m.coro_current(&mut f, Pc(9), Reg(3)).unwrap_err();
    assert_eq!(spent, StepError::Fault(Fault::OutOfFuel));
    assert_eq!(m.raise(&mut f, spent, Pc(9)), Err(Fault::OutOfFuel));
    assert_eq!(m.top().unwrap().pc, Pc(9));
    m.grant(&mut f, 1)?;
    assert_eq!(m.coro_current(&mut f, m.top().unwrap().pc, Reg(3))?, Step::Next);
    // no such register: the program is wrong, and nothing is raised
    let wrong = m.coro_current(&mut f, Pc(9), Reg(8)).unwrap_err();
    assert_eq!(wrong, StepError::Refused(Fault::BadOperand));
    assert_eq!(m.raise(&mut f, wrong, Pc(9)), Err(Fault::BadOperand));
    assert!(m.check(&f));
    Ok(())
}

#[test]
fn handlers_that_cannot_be_paid() -> Result<(), Fault> {
    // a word thrown into a sleeper: after the 10 it is raised again, and what the sleeper was to do is not done again
    let (mut m, mut f) = begun();
    assert_eq!(m.coro_new(&mut f, Pc(0), Reg(0), FunctionId(3), 0)?, Step::Next);
    assert_eq!(m.resume(&mut f, Pc(1), Reg(1), Reg(0), Reg(2))?, Step::Frame);
    assert_eq!(m.yield_(&mut f, Pc(5), Reg(1), Reg(0))?, Step::Frame);
    m.put_word(&mut f, Reg(2), int(77))?;
    let mut f = m.fuel(1);
    let thrown = m.resume_throw(&mut f, Pc(2), Reg(1), Reg(0), Reg(2)).unwrap_err();
    assert_eq!(thrown, StepError::Unwind(Fault::Throw(int(77))));
    assert_eq!(m.raise(&mut f, thrown, Pc(2)), Err(Fault::OutOfFuel));
    assert_eq!((m.depth(), m.top().unwrap().pc), (2, Pc(5)));
    m.grant(&mut f, 1)?;
    assert_eq!(m.unwind(&mut f, thrown.fault(), None)?, Unwound::Caught);
    assert_eq!((m.top().unwrap().pc, m.register(Reg(2))), (Pc(60), Some(int(77))));

    // a fault whose handler is a frame below: its own frame is gone, and its pc is no longer to be stored
    let (mut m, mut f) = begun();
    assert_eq!(m.finish(&mut f, Value::None)?, Finished::Exit(None));
    m.host_call(&mut f, FunctionId(3))?;
    m.function_call(&mut f, Pc(3), FunctionId(0), Cont::Discard)?;
    let mut f = m.fuel(1);
    let error = m.resume(&mut f, Pc(55), Reg(1), Reg(0), Reg(2)).unwrap_err();
    assert_eq!(error, StepError::Fault(Fault::NullReference));
    assert_eq!(m.raise(&mut f, error, Pc(55)), Err(Fault::OutOfFuel));
    assert_eq!((m.depth(), m.top().unwrap().pc), (1, Pc(3)));
    m.grant(&mut f, 1)?;
    let mut wrong = m.clone();
    let raised = wrong.raise(&mut m.fuel(1), error, Pc(55)).unwrap_err();
    assert!(matches!(raised, Fault::Throw(_)), "55 is the pc of no handler here");
    assert_eq!(m.unwind(&mut f, error.fault(), None)?, Unwound::Caught);
    assert_eq!(m.top().unwrap().pc, Pc(60));
    Ok(())
}

#[test]
fn rows_and_slots_that_are_used_up() -> Result<(), Fault> {
    // by rows, then by slots: the 14 is told, and no handler takes it
    let setup = |rows, slots| {
        let handler = Handler { start: Pc(0), end: Pc(50), target: Pc(60), catch: Reg(1) };
        Setup::new().rows(rows).slots(slots).function(Function::new(2).handler(handler))
    };
    for (setup, made) in [(setup(1, 9), 1), (setup(9, 4), 3)] {
        let (mut m, mut f) = setup.machine().unwrap();
        m.grant(&mut f, 9)?;
        m.host_call(&mut f, FunctionId(0))?;
        for pc in 0..made {
            assert_eq!(m.coro_new(&mut f, Pc(pc), Reg(0), FunctionId(0), 0)?, Step::Next);
        }
        let before = m.clone();
        let full = m.coro_new(&mut f, Pc(7), Reg(0), FunctionId(0), 0).unwrap_err();
        assert_eq!(full, StepError::Fault(Fault::Full));
        assert_eq!(m.raise(&mut f, full, Pc(7)), Err(Fault::Full));
        assert_eq!(m, before);
        // a row is free again when its coroutine is over
        assert_eq!(m.coro_close(&mut f, Pc(8), Reg(1), Reg(0), Reg(1))?, Step::Next);
        let again = m.coro_new(&mut f, Pc(7), Reg(0), FunctionId(0), 0);
        assert_eq!(again, if made == 1 { NEXT } else { Err(full) });
    }
    Ok(())
}

#[test]
fn a_loop_without_an_iterator() -> Result<(), Fault> {
    let (mut m, mut f) = begun();
    assert_eq!(m.coro_new(&mut f, Pc(0), Reg(0), FunctionId(3), 0)?, Step::Next);
    let slots = m.slots_used();
    assert_eq!(m.iter_next(&mut f, Pc(1), Reg(5), Reg(4), Reg(6), Reg(0))?, Step::Frame);
    m.put_word(&mut f, Reg(0), int(50))?;
    assert_eq!(m.yield_(&mut f, Pc(1), Reg(1), Reg(0))?, Step::Frame);
    assert_eq!([4, 5, 6].map(|r| m.look()[r]), [Word::NIL, Word(1), int(50)]);
    assert_eq!(m.slots_used(), slots);
    Ok(())
}

#[test]
fn words_that_are_not_sound() {
    let (mut m, mut f) = begun();
    assert_eq!(m.coro_new(&mut f, Pc(0), Reg(0), FunctionId(3), 0), NEXT);
    let words = m.clone().into_words(&f);
    assert_eq!(Machine::from_words(words.clone()), Ok((m, f)));
    assert!(Machine::from_words(Words::default()).is_err());
    let mut other = words.clone();
    other.stack.pop();
    assert_eq!(Machine::from_words(other.clone()), Err(Unsound(Box::new(other))));
    let mut other = words;
    other.slots[20] = 1;
    other.fuel.push(0); // a record has four words
    assert!(Machine::from_words(other).is_err());
}
