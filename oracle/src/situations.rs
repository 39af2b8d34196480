//! Situations that a good set of runs meets, each with its test.

use crate::call::{Answer, Call, Case, Step};
use crate::compare::Made;
use crate::word;
use crate::world::{Coro, Driver, Object, State, World};

/// A situation and whether a call met it.
type Situation = (&'static str, fn(&Made) -> bool);

fn top_pc(w: &World) -> Option<u32> {
    w.frames.last().map(|f| f.pc)
}

fn entered(m: &Made) -> Option<Driver> {
    let new = m.after.chain.len() > m.before.chain.len();
    new.then(|| m.after.chain.last().expect("longer").driver)
}

/// The coroutine that a call suspended: its driver and what is saved.
fn suspended<'a>(m: &Made<'a>) -> Option<(&'a Coro, &'a Coro, Driver)> {
    let act = m.before.chain.last()?;
    let (was, is) = (m.before.coro(act.coro)?, m.after.coro(act.coro)?);
    is.state.is_suspended().then_some((was, is, act.driver))
}

/// The coroutine that a call finished: its new state and its driver.
fn finished(m: &Made) -> Option<(State, bool, Driver)> {
    let act = m.before.chain.last()?;
    let (was, is) = (m.before.coro(act.coro)?, m.after.coro(act.coro)?);
    is.state.is_finished().then_some((is.state, was.closing, act.driver))
}

fn created(m: &Made) -> bool {
    let grown = m.after.slots.len() > m.before.slots.len();
    grown && matches!(m.after.slots.last().expect("longer").object, Object::Coro(_))
}

fn accepted(a: &Answer) -> bool {
    a.number == 0
}

fn operand(m: &Made) -> Option<u64> {
    let r = match *m.call {
        Call::Resume { coro, .. }
        | Call::ResumeThrow { coro, .. }
        | Call::CoroClose { coro, .. } => coro,
        Call::IterNext { src, .. } => src,
        _ => return None,
    };
    m.before.window().get(usize::from(r)).copied()
}

/// Handlers that cover the top frame's pc after a caught fault's frames went.
fn covering(m: &Made) -> Vec<usize> {
    let Some(f) = m.after.frames.last() else {
        return Vec::new();
    };
    let Some(was) = m.before.frames.get(m.after.frames.len() - 1) else {
        return Vec::new();
    };
    let given = match *m.call {
        Call::Unwind { pc, .. } if m.before.frames.len() == m.after.frames.len() => pc,
        _ => None,
    };
    let pc = u64::from(given.unwrap_or(was.pc));
    let hs = &m.after.setup.funcs[f.func as usize].handlers;
    (0..hs.len()).filter(|&i| hs[i].start <= pc && pc < hs[i].end).collect()
}

fn args(call: &Call) -> u8 {
    match *call {
        Call::CoroNew { argc, .. }
        | Call::CoroNewIndirect { argc, .. }
        | Call::Spawn { argc, .. } => argc,
        _ => 0,
    }
}

fn key_object(m: &Made) -> bool {
    let grown = m.after.slots.len() > m.before.slots.len();
    grown && matches!(m.after.slots.last().expect("longer").object, Object::Int(_))
}

/// Every situation, by name.
pub const SITUATIONS: &[Situation] = &[
    ("entry by a Resume driver", |m| matches!(entered(m), Some(Driver::Resume(_)))),
    ("entry by an iterator driver", |m| matches!(entered(m), Some(Driver::Iter { .. }))),
    ("entry by the host", |m| matches!(entered(m), Some(Driver::Host))),
    ("entry by a cleanup", |m| matches!(entered(m), Some(Driver::Finalize))),
    ("entry that fills the depth limit", |m| {
        entered(m).is_some() && m.after.frames.len() as u64 == m.after.setup.depth
    }),
    ("entry that fills the stack", |m| {
        entered(m).is_some() && m.after.stack.len() as u64 == m.after.setup.stack
    }),
    ("call that fills the depth limit", |m| {
        matches!(m.call, Call::FunctionCall { .. })
            && accepted(m.answer)
            && m.after.frames.len() as u64 == m.after.setup.depth
    }),
    ("four or more coroutines active", |m| m.after.chain.len() >= 4),
    (
        "delivery to Resume",
        |m| matches!(suspended(m), Some((.., Driver::Resume(_))) if accepted(m.answer)),
    ),
    (
        "delivery to an iterator",
        |m| matches!(suspended(m), Some((.., Driver::Iter { .. })) if accepted(m.answer)),
    ),
    (
        "delivery to an iterator, has = val",
        |m| matches!(suspended(m), Some((.., Driver::Iter { has, val, .. })) if has == val && accepted(m.answer)),
    ),
    ("delivery to the host", |m| matches!(suspended(m), Some((.., Driver::Host)))),
    ("delivery to a cleanup", |m| matches!(suspended(m), Some((.., Driver::Finalize)))),
    ("return to Resume", |m| matches!(finished(m), Some((State::Returned, _, Driver::Resume(_))))),
    ("return to an iterator", |m| {
        matches!(finished(m), Some((State::Returned, _, Driver::Iter { .. })))
    }),
    ("return to the host", |m| matches!(finished(m), Some((State::Returned, _, Driver::Host)))),
    ("return to a cleanup", |m| {
        matches!(finished(m), Some((State::Returned, _, Driver::Finalize)))
    }),
    ("6 to a Resume driver", |m| {
        m.answer.number == 6 && matches!(suspended(m), Some((.., Driver::Resume(_))))
    }),
    ("6 to an iterator driver", |m| {
        m.answer.number == 6 && matches!(suspended(m), Some((.., Driver::Iter { .. })))
    }),
    ("yield while closing under the host", |m| {
        matches!(suspended(m), Some((c, _, Driver::Host)) if c.closing) && accepted(m.answer)
    }),
    ("yield while closing under a cleanup", |m| {
        matches!(suspended(m), Some((c, _, Driver::Finalize)) if c.closing) && accepted(m.answer)
    }),
    (
        "await while closing",
        |m| matches!(suspended(m), Some((c, n, _)) if c.closing && n.closing && n.state == State::Awaiting),
    ),
    ("await in a loop: 2 after suspending", |m| {
        m.answer.number == 2 && matches!(suspended(m), Some((.., Driver::Iter { .. })))
    }),
    ("close that succeeded", |m| {
        matches!(m.call, Call::Unwind { .. })
            && matches!(finished(m), Some((State::Returned, true, _)))
    }),
    ("escape while closing that failed", |m| {
        matches!(m.call, Call::Unwind { .. })
            && matches!(finished(m), Some((State::Failed, true, _)))
    }),
    ("returned value delivered while closing", |m| {
        matches!(m.call, Call::Finish { .. })
            && matches!(finished(m), Some((State::Returned, true, _)))
    }),
    ("handler taken where two overlap", |m| m.answer.case == Case::Caught && covering(m).len() > 1),
    ("handler taken past an empty range", |m| {
        m.answer.case == Case::Caught && {
            let f = m.after.frames.last().expect("a handler's frame");
            let hs = &m.after.setup.funcs[f.func as usize].handlers;
            let first = covering(m).first().copied().unwrap_or(0);
            hs[..first].iter().any(|h| h.start >= h.end)
        }
    }),
    ("unwinding through three frames or more", |m| {
        matches!(m.call, Call::Unwind { .. }) && m.before.frames.len() >= m.after.frames.len() + 3
    }),
    ("10 at a handler", |m| {
        matches!(m.call, Call::Unwind { fault, .. } if *fault != 10) && m.answer.number == 10
    }),
    ("creation that takes the last row", |m| created(m) && m.after.rows_taken().iter().all(|&t| t)),
    ("creation that takes the last slot", |m| {
        created(m) && m.after.slots.len() as u64 == m.after.setup.slots
    }),
    ("14 for want of a row only", |m| {
        m.answer.number == 14 && (m.before.slots.len() as u64) < m.before.setup.slots
    }),
    ("14 for want of a slot only", |m| {
        m.answer.number == 14 && m.before.rows_taken().iter().any(|&t| !t)
    }),
    ("charge that fills memory exactly", |m| {
        m.after.used > m.before.used
            && m.after.used == m.after.setup.memory
            && m.after.used < u64::MAX
    }),
    ("memory figure that stays at 2^64 - 1", |m| {
        m.after.used == u64::MAX && m.after.used > m.before.used
    }),
    ("creation's second 9: the number moved", |m| {
        m.answer.number == 9 && m.after.seq != m.before.seq
    }),
    ("suspension that charges growth", |m| suspended(m).is_some() && m.after.used > m.before.used),
    ("suspension that charges nothing", |m| {
        suspended(m).is_some() && m.after.used == m.before.used
    }),
    ("9 after a key object was made", |m| m.answer.number == 9 && key_object(m)),
    (
        "key 2^47 - 1, inline",
        |m| matches!(suspended(m), Some((w, c, _)) if c.max_key == (1 << 47) - 1 && w.max_key < c.max_key),
    ),
    ("key 2^47, an object", |m| {
        matches!(suspended(m), Some((_, c, _)) if c.max_key == 1 << 47) && key_object(m)
    }),
    (
        "key 2^63 - 1",
        |m| matches!(suspended(m), Some((w, c, _)) if c.max_key == i64::MAX && w.max_key < i64::MAX),
    ),
    ("keyed by an integer object", |m| {
        let Call::YieldKv { key, .. } = *m.call else { return false };
        let w = m.before.window().get(usize::from(key)).copied().unwrap_or(0);
        suspended(m).is_some() && matches!(m.before.get(w), Some(Object::Int(_)))
    }),
    ("pc 2^32 - 1 steps to 0", |m| {
        let below = |n: usize| m.before.frames.get(n.wrapping_sub(1)).map(|f| f.pc);
        let n = m.after.frames.len();
        n < m.before.frames.len() && top_pc(m.after) == Some(0) && below(n) == Some(u32::MAX)
    }),
    ("entry that steps a saved pc 2^32 - 1 to 0", |m| {
        let Some(a) = m.after.chain.last().filter(|_| entered(m).is_some()) else { return false };
        let saved = m.before.coro(a.coro).and_then(|c| c.frames.last()).map(|f| f.pc);
        saved == Some(u32::MAX) && top_pc(m.after) == Some(0)
    }),
    ("sequence number 2^64 - 1 goes to 0", |m| m.before.seq == u64::MAX && m.after.seq == 0),
    ("coroutine without registers made", |m| {
        created(m)
            && matches!(&m.after.slots.last().expect("made").object, Object::Coro(c) if c.regs.is_empty())
    }),
    ("frame without registers entered", |m| entered(m).is_some() && m.after.window().is_empty()),
    ("255 arguments", |m| args(m.call) == 255 && created(m)),
    ("more arguments than registers", |m| {
        created(m)
            && matches!(m.call, Call::CoroNew { func, argc, .. }
                if u64::from(*argc) > m.before.setup.funcs[*func as usize].nregs)
    }),
    ("empty window past the last register", |m| {
        args(m.call) == 0 && created(m) && m.call.window_end() == Some(m.before.window().len())
    }),
    ("queue word of a finished one taken off", |m| {
        let gone = &m.before.cleanup[..m.answer.taken as usize];
        gone.iter().any(|&c| m.before.coro(c).is_some_and(|c| c.state.is_finished()))
    }),
    ("queue word of one the limits cannot hold taken off", |m| {
        let gone = &m.before.cleanup[..m.answer.taken as usize];
        gone.iter().any(|&c| m.after.coro(c).is_some_and(|c| c.state.is_suspended()))
    }),
    ("two or more queue words taken off", |m| m.answer.taken >= 2),
    ("queue words taken off and no cleanup started", |m| {
        m.answer.taken > 0 && m.answer.case != Case::Cleanup
    }),
    ("charge that enters the instruction's own operand", |m| {
        m.answer.case == Case::Cleanup && operand(m) == m.after.chain.last().map(|a| a.coro)
    }),
    ("throw of nil into a suspended one", |m| {
        matches!(m.call, Call::ResumeThrow { .. })
            && m.answer.number == 17
            && m.answer.word == word::NIL
            && m.answer.step == Step::Unwind
            && m.answer.case != Case::Cleanup
    }),
    ("throw into a Created one", |m| {
        matches!(m.call, Call::ResumeThrow { .. })
            && m.answer.number == 17
            && m.answer.step == Step::Fault
    }),
    ("Spawn's 10 with the coroutine made", |m| m.answer.case == Case::Made),
    ("Spawn's 10 with nothing made", |m| {
        matches!(m.call, Call::Spawn { .. }) && m.answer.number == 10 && m.answer.case != Case::Made
    }),
    ("Spawn's 4 with the coroutine made", |m| {
        matches!(m.call, Call::Spawn { .. }) && m.answer.number == 4 && created(m)
    }),
    ("finish: exit without a word", |m| m.answer.case == Case::Exit),
    ("finish: exit with word 0", |m| m.answer.case == Case::ExitWord && m.answer.word == 0),
    ("finish without a frame", |m| {
        matches!(m.call, Call::Finish { .. }) && m.before.frames.is_empty()
    }),
    ("done iterator with a source of the wrong kind", |m| {
        let Call::IterNext { iter, .. } = *m.call else { return false };
        let w = m.before.window().get(usize::from(iter)).copied().unwrap_or(0);
        matches!(m.before.get(w), Some(Object::Iter { done: true, .. }))
            && matches!(m.answer.number, 1 | 2)
    }),
    ("grant to a bank", |m| {
        matches!(m.call, Call::Grant { .. }) && accepted(m.answer) && m.before.bank.is_some()
    }),
    ("stop run with coroutines active", |m| {
        matches!(m.call, Call::StopRun) && !m.before.chain.is_empty()
    }),
];
