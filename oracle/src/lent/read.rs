//! The state that lent words stand for, if they stand for a sound one: the
//! paper's paragraph "Sound", of words. Codes, flags and ranges of every
//! field, room in each slice, zeros in all that is not in use; then the rules
//! on the state (`sound`).

use super::{
    Words, CHAIN, FINALIZE, FRAMES, FUEL, MACHINE, READY, SAVED_FRAMES, SAVED_STACK, SETUP, SLOTS,
    STACK,
};
use crate::sound::{good_setup, sound, Broken};
use crate::world::{
    Active, Cont, Coro, Costs, Driver, Frame, Func, Handler, Object, Setup, Slot, State, Stop,
    World,
};

fn rule(holds: bool, name: Broken) -> Result<(), Broken> {
    holds.then_some(()).ok_or(name)
}

/// A number that a narrower field holds.
fn narrow<T: TryFrom<u64>>(n: u64) -> Result<T, Broken> {
    T::try_from(n).map_err(|_| "a number that its field cannot hold")
}

fn flag(n: u64) -> Result<bool, Broken> {
    rule(n < 2, "a flag is 0 or 1")?;
    Ok(n == 1)
}

fn option(some: u64, n: u64) -> Result<Option<u64>, Broken> {
    let some = flag(some)?;
    rule(some || n == 0, "no number where there is none")?;
    Ok(some.then_some(n))
}

fn zeros(ws: &[u64]) -> Result<(), Broken> {
    rule(ws.iter().all(|&w| w == 0), "words not in use are 0")
}

/// The first `n` words, and zeros after.
fn used(ws: &[u64], n: u64) -> Result<&[u64], Broken> {
    let n = usize::try_from(n).unwrap_or(usize::MAX);
    rule(n <= ws.len(), "lent words enough")?;
    zeros(&ws[n..])?;
    Ok(&ws[..n])
}

/// The first `n` words, with at most `most` of them.
fn at_most(ws: &[u64], n: u64, most: u64, size: u64) -> Result<&[u64], Broken> {
    rule(n <= most, "sizes within limits")?;
    used(ws, n * size)
}

/// A set-up that keeps the closing list, from words with zeros after it.
pub fn setup(ws: &[u64]) -> Result<Setup, Broken> {
    let enough = "lent words enough for the set-up";
    rule(ws.len() >= 14, enough)?;
    let n = ws[13];
    rule((1..=32).contains(&n), "functions 1-32")?;
    rule(ws.len() as u64 >= 14 + n * 35, enough)?;
    let funcs = &used(ws, 14 + n * 35)?[14..];
    let s = Setup {
        depth: ws[0],
        stack: ws[1],
        rows: ws[2],
        slots: ws[3],
        memory: ws[4],
        costs: Costs {
            frame: ws[5],
            coro: ws[6],
            coro_object: ws[7],
            int: ws[8],
            error: ws[9],
            iter: ws[10],
        },
        hook: option(ws[11], ws[12])?,
        funcs: funcs.chunks(35).map(function).collect::<Result<_, _>>()?,
    };
    good_setup(&s)?;
    Ok(s)
}

fn function(ws: &[u64]) -> Result<Func, Broken> {
    rule(ws[2] <= 8, "at most eight handlers")?;
    let handlers = used(&ws[3..], ws[2] * 4)?.chunks(4);
    let handlers =
        handlers.map(|h| Handler { start: h[0], end: h[1], target: h[2], catch: h[3] }).collect();
    Ok(Func { nregs: ws[0], nparams: ws[1], handlers })
}

fn frame(ws: &[u64]) -> Result<Frame, Broken> {
    let reg = narrow(ws[5])?;
    let cont = match ws[4] {
        0 => Cont::Entry,
        1 => Cont::Write(reg),
        2 => Cont::Dyn(reg),
        3 => Cont::Value(reg),
        4 => Cont::Discard,
        5 => Cont::Coro,
        _ => return Err("a continuation's code"),
    };
    rule(matches!(ws[4], 1..=3) || reg == 0, "a continuation without a register")?;
    Ok(Frame {
        func: narrow(ws[0])?,
        pc: narrow(ws[1])?,
        base: narrow(ws[2])?,
        closure: ws[3],
        cont,
    })
}

fn frames(ws: &[u64]) -> Result<Vec<Frame>, Broken> {
    ws.chunks(6).map(frame).collect()
}

fn active(ws: &[u64]) -> Result<Active, Broken> {
    let driver = match ws[2] {
        0 => Driver::Resume(narrow(ws[3])?),
        1 => Driver::Iter { has: narrow(ws[3])?, val: narrow(ws[4])?, iter: ws[5] },
        2 => Driver::Host,
        3 => Driver::Finalize,
        _ => return Err("a driver's code"),
    };
    zeros(match ws[2] {
        0 => &ws[4..],
        1 => &[],
        _ => &ws[3..],
    })?;
    Ok(Active { coro: ws[0], floor: narrow(ws[1])?, driver })
}

/// The rows: the saved words and frames, as far as a coroutine counts them.
struct Rows<'a> {
    stack: &'a [u64],
    frames: &'a [u64],
    width: usize,
    depth: usize,
}

impl Rows<'_> {
    fn new<'a>(s: &Setup, width: u64, stack: &'a [u64], frames: &'a [u64]) -> Rows<'a> {
        Rows { stack, frames, width: width as usize, depth: s.depth as usize * 6 }
    }

    fn count(&self) -> usize {
        self.frames.len() / self.depth
    }

    fn stack_of(&self, row: usize) -> &[u64] {
        &self.stack[row * self.width..][..self.width]
    }

    fn frames_of(&self, row: usize) -> &[u64] {
        &self.frames[row * self.depth..][..self.depth]
    }
}

fn slot(ws: &[u64], rows: &Rows<'_>) -> Result<Slot, Broken> {
    let tag = narrow(ws[0])?;
    let (object, words) = match ws[1] {
        0 => (Object::Empty, 2),
        1 => (Object::Func(narrow(ws[2])?), 3),
        2 => (Object::Int(ws[2] as i64), 3),
        3 => (Object::Iter { src: ws[2], done: flag(ws[3])?, key: None }, 4),
        4 => (Object::Iter { src: ws[2], done: flag(ws[3])?, key: Some(ws[4]) }, 5),
        5 => {
            let (number, func, pc) = (narrow(ws[2])?, narrow(ws[3])?, narrow(ws[4])?);
            (Object::Error { number, func, pc, payload: ws[5] }, 6)
        }
        6 => (Object::Coro(Box::new(coro(&ws[2..], rows)?)), 18),
        _ => return Err("an object's kind"),
    };
    zeros(&ws[words..])?;
    Ok(Slot { tag, object })
}

fn coro(ws: &[u64], rows: &Rows<'_>) -> Result<Coro, Broken> {
    let state = usize::try_from(ws[0]).ok().and_then(|n| State::ALL.get(n));
    let state = *state.ok_or("a state's code")?;
    let row: usize = narrow(ws[5])?;
    let (regs, saved) = if state.is_finished() {
        rule(ws[6] == 0 && ws[7] == 0, "a finished one has nothing saved")?;
        (Vec::new(), Vec::new())
    } else {
        rule(row < rows.count(), "a row there is")?;
        let regs = used(rows.stack_of(row), ws[6])?;
        let saved = rows.frames_of(row);
        (regs.to_vec(), frames(used(saved, ws[7].checked_mul(6).ok_or("saved frames")?)?)?)
    };
    Ok(Coro {
        state,
        closing: flag(ws[1])?,
        finalized: flag(ws[2])?,
        task: flag(ws[3])?,
        seq: ws[4],
        row,
        max_regs: narrow(ws[8])?,
        max_frames: narrow(ws[9])?,
        resume_dst: narrow(ws[10])?,
        payload: ws[11],
        key: ws[12],
        max_key: ws[13] as i64,
        result: ws[14],
        signal: ws[15],
        regs,
        frames: saved,
    })
}

fn outcome(ws: &[u64]) -> Result<Option<Stop>, Broken> {
    rule(ws[0] == 4 || (ws[2] == 0 && ws[3] == 0), "an outcome without function and pc")?;
    Ok(Some(match ws[0] {
        1 => Stop::Yielded(ws[1]),
        2 => Stop::Awaiting(ws[1]),
        3 => Stop::Returned(ws[1]),
        4 => Stop::Failed(ws[1], narrow(ws[2])?, narrow(ws[3])?),
        0 | 5 => {
            rule(ws[1] == 0, "an outcome without a word")?;
            return Ok((ws[0] == 5).then_some(Stop::CloseIgnored));
        }
        _ => return Err("an outcome's code"),
    }))
}

/// The sound state that the words stand for, or a rule that they break.
pub fn read(words: &Words) -> Result<World, Broken> {
    let w = &words.0;
    let s = setup(&w[SETUP])?;
    let room = |slice: usize, n: u64| rule(w[slice].len() as u64 >= n, "lent words enough");
    let blank = World { setup: s, ..World::default() };
    let (s, width) = (&blank.setup, blank.row_room());
    let (m, f) = (&w[MACHINE], &w[FUEL]);
    rule(m.len() >= 25, "25 words for the machine's numbers")?;
    rule(f.len() >= 4, "4 words of fuel")?;
    room(STACK, s.stack)?;
    room(FRAMES, s.depth * 6)?;
    room(CHAIN, s.depth * 6)?;
    room(SLOTS, s.slots * 20)?;
    room(SAVED_STACK, s.rows * width)?;
    room(SAVED_FRAMES, s.rows * s.depth * 6)?;
    room(READY, s.slots)?;
    room(FINALIZE, s.slots)?;
    let (k, sizes) = (&s.costs, &m[13..25]);
    let own = [s.depth, s.stack, s.rows, s.slots, s.memory, width];
    let costs = [k.frame, k.coro, k.coro_object, k.int, k.error, k.iter];
    rule(sizes[..6] == own && sizes[6..] == costs, "the set-up's own sizes")?;

    let saved = used(&w[SAVED_STACK], s.rows * width)?;
    let saved_frames = used(&w[SAVED_FRAMES], s.rows * s.depth * 6)?;
    let rows = Rows::new(s, width, saved, saved_frames);
    let slots = at_most(&w[SLOTS], m[3], s.slots, 20)?;
    let world = World {
        stack: at_most(&w[STACK], m[0], s.stack, 1)?.to_vec(),
        frames: frames(at_most(&w[FRAMES], m[1], s.depth, 6)?)?,
        chain: at_most(&w[CHAIN], m[2], s.depth, 6)?
            .chunks(6)
            .map(active)
            .collect::<Result<_, _>>()?,
        slots: slots.chunks(20).map(|x| slot(x, &rows)).collect::<Result<_, _>>()?,
        ready: at_most(&w[READY], m[4], s.slots, 1)?.to_vec(),
        cleanup: at_most(&w[FINALIZE], m[5], s.slots, 1)?.to_vec(),
        fuel: f[0],
        bank: option(f[1], f[2])?,
        close_ready: flag(f[3])?,
        finalizing: flag(m[6])?,
        used: m[7],
        seq: m[8],
        outcome: outcome(&m[9..13])?,
        setup: s.clone(),
    };
    sound(&world)?;
    // rows that no unfinished coroutine has
    let taken = world.rows_taken();
    for row in (0..rows.count()).filter(|&r| !taken[r]) {
        zeros(rows.stack_of(row))?;
        zeros(rows.frames_of(row))?;
    }
    Ok(world)
}
