//! 01's rules: which set-ups are good, and which machines are sound.
//! Each rule is one function with its words. `sound` names the first rule
//! that a state breaks.
//!
//! A frame's extent runs from its base to the next frame's base, or to the
//! end of the stack (for a saved frame, of the saved words). Number ranges
//! (16 and 32 bits) hold by the types of `World`.

use std::collections::HashSet;

use crate::world::{Cont, Coro, Driver, Frame, Object, Setup, State, World};

/// A broken rule, by name.
pub type Broken = &'static str;

fn rule(holds: bool, name: Broken) -> Result<(), Broken> {
    holds.then_some(()).ok_or(name)
}

/// The closing list's bounds.
pub fn good_setup(s: &Setup) -> Result<(), Broken> {
    rule((1..=128).contains(&s.depth), "depth 1-128")?;
    rule((1..=1024).contains(&s.stack), "stack 1-1,024 words")?;
    rule((1..=64).contains(&s.rows), "rows 1-64")?;
    rule((1..=4096).contains(&s.slots), "slots 1-4,096")?;
    rule((1..=32).contains(&s.funcs.len()), "functions 1-32")?;
    rule(s.funcs.len() as u64 <= s.slots, "slots not fewer than the functions")?;
    let k = &s.costs;
    let costs = [k.frame, k.coro, k.coro_object, k.int, k.error, k.iter];
    rule(costs.iter().all(|&c| c <= 65_536), "costs 0-65,536")?;
    for f in &s.funcs {
        rule(f.nregs <= 256, "registers 0-256")?;
        rule(f.nparams <= f.nregs, "parameters at most registers")?;
        rule(f.handlers.len() <= 8, "at most eight handlers")?;
        for h in &f.handlers {
            rule(h.catch < f.nregs, "a catch register of its own frame")?;
            let pcs = [h.start, h.end, h.target];
            rule(pcs.iter().all(|&p| p < 1 << 32), "a pc is below 2^32")?;
        }
    }
    if let Some(hook) = s.hook {
        let f = s.funcs.get(usize::try_from(hook).unwrap_or(usize::MAX));
        rule(f.is_some_and(|f| f.nregs > 0), "hook: a function with a register")?;
    }
    Ok(())
}

/// The whole paragraph "Sound", set-up included.
pub fn sound(w: &World) -> Result<(), Broken> {
    good_setup(&w.setup)?;
    sizes(w)?;
    ranges(w)?;
    active_frames(w)?;
    chain(w)?;
    for (_, c) in w.coros() {
        coroutine(w, c)?;
    }
    rows(w)?;
    queues(w)?;
    rule(w.bank.is_none() || w.fuel == 0, "fuel 0 while banked")?;
    unused(w)
}

fn sizes(w: &World) -> Result<(), Broken> {
    rule(w.frames.len() as u64 <= w.setup.depth, "frames within the depth limit")?;
    rule(w.stack.len() as u64 <= w.setup.stack, "stack within its limit")?;
    rule(w.slots.len() as u64 <= w.setup.slots, "slots within their limit")?;
    rule(w.used <= w.setup.memory, "memory within its limit")
}

fn active_frames(w: &World) -> Result<(), Broken> {
    let first = w.frames.first();
    rule(first.is_some() || w.stack.is_empty(), "the stack is empty without a frame")?;
    frames(w, &w.frames, w.stack.len())?;
    let entry = |f: &Frame| f.cont == Cont::Entry;
    rule(!w.frames.iter().skip(1).any(entry), "Entry only at the bottom")
}

/// What holds of every list of frames over `len` words, active or saved.
fn frames(w: &World, fs: &[Frame], len: usize) -> Result<(), Broken> {
    rule(fs.first().is_none_or(|f| f.base == 0), "frame bases begin at 0")?;
    let mut below: Option<&Frame> = None;
    for (i, f) in fs.iter().enumerate() {
        let end = fs.get(i + 1).map_or(len, |next| next.base);
        rule(f.base <= end, "frame bases never fall and stay within")?;
        let func = w.setup.funcs.get(f.func as usize);
        let func = func.ok_or("every frame names a function")?;
        let caught = |r: u64| (f.base as u64 + r) < end as u64;
        rule(func.handlers.iter().all(|h| caught(h.catch)), "catch registers lie in their frame")?;
        if let Cont::Write(r) | Cont::Dyn(r) | Cont::Value(r) = f.cont {
            let lies = below.is_some_and(|b| b.base + usize::from(r) < f.base);
            rule(lies, "continuation registers lie in their frame")?;
        }
        below = Some(f);
    }
    Ok(())
}

fn chain(w: &World) -> Result<(), Broken> {
    let mut last = None;
    let mut seen = HashSet::new();
    for a in &w.chain {
        rule(last.is_none_or(|l| l < a.floor), "active floors rise")?;
        last = Some(a.floor);
        let floor = w.frames.get(a.floor).filter(|f| f.cont == Cont::Coro);
        let floor = floor.ok_or("each floor at a Coro frame")?;
        let running = w.coro(a.coro).is_some_and(|c| c.state == State::Running);
        rule(running, "an active one is a Running coroutine")?;
        rule(seen.insert(a.coro), "a Running coroutine of its own")?;
        let lies = |r: u16| {
            let below = a.floor.checked_sub(1).map(|i| &w.frames[i]);
            below.is_some_and(|b| b.base + usize::from(r) < floor.base)
        };
        let lie = match a.driver {
            Driver::Resume(dst) => lies(dst),
            Driver::Iter { has, val, .. } => lies(has) && lies(val),
            Driver::Host | Driver::Finalize => true,
        };
        rule(lie, "driver registers lie in their frame")?;
    }
    let bodies = w.frames.iter().filter(|f| f.cont == Cont::Coro).count();
    rule(bodies == w.chain.len(), "no other frame is Coro")?;
    let running = w.coros().filter(|(_, c)| c.state == State::Running).count();
    rule(running == w.chain.len(), "no other coroutine Running")
}

fn coroutine(w: &World, c: &Coro) -> Result<(), Broken> {
    rule(c.regs.len() as u64 <= w.row_room(), "saved words within the row")?;
    rule(c.frames.len() as u64 <= w.setup.depth, "saved frames within the row")?;
    rule(c.max_regs as u64 <= w.row_room(), "largest saved words within the row")?;
    rule(c.max_frames as u64 <= w.setup.depth, "largest saved frames within the row")?;
    if !c.state.is_resumable() {
        let empty = c.regs.is_empty() && c.frames.is_empty();
        return rule(empty, "a Running or finished one has nothing saved");
    }
    frames(w, &c.frames, c.regs.len())?;
    let (body, rest) = c.frames.split_first().ok_or("at least one saved frame")?;
    rule(body.cont == Cont::Coro, "the first saved frame is Coro")?;
    let plain = |f: &Frame| !matches!(f.cont, Cont::Coro | Cont::Entry);
    rule(rest.iter().all(plain), "the rest neither Coro nor Entry")?;
    if c.state.is_suspended() {
        let top = c.frames.last().map_or(0, |f| f.base);
        let lies = top + usize::from(c.resume_dst) < c.regs.len();
        rule(lies, "the waiting register lies in its frame")?;
    }
    Ok(())
}

fn rows(w: &World) -> Result<(), Broken> {
    let mut seen = HashSet::new();
    for (_, c) in w.coros().filter(|(_, c)| !c.state.is_finished()) {
        rule((c.row as u64) < w.setup.rows, "a row there is")?;
        rule(seen.insert(c.row), "one row per unfinished coroutine, its own")?;
    }
    Ok(())
}

fn queues(w: &World) -> Result<(), Broken> {
    queue(w, &w.ready, |c| c.task, "the ready queue only tasks")?;
    queue(w, &w.cleanup, |c| c.finalized, "the cleanup queue only finalized ones")
}

fn queue(w: &World, q: &[u64], mark: impl Fn(&Coro) -> bool, name: Broken) -> Result<(), Broken> {
    let mut seen = HashSet::new();
    for &word in q {
        let c = w.coro(word).ok_or("queues hold coroutines")?;
        rule(seen.insert(word), "each not twice in one queue")?;
        rule(mark(c), name)?;
    }
    Ok(())
}

/// Number ranges that no type of `World` holds.
fn ranges(w: &World) -> Result<(), Broken> {
    let kept = |o: &Object| !matches!(o, Object::Error { number, .. } if !(1..=8).contains(number));
    rule(w.slots.iter().all(|s| kept(&s.object)), "an error holds a fault 1 to 8")
}

/// Words not in use are 0, as far as a dump shows them.
fn unused(w: &World) -> Result<(), Broken> {
    let empty = |o: &Object| *o == Object::Empty;
    rule(w.slots.iter().all(|s| !empty(&s.object) || s.tag == 0), "an empty slot is 0")?;
    let finished = |c: &Coro| c.state.is_finished();
    rule(w.coros().all(|(_, c)| !finished(c) || c.row == 0), "a finished one has row 0")
}
