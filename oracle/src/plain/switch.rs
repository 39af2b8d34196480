//! Entering a coroutine, suspending it, and delivering to its driver.

use super::wrong::Wrong;
use super::{refuse, Outcome, Plain};
use crate::word;
use crate::world::{Active, Driver, Object, State, Stop};

/// What a suspension hands to the driver.
#[derive(Clone, Copy)]
pub(super) enum Event {
    Yielded { payload: u64, key: u64 },
    Awaiting(u64),
    CloseIgnored,
}

impl Plain {
    /// `coro_enter`. Gives the waiting register of a suspended one.
    pub(super) fn enter(&mut self, coro: u64, driver: Driver) -> Outcome<Option<u16>> {
        let c = self.coro(coro)?;
        if !c.state.is_resumable() || c.frames.is_empty() {
            return refuse(3);
        }
        let (state, dst) = (c.state, c.resume_dst);
        let deep = (self.w.frames.len() + c.frames.len()) as u64;
        let high = (self.w.stack.len() + c.regs.len()) as u64;
        let (depth, stack) = (self.w.setup.depth, self.w.setup.stack);
        let deep = deep > depth || self.is(Wrong::DepthEqualityRefused) && deep == depth;
        let high = high > stack || self.is(Wrong::StackEqualityRefused) && high == stack;
        if deep && !self.is(Wrong::DepthNotTested) || high && !self.is(Wrong::StackNotTested) {
            return refuse(4);
        }
        if self.is(Wrong::MovesOnlyFirst) && state != State::Created {
            self.coro_mut(coro).state = State::Running;
            return Ok(None);
        }
        let (offset, floor) = (self.w.stack.len(), self.w.frames.len());
        let unmoved = self.is(Wrong::BasesNotRaised);
        let keeps_sizes = self.is(Wrong::EntryKeepsSizes);
        let c = self.coro_mut(coro);
        let regs = std::mem::take(&mut c.regs);
        let mut frames = std::mem::take(&mut c.frames);
        c.state = State::Running;
        if !keeps_sizes {
            c.max_regs = c.max_regs.max(regs.len());
            c.max_frames = c.max_frames.max(frames.len());
        }
        for f in frames.iter_mut().filter(|_| !unmoved) {
            f.base += offset;
        }
        self.w.stack.extend(regs);
        self.w.frames.extend(frames);
        self.w.chain.push(Active { coro, floor, driver });
        let waiting = state != State::Created || self.is(Wrong::FreshTakesTheWord);
        Ok(waiting.then_some(dst))
    }

    /// `coro_suspend` of the innermost active coroutine, which there is.
    pub(super) fn suspend(
        &mut self,
        state: State,
        dst: u16,
        payload: u64,
        key: Option<(u64, i64)>,
    ) -> Outcome<(Driver, Event)> {
        let Some(&act) = self.w.chain.last() else {
            return refuse(5);
        };
        let base = self.w.frames[act.floor].base;
        let nregs = self.w.stack.len() - base;
        let nframes = self.w.frames.len() - act.floor;
        let (regs_twice, frames_twice) =
            (self.is(Wrong::SavedRegistersChargedTwice), self.is(Wrong::SavedFramesChargedTwice));
        let c = self.coro(act.coro)?;
        let known_regs = if regs_twice { 0 } else { c.max_regs };
        let known_frames = if frames_twice { 0 } else { c.max_frames };
        let grow = 8 * nregs.saturating_sub(known_regs) as u64
            + self.w.setup.costs.frame * nframes.saturating_sub(known_frames) as u64;
        if grow > 0 {
            self.pay(grow)?;
        }
        let regs = self.w.stack.split_off(base);
        let mut frames = self.w.frames.split_off(act.floor);
        let unmoved = self.is(Wrong::BasesNotLowered);
        for f in frames.iter_mut().filter(|_| !unmoved) {
            f.base -= base;
        }
        let (await_clears, yield_keeps) =
            (self.is(Wrong::AwaitClearsClosing), self.is(Wrong::YieldKeepsClosing));
        let c = self.coro_mut(act.coro);
        c.max_regs = c.max_regs.max(nregs);
        c.max_frames = c.max_frames.max(nframes);
        c.regs = regs;
        c.frames = frames;
        c.state = state;
        c.resume_dst = dst;
        c.payload = payload;
        if let Some((k, largest)) = key {
            c.key = k;
            c.max_key = largest;
        }
        let event = match state {
            State::Awaiting => {
                if await_clears {
                    c.closing = false;
                }
                Event::Awaiting(payload)
            }
            _ if c.closing => {
                c.closing = yield_keeps;
                c.signal = word::NIL;
                Event::CloseIgnored
            }
            _ => Event::Yielded { payload, key: c.key },
        };
        self.w.chain.pop();
        Ok((act.driver, event))
    }

    /// `deliver`: a refusal here is an unwinding in the driver's frame.
    pub(super) fn deliver(&mut self, driver: Driver, event: Event) -> Outcome {
        match (driver, event) {
            (Driver::Resume(dst), Event::Yielded { payload, .. } | Event::Awaiting(payload)) => {
                self.send(dst, payload);
            }
            (Driver::Iter { has, val, iter }, Event::Yielded { payload, key: k }) => {
                let keep = self.is(Wrong::IteratorKeyStays);
                if let Some(Object::Iter { key, .. }) = self.w.get_mut(iter).filter(|_| !keep) {
                    *key = Some(k);
                }
                if self.is(Wrong::HasBeforeVal) {
                    self.send(has, 1);
                    self.put(val, payload);
                } else {
                    self.put(val, payload);
                    self.send(has, 1);
                }
            }
            (Driver::Iter { .. }, Event::Awaiting(_)) => return refuse(2),
            (Driver::Resume(_) | Driver::Iter { .. }, Event::CloseIgnored) => return refuse(6),
            (Driver::Host, event) => {
                self.w.outcome = Some(match event {
                    Event::Yielded { payload, .. } => Stop::Yielded(payload),
                    Event::Awaiting(payload) => Stop::Awaiting(payload),
                    Event::CloseIgnored => Stop::CloseIgnored,
                });
                if self.is(Wrong::SixToTheHost) && matches!(event, Event::CloseIgnored) {
                    return refuse(6);
                }
            }
            (Driver::Finalize, _) => self.set_finalizing(false),
        }
        Ok(())
    }

    /// A returned value goes to the driver.
    pub(super) fn deliver_return(&mut self, driver: Driver, value: u64) {
        match driver {
            Driver::Resume(dst) => self.send(dst, value),
            Driver::Iter { has, iter, .. } => {
                if let Some(Object::Iter { done, .. }) = self.w.get_mut(iter) {
                    *done = true;
                }
                self.send(has, 0);
            }
            Driver::Host => self.w.outcome = Some(Stop::Returned(value)),
            Driver::Finalize => self.set_finalizing(false),
        }
    }

    pub(super) fn host_entry(&mut self, coro: u64, word: u64) -> Outcome {
        if let Some(dst) = self.enter(coro, Driver::Host)? {
            self.send(dst, word);
        }
        Ok(())
    }
}
