//! Fuel, the bank, and the cleanups that a charge may start.

use super::wrong::Wrong;
use super::{refuse, Outcome, Plain, Refusal};
use crate::word;
use crate::world::{Driver, State};

/// What a charge came to.
pub(super) enum Charge {
    Done,
    /// A cleanup was started; the instruction has not run.
    Cleanup,
}

impl Plain {
    /// An instruction's charge, at `pc` of the top frame.
    pub(super) fn charge(&mut self, pc: u32) -> Outcome<Charge> {
        if self.w.fuel > 0 {
            self.w.fuel -= 1;
            return Ok(Charge::Done);
        }
        self.charge_slow(Some(pc))
    }

    /// A charge inside an instruction or at a handler: starts no cleanup.
    pub(super) fn charge_within(&mut self) -> Outcome {
        if self.w.fuel > 0 {
            self.w.fuel -= 1;
            return Ok(());
        }
        self.charge_slow(None).map(|_| ())
    }

    fn charge_slow(&mut self, pc: Option<u32>) -> Outcome<Charge> {
        if self.is(Wrong::TenBeforeTheBank) {
            return refuse(10);
        }
        self.unbank();
        if self.w.fuel == 0 {
            return refuse(10);
        }
        if let Some(pc) = pc.filter(|_| self.w.close_ready) {
            let frame = self.w.frames.len() - 1;
            let was = self.w.frames[frame].pc;
            self.w.frames[frame].pc = pc;
            if self.start_finalizer() {
                if self.is(Wrong::CleanupTakesAUnit) {
                    self.w.fuel -= 1;
                }
                return Ok(Charge::Cleanup);
            }
            if self.is(Wrong::PcOnlyIfCleanupStarts) {
                self.w.frames[frame].pc = was;
            }
        }
        self.w.fuel -= 1;
        self.arm_close();
        Ok(Charge::Done)
    }

    /// Enters the first of the queue that is suspended and that the limits
    /// hold; what comes before it is dropped.
    fn start_finalizer(&mut self) -> bool {
        self.unbank();
        while !self.w.cleanup.is_empty() {
            let c = self.w.cleanup.remove(0);
            let suspended = self.state(c).is_ok_and(State::is_suspended);
            if !suspended || self.enter(c, Driver::Finalize).is_err() {
                if self.is(Wrong::OneQueueWordATime) {
                    break;
                }
                continue;
            }
            let co = self.coro_mut(c);
            co.closing = true;
            co.signal = word::NIL;
            self.set_finalizing(true);
            return true;
        }
        self.set_finalizing(false);
        false
    }

    pub(super) fn set_finalizing(&mut self, running: bool) {
        self.w.finalizing = running;
        let idle = !running || self.is(Wrong::CleanupsNest);
        self.w.close_ready = idle && !self.w.cleanup.is_empty();
        self.arm_close();
    }

    fn arm_close(&mut self) {
        if self.w.close_ready && self.w.bank.is_none() && !self.is(Wrong::NeverArms) {
            self.w.bank = Some(self.w.fuel);
            self.w.fuel = 0;
        }
    }

    fn unbank(&mut self) {
        if let Some(fuel) = self.w.bank.take() {
            self.w.fuel = fuel;
        }
    }

    /// A Yielded or Awaiting coroutine joins the cleanup queue, once.
    pub(super) fn hand_over(&mut self, coro: u64) -> Outcome {
        let c = self.coro(coro)?;
        let before = c.finalized && !self.is(Wrong::HandedOverTwice);
        if !c.state.is_suspended() || before {
            return refuse(3);
        }
        self.coro_mut(coro).finalized = true;
        self.w.cleanup.push(coro);
        self.set_finalizing(self.w.finalizing);
        Ok(())
    }

    /// A resumable coroutine becomes a task, once; 2 for anything else.
    pub(super) fn spawn_task(&mut self, word: u64) -> Outcome {
        let Ok(c) = self.coro(word) else {
            let nil = self.is(Wrong::SpawnTaskTellsNil);
            return Err(if nil { self.not_a(word) } else { Refusal { number: 2, word: 0 } });
        };
        let again = c.task && !self.is(Wrong::TaskQueuedTwice);
        if !again && c.state.is_resumable() {
            self.coro_mut(word).task = true;
            self.w.ready.push(word);
        }
        Ok(())
    }

    /// `abort_coros`, then no frame and no word is left.
    pub(super) fn stop_run(&mut self) {
        for a in std::mem::take(&mut self.w.chain) {
            self.end_coro(a.coro, State::Failed, word::NIL);
        }
        self.set_finalizing(false);
        if !self.is(Wrong::StopKeepsOutcome) {
            self.w.outcome = None;
        }
        self.w.frames.clear();
        self.w.stack.clear();
    }
}
