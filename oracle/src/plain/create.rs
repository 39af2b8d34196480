//! Creation, and frames made by calls.

use super::wrong::Wrong;
use super::{refuse, Outcome, Plain};
use crate::word;
use crate::world::{Cont, Coro, Frame, Object, State};

impl Plain {
    /// A new coroutine of `func` with the words of the argument window.
    pub(super) fn create(&mut self, func: u32, closure: u64, args: &[u64]) -> Outcome<u64> {
        let k = self.w.setup.costs;
        let nregs = self.w.setup.funcs[func as usize].nregs;
        if self.is(Wrong::SlotBeforeMemory) {
            self.slot_free()?;
        }
        self.fits(8 * nregs + k.coro + k.frame)?;
        if self.is(Wrong::NineBeforeTrying) {
            self.fits(8 * nregs + k.coro_object + k.frame)?;
        }
        self.slot_free()?;
        let taken = self.w.rows_taken();
        let free = if self.is(Wrong::HighestRow) {
            taken.iter().rposition(|&t| !t)
        } else {
            taken.iter().position(|&t| !t)
        };
        let Some(row) = free else { return refuse(14) };
        let seq = self.w.seq;
        self.w.seq = if self.is(Wrong::SequenceSaturates) {
            seq.saturating_add(1)
        } else {
            seq.wrapping_add(1)
        };
        let paid = self.pay(8 * nregs + k.coro_object + k.frame);
        if self.is(Wrong::SequenceMovesBack) && paid.is_err() {
            self.w.seq = seq;
        }
        paid?;
        let mut regs = vec![0; nregs as usize];
        // More arguments than registers: all registers 0.
        let fit = args.len().min(regs.len());
        if fit == args.len() || self.is(Wrong::SurplusArgumentsCut) {
            regs[..fit].copy_from_slice(&args[..fit]);
        }
        let body = Frame { func, pc: 0, base: 0, closure, cont: Cont::Coro };
        Ok(self.store(Object::Coro(Box::new(Coro {
            state: State::Created,
            closing: false,
            finalized: false,
            task: false,
            seq,
            row,
            resume_dst: 0,
            payload: word::NIL,
            key: word::NIL,
            max_key: if self.is(Wrong::KeysStartAtOne) { 0 } else { -1 },
            result: word::NIL,
            signal: word::NIL,
            max_regs: nregs as usize,
            max_frames: 1,
            regs,
            frames: vec![body],
        }))))
    }

    /// `push_frame`: a frame with every register 0, or 4.
    pub(super) fn push_frame(&mut self, func: u32, cont: Cont) -> Outcome {
        let nregs = self.w.setup.funcs[func as usize].nregs as usize;
        let base = self.w.stack.len();
        let deep = self.w.frames.len() as u64 >= self.w.setup.depth;
        if deep || (base + nregs) as u64 > self.w.setup.stack {
            return refuse(4);
        }
        self.w.stack.resize(base + nregs, 0);
        self.w.frames.push(Frame { func, pc: 0, base, closure: word::NIL, cont });
        Ok(())
    }

    pub(super) fn put(&mut self, reg: u16, word: u64) {
        let base = self.w.frames.last().map_or(0, |f| f.base);
        if let Some(slot) = self.w.stack.get_mut(base + usize::from(reg)) {
            *slot = word;
        }
    }

    /// A step of the top frame's pc, wrapping at 2^32.
    pub(super) fn step_pc(&mut self) {
        let saturate = self.is(Wrong::PcSaturates);
        if let Some(top) = self.w.frames.last_mut() {
            top.pc = if saturate { top.pc.saturating_add(1) } else { top.pc.wrapping_add(1) };
        }
    }

    /// The word in a register of the top frame, and a pc step.
    pub(super) fn send(&mut self, reg: u16, word: u64) {
        self.put(reg, word);
        self.step_pc();
    }

    pub(super) fn store_pc(&mut self, pc: u32) {
        if let Some(top) = self.w.frames.last_mut() {
            top.pc = pc;
        }
    }
}
