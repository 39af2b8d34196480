//! What the benchmark asks of an engine, and the machine that it measures on.

use std::hint::black_box;

use crate::world::{Costs, Func, Handler, Setup};

/// A machine with a bottom frame of function 0. Register 0 of the running
/// frame's caller holds the coroutine, register 3 of function 2 an iterator.
pub trait Switch {
    /// A frame on top. Its continuation takes no result.
    fn push(&mut self, func: u32);
    fn create(&mut self, func: u32);
    fn resume(&mut self);
    fn suspend(&mut self);
    /// A word is thrown into the coroutine, and unwound there.
    fn throw(&mut self) {
        unimplemented!("not measured here");
    }
    /// The coroutine is closed; its signal is unwound.
    fn close(&mut self) {
        unimplemented!("not measured here");
    }
    /// An iterator over the coroutine, in register 3.
    fn iterate(&mut self) {
        unimplemented!("not measured here");
    }
    fn next(&mut self) {
        unimplemented!("not measured here");
    }
    /// A word is thrown where the machine stands, and unwound.
    fn unwind(&mut self) {
        unimplemented!("not measured here");
    }
    fn finish(&mut self) {
        unimplemented!("not measured here");
    }
    /// The coroutine is handed over; the next charge starts its cleanup, whose
    /// signal is unwound.
    fn clean(&mut self) {
        unimplemented!("not measured here");
    }

    fn trips(&mut self, n: usize) {
        for _ in 0..n {
            self.resume();
            self.suspend();
            black_box(&mut *self);
        }
    }
}

/// Function 0 has four registers and a handler over every pc, function 1
/// sixteen registers, function 2 four, and those after them 64 and 255.
#[must_use]
pub fn setup(costs: Costs) -> Setup {
    let handler = Handler { start: 0, end: u64::from(u32::MAX), target: 0, catch: 3 };
    let func = |nregs, handlers| Func { nregs, nparams: 0, handlers };
    let plain = [16, 4, 64, 255].map(|n| func(n, vec![]));
    let mut funcs = vec![func(4, vec![handler])];
    funcs.extend(plain);
    Setup {
        depth: 128,
        stack: 1024,
        rows: 64,
        slots: 4096,
        memory: u64::MAX,
        costs,
        hook: None,
        funcs,
    }
}
