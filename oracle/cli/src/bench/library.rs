//! The library's functions, on words without guards.

use oracle::lent::CallWords;
use oracle::library::Bare;
use oracle::world::{Costs, Setup};

use super::{setup, small, Switch, MOST};

/// A machine with fuel and a bottom frame of function 0.
fn fresh(s: &Setup) -> Bare {
    let mut b = Bare::new(s);
    assert_eq!(b.unchecked([24, 1 << 60, 0, 0, 0, 0])[0], 0, "fuel");
    assert_eq!(b.unchecked([17, 0, 0, 0, 0, 0])[0], 0, "room for a frame");
    b
}

const RESUME: CallWords = [6, 0, 1, 0, 2, 0];
const YIELD: CallWords = [3, 0, 0, 1, 0, 0];

/// The calls other than a round trip's, by `bvm_call_unchecked`.
macro_rules! others {
    () => {
        fn push(&mut self, func: u32) {
            assert_eq!(self.0.unchecked([19, 0, func.into(), 4, 0, 0])[0], 0, "room for a frame");
        }

        fn create(&mut self, func: u32) {
            assert_eq!(self.0.unchecked([0, 0, 0, func.into(), 0, 0])[2], 1, "created");
        }

        fn throw(&mut self) {
            raised(&mut self.0, [7, 0, 1, 0, 2, 0]);
        }

        fn close(&mut self) {
            raised(&mut self.0, [8, 0, 1, 0, 2, 0]);
        }

        fn iterate(&mut self) {
            let coro = self.0.stack()[0];
            let word = self.0.unchecked([21, coro, 0, 0, 0, 0])[1];
            assert_eq!(self.0.unchecked([20, 3, word, 0, 0, 0])[0], 0, "a register");
        }

        fn next(&mut self) {
            assert_eq!(self.0.unchecked([13, 0, 1, 3, 2, 0])[2], 2, "entered");
        }

        fn unwind(&mut self) {
            assert_eq!(self.0.unchecked([15, 17, 7, 0, 0, 0])[4], 9, "caught");
        }

        fn finish(&mut self) {
            assert_eq!(self.0.unchecked([14, 1, 5, 0, 0, 0])[0], 0, "returned");
        }

        fn clean(&mut self) {
            let coro = self.0.stack()[0];
            assert_eq!(self.0.unchecked([23, coro, 0, 0, 0, 0])[0], 0, "handed over");
            raised(&mut self.0, [10, 0, 1, 0, 0, 0]);
        }
    };
}

/// A call that raises a word, and the unwinding of it.
fn raised(b: &mut Bare, call: CallWords) {
    let answer = b.unchecked(call);
    assert_eq!(answer[0], 17, "a word is raised");
    let word = answer[1];
    assert_eq!(b.unchecked([15, 17, word, 0, 0, 0])[0], 0, "unwound");
}

/// `bvm_call_unchecked`: calls in words, without the test of soundness.
pub(crate) struct Unchecked(pub(crate) Bare);

impl Unchecked {
    pub(crate) fn new(costs: Costs) -> Unchecked {
        Unchecked(fresh(&setup(costs)))
    }

    #[cfg(all(test, original))]
    pub(crate) fn put(&mut self, reg: u64, word: u64) {
        assert_eq!(self.0.unchecked([20, reg, word, 0, 0, 0])[0], 0, "a register");
    }
}

impl Switch for Unchecked {
    others!();

    fn resume(&mut self) {
        assert_eq!(self.0.unchecked(RESUME)[2], 2, "entered");
    }

    fn suspend(&mut self) {
        assert_eq!(self.0.unchecked(YIELD)[2], 2, "suspended");
    }
}

/// `bvm_try_resume_unchecked` and `bvm_try_yield_unchecked`.
#[cfg(switch)]
pub(crate) struct Try(pub(crate) Bare);

#[cfg(switch)]
impl Try {
    pub(crate) fn new(costs: Costs) -> Try {
        Try(fresh(&setup(costs)))
    }
}

#[cfg(switch)]
impl Switch for Try {
    others!();

    fn resume(&mut self) {
        assert_eq!(self.0.resume(0, 1, 0, 2), 0, "entered");
    }

    fn suspend(&mut self) {
        assert_eq!(self.0.suspend(0, 0, 1), 0, "suspended");
    }
}

/// `bvm_call` on the small machine: each call tests every word.
pub(crate) struct Checked(Bare);

impl Checked {
    pub(crate) fn new(costs: Costs) -> Checked {
        Checked(fresh(&small(costs)))
    }
}

impl Switch for Checked {
    others!();

    fn resume(&mut self) {
        assert_eq!(self.0.call(RESUME)[2], 2, "entered");
    }

    fn suspend(&mut self) {
        assert_eq!(self.0.call(YIELD)[2], 2, "suspended");
    }
}

/// Calls in words on the small machine: one test for them all.
type Many = fn(&mut Bare, &mut [u64], &mut [u64]) -> u64;

/// `bvm_run`, or `bvm_batch`.
pub(crate) struct Run(Bare, Many, Vec<u64>, Vec<u64>);

impl Run {
    pub(crate) fn new(costs: Costs, many: Many) -> Run {
        Run(fresh(&small(costs)), many, Vec::new(), Vec::new())
    }
}

impl Switch for Run {
    others!();

    fn resume(&mut self) {
        assert_eq!(self.0.unchecked(RESUME)[2], 2, "entered");
    }

    fn suspend(&mut self) {
        assert_eq!(self.0.unchecked(YIELD)[2], 2, "suspended");
    }

    fn trips(&mut self, n: usize) {
        if self.2.is_empty() {
            self.2 = [RESUME, YIELD].concat().repeat(MOST);
            self.3 = vec![0; MOST * 16];
        }
        let (calls, answers) = (&mut self.2[..n * 12], &mut self.3[..n * 16]);
        assert_eq!((self.1)(&mut self.0, calls, answers), 0, "run");
        assert_eq!(self.3[n * 16 - 6], 2, "suspended");
    }
}
