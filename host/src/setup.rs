//! The set-up: limits, costs, functions.

use alloc::vec;
use alloc::vec::Vec;

use crate::{Fuel, FunctionId, Machine, Pc, Reg, SetupError};

/// A try region of a function: a word raised at a pc from `start` up to, not
/// including, `end` goes to the register `catch`, and the function goes on at
/// `target`.
#[derive(Clone, Copy, PartialEq, Eq, Debug)]
#[allow(missing_docs)]
pub struct Handler {
    pub start: Pc,
    pub end: Pc,
    pub target: Pc,
    pub catch: Reg,
}

/// A function: how many registers and parameters it has, and its handlers.
#[derive(Clone, PartialEq, Eq, Debug)]
pub struct Function {
    pub(crate) registers: u64,
    pub(crate) parameters: u64,
    pub(crate) handlers: Vec<Handler>,
}

impl Function {
    /// A function of so many registers (0 to 256), with no parameters and no
    /// handlers.
    #[must_use]
    pub fn new(registers: u16) -> Function {
        Function { registers: registers.into(), parameters: 0, handlers: Vec::new() }
    }

    /// Its first registers are parameters.
    #[must_use]
    pub fn parameters(mut self, n: u16) -> Function {
        self.parameters = n.into();
        self
    }

    /// One more handler, at most eight. The first that covers a pc is taken.
    #[must_use]
    pub fn handler(mut self, handler: Handler) -> Function {
        self.handlers.push(handler);
        self
    }

    /// Reads what [`Function::words`] writes.
    fn read(words: &[u64]) -> Function {
        let pc = |w: u64| Pc(w as u32);
        let handler = |h: &[u64]| Handler {
            start: pc(h[0]),
            end: pc(h[1]),
            target: pc(h[2]),
            catch: Reg(h[3] as u16),
        };
        let handlers = words[3..].chunks(4).take(words[2] as usize).map(handler).collect();
        Function { registers: words[0], parameters: words[1], handlers }
    }

    /// More than eight handlers are counted, and so refused.
    fn words(&self) -> Vec<u64> {
        let mut words = vec![self.registers, self.parameters, self.handlers.len() as u64];
        for h in &self.handlers {
            words.extend([h.start.0, h.end.0, h.target.0, h.catch.0.into()].map(u64::from));
        }
        words.resize(FUNCTION_WORDS, 0);
        words
    }
}

/// The costs in bytes that are charged against the memory limit. The default
/// is what the original's build has.
#[derive(Clone, Copy, PartialEq, Eq, Debug)]
pub struct Costs {
    /// F, a frame.
    pub frame: u64,
    /// C, a coroutine at its fit test.
    pub coroutine: u64,
    /// A, a coroutine object without rows.
    pub object: u64,
    /// I, an integer object.
    pub integer: u64,
    /// E, an error object.
    pub error: u64,
    /// T, an iterator.
    pub iterator: u64,
}

impl Default for Costs {
    fn default() -> Costs {
        Costs { frame: 32, coroutine: 104, object: 160, integer: 56, error: 56, iterator: 112 }
    }
}

/// A set-up, built piece by piece. [`Setup::machine`] tests it: 11 if it
/// breaks a rule of 01's closing list.
///
/// ```
/// use humdelzi::{Function, Setup, SetupError};
///
/// let good = Setup::new().depth(8).stack(64).function(Function::new(4));
/// assert!(good.machine().is_ok());
/// let deep = Setup::new().depth(129).function(Function::new(4));
/// let refused = deep.machine().unwrap_err();
/// assert_eq!(refused, SetupError::Depth(129));
/// assert_eq!(refused.to_string(), "11: depth 129 is not 1 to 128");
/// ```
#[derive(Clone, PartialEq, Eq, Debug)]
pub struct Setup {
    pub(crate) depth: u64,
    pub(crate) stack: u64,
    pub(crate) rows: u64,
    pub(crate) slots: u64,
    pub(crate) memory: u64,
    pub(crate) costs: Costs,
    pub(crate) hook: Option<FunctionId>,
    pub(crate) functions: Vec<Function>,
}

/// A set-up's words before its functions, and those of a function.
const NUMBERS: usize = 14;
const FUNCTION_WORDS: usize = 35;

impl Default for Setup {
    fn default() -> Setup {
        Setup {
            depth: 32,
            stack: 256,
            rows: 16,
            slots: 64,
            memory: u64::MAX,
            costs: Costs::default(),
            hook: None,
            functions: Vec::new(),
        }
    }
}

impl Setup {
    /// 32 frames, 256 words of stack, 16 rows, 64 slots, all memory, the
    /// default costs, no hook and no function.
    #[must_use]
    pub fn new() -> Setup {
        Setup::default()
    }

    /// The most frames at a time, 1 to 128.
    #[must_use]
    pub fn depth(mut self, frames: u64) -> Setup {
        self.depth = frames;
        self
    }

    /// The most words on the stack, 1 to 1,024.
    #[must_use]
    pub fn stack(mut self, words: u64) -> Setup {
        self.stack = words;
        self
    }

    /// The most unfinished coroutines, 1 to 64.
    #[must_use]
    pub fn rows(mut self, rows: u64) -> Setup {
        self.rows = rows;
        self
    }

    /// The most objects, functions included: 1 to 4,096.
    #[must_use]
    pub fn slots(mut self, slots: u64) -> Setup {
        self.slots = slots;
        self
    }

    /// The memory limit in bytes, any number.
    #[must_use]
    pub fn memory(mut self, bytes: u64) -> Setup {
        self.memory = bytes;
        self
    }

    /// The costs in bytes, each 0 to 65,536.
    #[must_use]
    pub fn costs(mut self, costs: Costs) -> Setup {
        self.costs = costs;
        self
    }

    /// The function that Spawn calls with each coroutine it makes. It has a
    /// register.
    #[must_use]
    pub fn hook(mut self, function: FunctionId) -> Setup {
        self.hook = Some(function);
        self
    }

    /// One more function: the first is [`FunctionId`] 0. There are 1 to 32.
    #[must_use]
    pub fn function(mut self, function: Function) -> Setup {
        self.functions.push(function);
        self
    }

    /// A fresh machine of this set-up, and its fuel record, which is empty.
    ///
    /// # Errors
    ///
    /// The first rule that the set-up breaks (11).
    pub fn machine(&self) -> Result<(Machine, Fuel), SetupError> {
        Machine::begin(self)
    }

    /// The set-up in words: five limits, six costs, the hook, the number of
    /// functions, then 35 words each (docs/ABI.md).
    #[must_use]
    pub fn words(&self) -> Vec<u64> {
        let k = &self.costs;
        let mut words = vec![self.depth, self.stack, self.rows, self.slots, self.memory];
        words.extend([k.frame, k.coroutine, k.object, k.integer, k.error, k.iterator]);
        words.extend(self.hook.map_or([0, 0], |f| [1, f.0.into()]));
        words.push(self.functions.len() as u64);
        self.functions.iter().for_each(|f| words.extend(f.words()));
        words
    }

    /// Reads what [`Setup::words`] writes.
    pub(crate) fn read(words: &[u64]) -> Setup {
        let [frame, coroutine, object, integer, error, iterator] =
            [5, 6, 7, 8, 9, 10].map(|i| words[i]);
        let count = words[13] as usize;
        Setup {
            depth: words[0],
            stack: words[1],
            rows: words[2],
            slots: words[3],
            memory: words[4],
            costs: Costs { frame, coroutine, object, integer, error, iterator },
            hook: (words[11] == 1).then_some(FunctionId(words[12] as u32)),
            functions: words[NUMBERS..]
                .chunks(FUNCTION_WORDS)
                .take(count)
                .map(Function::read)
                .collect(),
        }
    }

    /// The lengths of the slices that a machine of this set-up needs. A limit
    /// beyond the rules gets the largest there is: the set-up refuses it.
    pub(crate) fn room(&self) -> [usize; 10] {
        let at_most = |n: u64, most: u64| n.min(most) as usize;
        let (depth, stack) = (at_most(self.depth, 128), at_most(self.stack, 1024));
        let (rows, slots) = (at_most(self.rows, 64), at_most(self.slots, 4096));
        let widest = self.functions.iter().map(|f| at_most(f.registers, 256)).max();
        let width = stack.max(widest.unwrap_or(0));
        let (frames, setup) = (depth * 6, NUMBERS + self.functions.len() * FUNCTION_WORDS);
        let saved = [rows * width, rows * frames];
        [stack, frames, frames, slots * 20, saved[0], saved[1], slots, slots, setup, 25]
    }
}
