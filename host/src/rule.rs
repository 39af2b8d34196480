//! 01's closing list, rule by rule.

use core::{error, fmt};

use crate::setup::{Function, Setup};
use crate::{Fault, FunctionId};

/// The rule of 01's closing list that a set-up breaks, with the number that
/// breaks it. Where it breaks several, the first in the order of the test
/// (`setup_ok` of `crates/model/specs/Program.antt`). Every one is fault 11.
#[derive(Clone, Copy, PartialEq, Eq, Hash)]
pub enum SetupError {
    /// "Depth 1-128".
    Depth(u64),
    /// "stack 1-1,024 words".
    Stack(u64),
    /// "rows 1-64".
    Rows(u64),
    /// "slots 1-4,096".
    Slots(u64),
    /// "Costs 0-65,536": which, by its letter there, and the number.
    Cost(char, u64),
    /// "functions 1-32".
    Functions(usize),
    /// "slots .. not fewer than the functions".
    SlotsForFunctions {
        /// The slots.
        slots: u64,
        /// The functions.
        functions: usize,
    },
    /// "registers 0-256".
    Registers(FunctionId, u64),
    /// "parameters at most registers".
    Parameters(FunctionId, u64),
    /// "at most eight handlers".
    Handlers(FunctionId, usize),
    /// "each with a catch register of its own frame": the handler's place.
    Catch(FunctionId, usize),
    /// "Hook: none, or a function": there is none with this number.
    Hook(FunctionId),
    /// "with a register": the hook has none.
    HookRegister(FunctionId),
}

impl SetupError {
    /// Its fault: 11.
    #[must_use]
    pub fn fault(self) -> Fault {
        Fault::Unsound
    }
}

impl fmt::Display for SetupError {
    fn fmt(&self, f: &mut fmt::Formatter<'_>) -> fmt::Result {
        write!(f, "{}: ", self.fault().number())?;
        match *self {
            SetupError::Depth(n) => write!(f, "depth {n} is not 1 to 128"),
            SetupError::Stack(n) => write!(f, "a stack of {n} words is not 1 to 1,024"),
            SetupError::Rows(n) => write!(f, "{n} rows are not 1 to 64"),
            SetupError::Slots(n) => write!(f, "{n} slots are not 1 to 4,096"),
            SetupError::Cost(c, n) => write!(f, "cost {c} is {n}, not 0 to 65,536"),
            SetupError::Functions(n) => write!(f, "{n} functions are not 1 to 32"),
            SetupError::SlotsForFunctions { slots, functions } => {
                write!(f, "{slots} slots are fewer than the {functions} functions")
            }
            SetupError::Registers(g, n) => {
                write!(f, "function {} has {n} registers, not 0 to 256", g.0)
            }
            SetupError::Parameters(g, n) => {
                write!(f, "function {} has {n} parameters, more than registers", g.0)
            }
            SetupError::Handlers(g, n) => {
                write!(f, "function {} has {n} handlers, more than eight", g.0)
            }
            SetupError::Catch(g, n) => {
                write!(f, "handler {n} of function {} catches in no register of it", g.0)
            }
            SetupError::Hook(g) => write!(f, "the hook is function {}, which is none", g.0),
            SetupError::HookRegister(g) => {
                write!(f, "the hook is function {}, which has no register", g.0)
            }
        }
    }
}

/// As it is displayed: this is what a `main` prints that returns it.
impl fmt::Debug for SetupError {
    fn fmt(&self, f: &mut fmt::Formatter<'_>) -> fmt::Result {
        fmt::Display::fmt(self, f)
    }
}

impl error::Error for SetupError {}

impl Function {
    /// Its first broken rule: `function_ok`, `handler_ok`. A pc has 32 bits by
    /// its type.
    fn broken(&self, id: FunctionId) -> Option<SetupError> {
        if self.registers > 256 {
            return Some(SetupError::Registers(id, self.registers));
        }
        if self.parameters > self.registers {
            return Some(SetupError::Parameters(id, self.parameters));
        }
        if self.handlers.len() > 8 {
            return Some(SetupError::Handlers(id, self.handlers.len()));
        }
        let outside = self.handlers.iter().position(|h| u64::from(h.catch.0) >= self.registers);
        outside.map(|place| SetupError::Catch(id, place))
    }
}

impl Setup {
    /// The first rule that is broken, if one is: what the library's set-up
    /// refuses with 11, told in more words.
    ///
    /// ```
    /// use humdelzi::{Function, FunctionId, Setup, SetupError};
    /// assert_eq!(Setup::new().broken(), Some(SetupError::Functions(0)));
    /// let hooked = Setup::new().function(Function::new(0)).hook(FunctionId(0));
    /// assert_eq!(hooked.broken(), Some(SetupError::HookRegister(FunctionId(0))));
    /// ```
    #[must_use]
    pub fn broken(&self) -> Option<SetupError> {
        let within = |n: u64, most: u64| (1..=most).contains(&n);
        if !within(self.depth, 128) {
            return Some(SetupError::Depth(self.depth));
        }
        if !within(self.stack, 1024) {
            return Some(SetupError::Stack(self.stack));
        }
        if !within(self.rows, 64) {
            return Some(SetupError::Rows(self.rows));
        }
        if !within(self.slots, 4096) {
            return Some(SetupError::Slots(self.slots));
        }
        let k = &self.costs;
        let costs = [k.frame, k.coroutine, k.object, k.integer, k.error, k.iterator];
        if let Some((c, &n)) = "FCAIET".chars().zip(&costs).find(|(_, &n)| n > 65_536) {
            return Some(SetupError::Cost(c, n));
        }
        let count = self.functions.len();
        if !within(count as u64, 32) {
            return Some(SetupError::Functions(count));
        }
        if self.slots < count as u64 {
            return Some(SetupError::SlotsForFunctions { slots: self.slots, functions: count });
        }
        let ids = (0..).map(FunctionId);
        if let Some(e) = ids.zip(&self.functions).find_map(|(id, f)| f.broken(id)) {
            return Some(e);
        }
        let hook = self.hook?;
        match self.functions.get(hook.0 as usize) {
            None => Some(SetupError::Hook(hook)),
            Some(f) if f.registers == 0 => Some(SetupError::HookRegister(hook)),
            Some(_) => None,
        }
    }
}
