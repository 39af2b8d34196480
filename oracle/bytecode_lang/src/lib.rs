//! Stand-in for the crate `bytecode_lang` that the original imports: only the
//! names that its coroutine, machine, heap and integer files mention. Nothing
//! here decides how a switch behaves; see docs/rules/DIFFERENCES.md.

mod arith;
mod module;

pub use arith::{DivZero, IntConv, IntOp, IntPair, IntTy, Overflow, Policy, Shift};
pub use module::{Const, Function, Global, Handler, Import, Module};

macro_rules! ids {
    ($($(#[$doc:meta])* $name:ident($repr:ty);)*) => {$(
        $(#[$doc])*
        #[derive(Clone, Copy, PartialEq, Eq, PartialOrd, Ord, Hash, Debug)]
        pub struct $name(pub $repr);
        impl $name {
            #[must_use]
            pub fn index(self) -> usize {
                self.0 as usize
            }
        }
    )*};
}

ids! {
    /// A register of the running frame.
    Reg(u16);
    FuncId(u32);
    ImportId(u32);
    ConstId(u32);
    StrId(u32);
    TypeId(u32);
    /// An instruction's position.
    Label(u32);
}

/// A register's declared type.
#[derive(Clone, Copy, PartialEq, Eq, Debug)]
pub enum ValType {
    Bool,
    Int(IntTy),
    F32,
    F64,
    Char,
    Str,
    Dyn,
    Ref(TypeId),
}

impl ValType {
    #[must_use]
    pub fn as_int(self) -> Option<IntTy> {
        match self {
            ValType::Int(t) => Some(t),
            _ => None,
        }
    }

    #[must_use]
    pub fn is_reference(self) -> bool {
        matches!(self, ValType::Str | ValType::Dyn | ValType::Ref(_))
    }
}

/// A value's dynamic kind.
#[derive(Clone, Copy, PartialEq, Eq, Debug)]
pub enum Kind {
    Nil,
    Bool,
    Int,
    Float,
    Char,
    Str,
    Array,
    Map,
    Object,
    Function,
    Cell,
    Iter,
    Error,
    Coroutine,
    Reference,
}

/// A coroutine's state, with 01's code.
#[derive(Clone, Copy, PartialEq, Eq, Debug)]
pub enum CoroState {
    Created = 0,
    Running = 1,
    Yielded = 2,
    Awaiting = 3,
    Returned = 4,
    Failed = 5,
}

impl CoroState {
    #[must_use]
    pub fn is_resumable(self) -> bool {
        matches!(self, CoroState::Created | CoroState::Yielded | CoroState::Awaiting)
    }

    #[must_use]
    pub fn code(self) -> u8 {
        self as u8
    }
}

/// Why an instruction raised or trapped.
#[derive(Clone, Copy, PartialEq, Eq, Debug)]
pub enum ErrorKind {
    NullReference,
    TypeError,
    InvalidCoroState,
    StackOverflow,
    CannotSuspend,
    CloseIgnored,
    ArithOverflow,
    NoScheduler,
    OutOfMemory,
    OutOfFuel,
    DivByZero,
    ShiftOutOfRange,
    NegativeExponent,
    ArgumentError,
}

impl ErrorKind {
    #[must_use]
    pub fn is_catchable(self) -> bool {
        !matches!(self, ErrorKind::OutOfMemory | ErrorKind::OutOfFuel)
    }
}

/// What a hook calls.
#[derive(Clone, Copy, PartialEq, Eq, Debug)]
pub enum Callee {
    Func(FuncId),
    Import(ImportId),
}

/// The one hook the coroutine code looks up.
#[derive(Clone, Copy, PartialEq, Eq, Debug)]
pub enum Hook {
    Spawn,
}

impl Hook {
    #[must_use]
    pub fn code(self) -> u8 {
        0
    }
}

/// The coroutine instructions, operands in the order the original spells them.
#[derive(Clone, Copy, PartialEq, Eq, Debug)]
pub enum Inst {
    Nop,
    CoroNew { dst: Reg, func: FuncId, argc: u8 },
    CoroNewIndirect { dst: Reg, callee: Reg, argc: u8 },
    Spawn { dst: Reg, callee: Reg, argc: u8 },
    Yield { dst: Reg, src: Reg },
    YieldKv { dst: Reg, src: Reg, key: Reg },
    Await { dst: Reg, src: Reg },
    Resume { dst: Reg, coro: Reg, src: Reg },
    ResumeThrow { dst: Reg, coro: Reg, src: Reg },
    CoroClose { dst: Reg, coro: Reg, src: Reg },
    CoroStatus { dst: Reg, coro: Reg },
    CoroCurrent { dst: Reg },
    CoroKey { dst: Reg, coro: Reg },
    CoroResult { dst: Reg, coro: Reg },
}

/// Dynamic calls are left out: no function has a parameter list.
#[derive(Clone, Copy, PartialEq, Eq, Debug)]
pub enum ParamList {}

/// Dynamic calls are left out: nothing is ever bound.
#[derive(Clone, Copy, PartialEq, Eq, Debug)]
pub enum Bound {}
