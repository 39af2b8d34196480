//! Stand-in: how a run ends when nobody catches.

use bytecode_lang::{ErrorKind, FuncId};

use crate::value::Value;

#[derive(Clone, Copy, PartialEq, Debug)]
pub(crate) enum VmError {
    /// An error object escaped.
    Raised { kind: ErrorKind, payload: Value, func: FuncId, pc: u32 },
    /// Another word escaped.
    Thrown { value: Value, func: FuncId, pc: u32 },
    /// A fault that no handler may catch.
    Trap { kind: ErrorKind, func: FuncId, pc: u32 },
}
