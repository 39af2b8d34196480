//! A module cut down to its functions' handlers: the set-up brings no code,
//! constants, globals, strings or imports.

use crate::{ConstId, FuncId, Inst, Label, Reg, StrId};

/// A try region: pcs in `start..end` go to `target` with the word in `catch`.
#[derive(Clone, Copy, PartialEq, Eq, Debug)]
pub struct Handler {
    pub start: u32,
    pub end: u32,
    pub target: Label,
    pub catch: Reg,
}

#[derive(Debug, Default)]
pub struct Function {
    handlers: Vec<Handler>,
}

impl Function {
    #[must_use]
    pub fn new(handlers: Vec<Handler>) -> Function {
        Function { handlers }
    }

    #[must_use]
    pub fn handlers(&self) -> &[Handler] {
        &self.handlers
    }

    #[must_use]
    pub fn code(&self) -> &[Inst] {
        &[]
    }
}

/// A constant; the set-up has none.
#[derive(Clone, Debug)]
pub enum Const {
    Bool(bool),
    Int(i64),
    UInt(u64),
    F32(u32),
    F64(u64),
    Char(char),
    Str(StrId),
    Bytes(Vec<u8>),
    Array(Vec<ConstId>),
    Map(Vec<(ConstId, ConstId)>),
}

/// A global; the set-up has none.
#[derive(Debug)]
pub struct Global {
    pub init: Option<ConstId>,
}

/// An import; the set-up has none.
#[derive(Debug)]
pub struct Import {}

#[derive(Debug, Default)]
pub struct Module {
    functions: Vec<Function>,
}

impl Module {
    #[must_use]
    pub fn new(functions: Vec<Function>) -> Module {
        Module { functions }
    }

    #[must_use]
    pub fn functions(&self) -> &[Function] {
        &self.functions
    }

    #[must_use]
    pub fn function(&self, id: FuncId) -> Option<&Function> {
        self.functions.get(id.index())
    }

    #[must_use]
    pub fn globals(&self) -> &[Global] {
        &[]
    }

    #[must_use]
    pub fn imports(&self) -> &[Import] {
        &[]
    }

    #[must_use]
    pub fn consts(&self) -> &[Const] {
        &[]
    }

    #[must_use]
    pub fn constant(&self, id: ConstId) -> Option<&Const> {
        self.consts().get(id.index())
    }

    #[must_use]
    pub fn string_count(&self) -> usize {
        0
    }

    #[must_use]
    pub fn string(&self, _id: StrId) -> Option<&str> {
        None
    }
}
