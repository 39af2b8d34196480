//! Operand types of the typed integer instructions. `int.rs` compiles against
//! them; the coroutine code uses only `int::value` at `i64` and `u64`.

#[derive(Clone, Copy, PartialEq, Eq, Debug)]
pub enum IntTy {
    I8,
    I16,
    I32,
    I64,
    U8,
    U16,
    U32,
    U64,
}

impl IntTy {
    #[must_use]
    pub fn bits(self) -> u32 {
        match self {
            IntTy::I8 | IntTy::U8 => 8,
            IntTy::I16 | IntTy::U16 => 16,
            IntTy::I32 | IntTy::U32 => 32,
            IntTy::I64 | IntTy::U64 => 64,
        }
    }
}

#[derive(Clone, Copy, PartialEq, Eq, Debug)]
pub enum Overflow {
    Wrap,
    Error,
    Trap,
    Promote,
}

#[derive(Clone, Copy, PartialEq, Eq, Debug)]
pub enum DivZero {
    Error,
    Trap,
}

#[derive(Clone, Copy, PartialEq, Eq, Debug)]
pub enum Shift {
    Mask,
    Saturate,
    Error,
}

#[derive(Clone, Copy, PartialEq, Eq, Debug)]
pub struct Policy {
    overflow: Overflow,
    div_zero: DivZero,
    shift: Shift,
}

impl Policy {
    #[must_use]
    pub fn overflow(self) -> Overflow {
        self.overflow
    }

    #[must_use]
    pub fn div_zero(self) -> DivZero {
        self.div_zero
    }

    #[must_use]
    pub fn shift(self) -> Shift {
        self.shift
    }
}

#[derive(Clone, Copy, PartialEq, Eq, Debug)]
pub struct IntOp {
    ty: IntTy,
    policy: Policy,
}

impl IntOp {
    #[must_use]
    pub fn ty(self) -> IntTy {
        self.ty
    }

    #[must_use]
    pub fn policy(self) -> Policy {
        self.policy
    }
}

#[derive(Clone, Copy, PartialEq, Eq, Debug)]
pub struct IntPair {
    from: IntTy,
    to: IntTy,
}

impl IntPair {
    #[must_use]
    pub fn from(self) -> IntTy {
        self.from
    }

    #[must_use]
    pub fn to(self) -> IntTy {
        self.to
    }
}

#[derive(Clone, Copy, PartialEq, Eq, Debug)]
pub struct IntConv {
    pair: IntPair,
    overflow: Overflow,
}

impl IntConv {
    #[must_use]
    pub fn from(self) -> IntTy {
        self.pair.from
    }

    #[must_use]
    pub fn to(self) -> IntTy {
        self.pair.to
    }

    #[must_use]
    pub fn overflow(self) -> Overflow {
        self.overflow
    }
}
