//! Stand-in: host imports are left out; the types are here to be named.

use bytecode_lang::ErrorKind;

use crate::hash::Seed;
use crate::heap::Heap;
use crate::value::Value;

pub(crate) struct HostCtx<'a> {
    pub(crate) heap: &'a mut Heap,
    pub(crate) seed: Seed,
}

pub(crate) enum HostError {
    Raise(ErrorKind),
    Throw(Value),
}

pub(crate) type UserFn = fn(&mut HostCtx<'_>, &[Value]) -> Result<Value, HostError>;

#[derive(Debug)]
pub(crate) enum HostFn {
    User(UserFn),
    Scheduler,
}
