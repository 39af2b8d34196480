//! Stand-in: conversions between typed registers and dynamic words.

use bytecode_lang::{ErrorKind, ValType};

use crate::dynv;
use crate::fault::Fault;
use crate::heap::{Heap, Object};
use crate::int;
use crate::program::Program;
use crate::value::{Obj, Value};

/// The word of an integer: inline, or a new integer object.
pub(crate) fn encode_int(heap: &mut Heap, i: i64) -> Result<u64, Fault> {
    match dynv::inline_int(i) {
        Some(w) => Ok(w),
        None => heap.alloc(Object::Int(i)),
    }
}

/// The integer a word holds, inline or as an object.
pub(crate) fn dyn_int(heap: &Heap, v: u64) -> Option<i64> {
    match dynv::decode(v) {
        dynv::Raw::Int(i) => Some(i),
        dynv::Raw::Ref(..) => match heap.get(v) {
            Some(Object::Int(i)) => Some(*i),
            _ => None,
        },
        _ => None,
    }
}

/// A result of type `ty` as a dynamic word: integers are coded, a `u64` above
/// `i64::MAX` is `ArithOverflow`, everything else is the word itself.
pub(crate) fn to_dyn(heap: &mut Heap, ty: ValType, v: u64) -> Result<u64, Fault> {
    match ty.as_int() {
        Some(t) => match i64::try_from(int::value(t, v)) {
            Ok(i) => encode_int(heap, i),
            Err(_) => Err(Fault::raise(ErrorKind::ArithOverflow)),
        },
        None => Ok(v),
    }
}

/// Predicate hooks are left out.
pub(crate) fn dyn_bool(_v: u64) -> Option<bool> {
    None
}

/// A word as the host sees it: a reference is a handle, anything else nil.
pub(crate) fn dyn_value(_heap: &Heap, v: u64) -> Value {
    if dynv::is_ref(v) {
        Value::Obj(Obj(v))
    } else {
        Value::Nil
    }
}

/// Host imports are left out.
pub(crate) fn slot_of(_h: &mut Heap, _p: &Program, _t: ValType, _v: Value) -> Result<u64, Fault> {
    Err(Fault::type_error())
}

/// Host imports are left out.
pub(crate) fn dyn_of(_heap: &mut Heap, _v: Value) -> Result<u64, Fault> {
    Err(Fault::type_error())
}
