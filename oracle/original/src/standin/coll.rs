//! Stand-in: the fault of a word of the wrong kind, and iterators over
//! coroutines. Arrays and maps are left out.

use alloc::boxed::Box;

use bytecode_lang::{ErrorKind, ValType};

use crate::dynv;
use crate::fault::Fault;
use crate::hash::Seed;
use crate::heap::{Heap, IterObj, Object};
use crate::map::Cursor;

/// `NullReference` for nil and for a reference that finds no object, else
/// `TypeError`.
pub(crate) fn not_a(heap: &Heap, v: u64) -> Fault {
    if v == dynv::NIL || (dynv::is_ref(v) && heap.get(v).is_none()) {
        Fault::raise(ErrorKind::NullReference)
    } else {
        Fault::type_error()
    }
}

/// A fresh iterator over the coroutine `src`; `None` for any other source.
pub(crate) fn new_iter(heap: &mut Heap, src: u64, dynamic: bool) -> Option<Result<u64, Fault>> {
    let _ = heap.coro(src)?;
    Some(heap.alloc(Object::Iter(Box::new(IterObj {
        src,
        dynamic,
        done: false,
        index: 0,
        cursor: Cursor(0),
        key: None,
        key_ty: ValType::Dyn,
        coro: true,
    }))))
}

/// Maps are left out.
pub(crate) fn new_map(_heap: &mut Heap, _key: ValType, _value: ValType) -> Result<u64, Fault> {
    Err(Fault::type_error())
}

/// Maps are left out.
pub(crate) fn map_set(
    _heap: &mut Heap,
    _seed: Seed,
    _map: u64,
    _key: u64,
    _value: u64,
) -> Result<(), Fault> {
    Err(Fault::type_error())
}
