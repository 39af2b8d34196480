//! Stand-in: dynamic callees are left out. No register of a set-up is `dyn`,
//! so the coroutine code never binds; reaching this module is a fault of ours.

use alloc::vec::Vec;

use bytecode_lang::{Bound, ParamList, ValType};

use crate::fault::Fault;
use crate::heap::Callable;
use crate::machine::Machine;
use crate::program::Program;

#[derive(Debug, Default)]
pub(crate) struct Flat {}

pub(crate) fn params_of(_prog: &Program, _target: Callable) -> Option<&ParamList> {
    None
}

pub(crate) fn bind(
    _prog: &Program,
    _list: Option<&ParamList>,
    _nparams: usize,
    _flat: Option<&Flat>,
    _argc: usize,
    _bound: &mut Vec<Bound>,
) -> Result<u64, Fault> {
    unreachable!("dynamic callees are left out")
}

#[allow(clippy::too_many_arguments)]
pub(crate) fn build_args(
    _m: &mut Machine,
    _prog: &Program,
    _list: Option<&ParamList>,
    _sig: &[ValType],
    _window: &[u64],
    _flat: Option<&Flat>,
    _bound: &[Bound],
    _mask: u64,
    _args: &mut Vec<u64>,
) -> Result<(), Fault> {
    unreachable!("dynamic callees are left out")
}
