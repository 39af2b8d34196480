//! Which calls the functions for a Resume and for a Yield must do themselves:
//! every Resume that is accepted with fuel in hand; every Yield so accepted
//! whose driver is a Resume, which nothing charges for, with an inline key.

use crate::call::{Answer, Call};
use crate::word::INLINE_END;
use crate::world::{Driver, World};

/// Whether they must, of an answered call on `w`; none if it is neither.
#[must_use]
pub fn due(w: &World, call: &Call, told: &Answer) -> Option<bool> {
    let paid = told.number == 0 && w.fuel > 0;
    match call {
        Call::Resume { .. } => Some(paid),
        Call::Yield { .. } => Some(paid && plain(w)),
        _ => None,
    }
}

/// The innermost coroutine is driven by a Resume, is not closing, holds no
/// more than it has held asleep before, and its next key is inline.
fn plain(w: &World) -> bool {
    let Some(a) = w.chain.last() else { return false };
    let Some(c) = w.coro(a.coro) else { return false };
    let words = w.stack.len() - w.frames[a.floor].base;
    matches!(a.driver, Driver::Resume(_))
        && !c.closing
        && words <= c.max_regs
        && w.frames.len() - a.floor <= c.max_frames
        && (-INLINE_END - 1..INLINE_END - 1).contains(&c.max_key)
}
