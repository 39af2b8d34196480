//! Limits drawn around a machine, so that equality and one more both come.

use super::machines::named;
use super::Rng;
use crate::word::INLINE_END;
use crate::world::{State, World};

/// Draws the limits close around what is there, and around what the next
/// entry, creation or suspension needs.
pub(super) fn tighten(rng: &mut Rng, w: &mut World) {
    let asleep = named(w, |c| c.state.is_resumable());
    let saved = rng.any(&asleep).and_then(|c| w.coro(c));
    let (frames, words) = saved.map_or((1, 2), |c| (c.frames.len(), c.regs.len()));
    let deep = w.coros().map(|(_, c)| c.frames.len().max(c.max_frames)).max();
    let least = w.frames.len().max(deep.unwrap_or(0)).max(1);
    let depth = match rng.below(4) {
        0 => w.frames.len() + frames - 1,
        1 => least,
        _ => w.frames.len() + frames,
    };
    w.setup.depth = depth.min(128).max(least) as u64;
    let stack = match rng.below(4) {
        0 => (w.stack.len() + words).saturating_sub(1),
        1 => w.stack.len(),
        2 => w.stack.len() + words,
        _ => w.stack.len() + words + 12,
    };
    w.setup.stack = stack.min(1024).max(w.stack.len().max(1)) as u64;
    let k = &w.setup.costs;
    let regs = w.setup.funcs[0].nregs;
    let step = match rng.below(9) {
        0 => 0,
        1 => 8 * regs + k.coro + k.frame,
        2 => 8 * regs + k.coro_object + k.frame,
        3 => {
            let step = k.int + rng.pick(&[0, 8, k.frame]);
            large_keys(w);
            step
        }
        4 => k.frame,
        5 => 8,
        6 => k.iter,
        7 => 2 * k.error,
        _ => rng.below(400) as u64,
    };
    w.used = rng.pick(&[0, 7, 1000, u64::MAX - 100, u64::MAX - step]);
    w.setup.memory = match rng.below(4) {
        0 => w.used.saturating_add(step),
        1 => w.used.saturating_add(step).saturating_sub(1).max(w.used),
        _ => u64::MAX,
    };
}

/// Every running coroutine's next key needs an object, and its suspension is
/// charged from nothing.
fn large_keys(w: &mut World) {
    for c in named(w, |c| c.state == State::Running) {
        let c = w.coro_mut(c).expect("named");
        c.max_key = c.max_key.clamp(INLINE_END - 1, i64::MAX - 1);
        (c.max_regs, c.max_frames) = (0, 0);
    }
}
