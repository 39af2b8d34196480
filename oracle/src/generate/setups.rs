//! Random set-ups: small ones, wide ones for 255 arguments, and bad ones.

use super::Rng;
use crate::world::{Costs, Func, Handler, Setup};

#[derive(Clone, Copy, PartialEq, Eq, Debug)]
pub enum Profile {
    /// Few registers and low limits.
    Small,
    /// Few registers and limits that a run seldom meets.
    Roomy,
    /// Functions of up to 256 registers and room for them.
    Wide,
    /// As small ones, with objects past slot 63 and up to 64 rows.
    Many,
}

/// Pcs: small ones, and the last before the wrap.
pub(super) fn pc(rng: &mut Rng) -> u32 {
    match rng.below(12) {
        0 => u32::MAX,
        1 => u32::MAX - 1,
        _ => rng.below(7) as u32,
    }
}

fn handler(rng: &mut Rng, nregs: u64) -> Handler {
    let start = u64::from(pc(rng));
    let end = match rng.below(6) {
        0 => start,
        1 => u64::from(pc(rng)),
        2 => u64::from(u32::MAX),
        _ => (start + rng.range(1, 5) as u64).min(u64::from(u32::MAX)),
    };
    Handler { start, end, target: u64::from(pc(rng)), catch: rng.below(nregs as usize) as u64 }
}

fn func(rng: &mut Rng, profile: Profile) -> Func {
    let nregs = match profile {
        Profile::Small | Profile::Many => rng.pick(&[0, 1, 1, 2, 2, 3, 3, 4, 5]),
        Profile::Roomy => rng.pick(&[0, 2, 3, 4, 5, 6]),
        Profile::Wide => rng.pick(&[2, 4, 200, 254, 255, 256, 256]),
    };
    let nparams = match profile {
        Profile::Small | Profile::Roomy | Profile::Many => {
            rng.below(nregs.min(3) as usize + 1) as u64
        }
        Profile::Wide => rng.pick(&[0, 1, 200, 255, 255]).min(nregs),
    };
    let count = match rng.below(10) {
        _ if nregs == 0 => 0,
        0 => 8,
        1..=3 => 0,
        _ => rng.range(1, 3),
    };
    Func { nregs, nparams, handlers: (0..count).map(|_| handler(rng, nregs)).collect() }
}

/// A good set-up.
pub fn setup(rng: &mut Rng, costs: Costs, profile: Profile) -> Setup {
    let funcs: Vec<Func> = (0..rng.range(1, 5)).map(|_| func(rng, profile)).collect();
    let hooks: Vec<u64> =
        (0..funcs.len() as u64).filter(|&f| funcs[f as usize].nregs > 0).collect();
    let n = funcs.len() as u64;
    let one = 8 * funcs[0].nregs + costs.coro_object + costs.frame;
    let memory = match rng.below(8) {
        _ if profile == Profile::Roomy => rng.pick(&[u64::MAX, u64::MAX, 4000]),
        0 => one - 1,
        1 => one,
        2 => 8 * funcs[0].nregs + costs.coro + costs.frame,
        3 => rng.below(2000) as u64,
        _ => u64::MAX,
    };
    Setup {
        depth: match profile {
            _ if rng.chance(5) => 128,
            Profile::Roomy => rng.range(8, 20) as u64,
            _ => rng.range(1, 6) as u64,
        },
        stack: match profile {
            Profile::Small | Profile::Many => rng.range(1, 24) as u64,
            Profile::Roomy => rng.range(40, 100) as u64,
            Profile::Wide => rng.pick(&[512, 600, 1024]),
        },
        rows: match profile {
            Profile::Roomy => rng.range(4, 12) as u64,
            _ => rng.pick(&[1, 1, 2, 3, 4, 64]),
        },
        slots: match profile {
            Profile::Roomy => n + rng.range(8, 30) as u64,
            _ => n + rng.pick(&[0, 1, 2, 3, 6, 10]),
        },
        memory,
        costs,
        hook: if rng.chance(70) { rng.any(&hooks) } else { None },
        funcs,
    }
}

/// A set-up that breaks one rule.
pub fn bad_setup(rng: &mut Rng, costs: Costs) -> Setup {
    let mut s = setup(rng, costs, Profile::Small);
    match rng.below(14) {
        0 => s.depth = rng.pick(&[0, 129]),
        1 => s.stack = rng.pick(&[0, 1025]),
        2 => s.rows = rng.pick(&[0, 65]),
        3 => s.slots = rng.pick(&[0, 4097]),
        4 => s.slots = s.funcs.len() as u64 - 1,
        5 => s.funcs.clear(),
        6 => s.funcs = vec![s.funcs[0].clone(); 33],
        7 => s.funcs[0].nregs = 257,
        8 => s.funcs[0].nparams = s.funcs[0].nregs + 1,
        9 => {
            s.funcs[0].nregs = s.funcs[0].nregs.max(1);
            s.funcs[0].handlers = vec![handler(rng, 1); 9];
        }
        10 => {
            let mut h = handler(rng, 1);
            h.catch = s.funcs[0].nregs;
            s.funcs[0].handlers = vec![h];
        }
        11 => s.hook = Some(s.funcs.len() as u64),
        12 => {
            s.funcs[0] = Func::default();
            s.hook = Some(0);
        }
        _ => {
            let field = rng.below(6);
            let k = &mut s.costs;
            *[
                &mut k.frame,
                &mut k.coro,
                &mut k.coro_object,
                &mut k.int,
                &mut k.error,
                &mut k.iter,
            ][field] = 65_537;
        }
    }
    s
}
