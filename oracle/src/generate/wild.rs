//! Calls with operands at and beyond every limit, on any sound machine.

use super::{machine, setup, Profile, Rng, Sequence};
use crate::call::{Call, Kind};
use crate::engine::Engine;
use crate::plain::Plain;
use crate::word;
use crate::world::{Cont, Costs, World};

/// A register around the ends of the top frame's.
fn reg(rng: &mut Rng, w: &World) -> u16 {
    let n = w.window().len() as u16;
    if n > 0 && rng.chance(70) {
        let any = rng.below(usize::from(n)) as u16;
        return rng.pick(&[0, n - 1, any]);
    }
    rng.pick(&[n, n.saturating_add(1), 255, 256, u16::MAX])
}

fn pc(rng: &mut Rng) -> u32 {
    rng.pick(&[0, 1, 2, 5, 9, 1 << 31, u32::MAX - 1, u32::MAX])
}

fn func(rng: &mut Rng, w: &World) -> u32 {
    let n = w.setup.funcs.len() as u32;
    rng.pick(&[0, n - 1, n - 1, n, n + 1, u32::MAX])
}

fn argc(rng: &mut Rng, w: &World, dst: u16) -> u8 {
    let left = w.window().len().saturating_sub(usize::from(dst) + 1).min(255) as u8;
    rng.pick(&[0, 0, 1, left, left.saturating_add(1), 254, 255])
}

fn some_word(rng: &mut Rng, w: &World) -> u64 {
    let all: Vec<u64> = w.coros().map(|(n, _)| n).collect();
    if let Some(c) = rng.any(&all).filter(|_| rng.chance(60)) {
        return c;
    }
    let last = w.slots.len() as u32;
    rng.pick(&[
        0,
        1,
        word::REF_BASE - 1,
        word::REF_BASE,
        word::from_ref(last.saturating_sub(1), 0),
        word::from_ref(last, 0),
        word::from_ref(u32::MAX, u16::MAX),
        2 * word::REF_BASE,
        word::INT_TAG,
        (1 << 63) - 1,
        1 << 63,
        u64::MAX,
    ])
}

/// Any of the calls but the set-up.
pub fn wild_call(rng: &mut Rng, w: &World) -> Call {
    let (pc, dst) = (pc(rng), reg(rng, w));
    let (a, b, c) = (reg(rng, w), reg(rng, w), reg(rng, w));
    let argc = argc(rng, w, dst);
    let (func, word) = (func(rng, w), some_word(rng, w));
    match rng.below(27) {
        0 => Call::CoroNew { pc, dst, func, argc },
        1 => Call::CoroNewIndirect { pc, dst, callee: a, argc },
        2 => Call::Spawn { pc, dst, callee: a, argc },
        3 => Call::Yield { pc, dst, src: a },
        4 => Call::YieldKv { pc, dst, src: a, key: b },
        5 => Call::Await { pc, dst, src: a },
        6 => Call::Resume { pc, dst, coro: a, src: b },
        7 => Call::ResumeThrow { pc, dst, coro: a, src: b },
        8 => Call::CoroClose { pc, dst, coro: a, src: b },
        9 => Call::CoroStatus { pc, dst, coro: a },
        10 => Call::CoroCurrent { pc, dst },
        11 => Call::CoroKey { pc, dst, coro: a },
        12 => Call::CoroResult { pc, dst, coro: a },
        13 => Call::IterNext { pc, has: dst, iter: a, val: b, src: c },
        14 => Call::Finish { kind: rng.pick(&[Kind::None, Kind::Dyn, Kind::I64, Kind::U64]), word },
        15 => {
            let fault = rng.pick(&[0, 1, 2, 3, 4, 5, 6, 7, 8, 9, 10, 11, 12, 16, 17, 17, 18, 255]);
            let pc = rng.chance(50).then_some(pc);
            Call::Unwind { fault, word: if fault == 17 { word } else { 0 }, pc }
        }
        16 => Call::SpawnTask { word },
        17 => Call::HostCall { func },
        18 => Call::HostEntry { coro: word, word: some_word(rng, w) },
        19 => {
            let conts = [Cont::Write(a), Cont::Dyn(a), Cont::Value(a), Cont::Discard];
            let others = [Cont::Entry, Cont::Coro];
            let cont = if rng.chance(85) { rng.pick(&conts) } else { rng.pick(&others) };
            Call::FunctionCall { pc, func, cont }
        }
        20 => Call::PutWord { reg: dst, word },
        21 => Call::MakeIterator { src: word },
        22 => Call::TakeOutcome,
        23 => Call::HandOver { coro: word },
        24 => {
            let top = u64::MAX - w.available();
            Call::Grant { fuel: rng.pick(&[0, 1, 5, 1000, top, top.wrapping_add(1), u64::MAX]) }
        }
        25 if rng.chance(20) => Call::StopRun,
        25 => Call::Grant { fuel: 20 },
        _ => Call::Look,
    }
}

/// A sound machine and wild calls on it, some of them after a word was put
/// where they look.
#[must_use]
pub fn wild(rng: &mut Rng, costs: Costs, len: usize) -> Sequence {
    let start = if rng.chance(80) {
        machine(rng, costs, Profile::Small)
    } else {
        World::fresh(setup(rng, costs, Profile::Small))
    };
    let mut engine = Plain::default();
    engine.load(&start);
    let mut calls = Vec::new();
    while calls.len() < len {
        let w = engine.world();
        if w.frames.is_empty() && rng.chance(50) {
            let call = Call::HostCall { func: func(rng, &w) };
            engine.call(&call);
            calls.push(call);
            continue;
        }
        let call = wild_call(rng, &w);
        if let Some(&reg) = call.registers().iter().find(|_| rng.chance(30)) {
            let put = Call::PutWord { reg, word: some_word(rng, &w) };
            engine.call(&put);
            calls.push(put);
        }
        engine.call(&call);
        calls.push(call);
    }
    Sequence { start, calls }
}
