//! The next call, chosen with an eye on the state so that every answer comes.

use super::setups::{bad_setup, pc, setup};
use super::words::Words;
use super::{Profile, Rng};
use crate::call::{Call, Kind};
use crate::word;
use crate::world::{Cont, Costs, Object, State, World};

/// One call, or a few that prepare for the last.
pub fn next_calls(rng: &mut Rng, w: &World, costs: Costs) -> Vec<Call> {
    let mut out = Vec::new();
    if w.available() == 0 && rng.chance(60) {
        let fuel = rng.pick(&[1, 1, 2, 3, 5, 40, 1000]);
        out.push(Call::Grant { fuel });
    }
    let framed = !w.frames.is_empty();
    match rng.below(200) {
        0..=1 => out.push(Call::SetUp(Box::new(if rng.chance(60) {
            bad_setup(rng, costs)
        } else {
            setup(rng, costs, Profile::Small)
        }))),
        2 => out.push(Call::StopRun),
        3..=30 => out.push(added(rng, w)),
        31..=46 if framed => out.push(finish(rng)),
        47..=60 if framed || rng.chance(20) => out.push(unwind(rng, w)),
        61..=72 if framed => out.push(function_call(rng, w)),
        _ if !framed && rng.chance(97) => out.push(host(rng, w)),
        _ if w.window().is_empty() && rng.chance(80) => out.push(no_registers(rng, w)),
        _ => instruction(rng, w, &mut out),
    }
    out
}

fn funcs(rng: &mut Rng, w: &World) -> u32 {
    let n = w.setup.funcs.len();
    if rng.chance(3) {
        return rng.pick(&[n as u32, u32::MAX]);
    }
    rng.below(n) as u32
}

/// A coroutine's word, of a wanted kind if there is one.
fn coro_word(rng: &mut Rng, w: &World) -> u64 {
    let want = rng.pick(&[
        State::Created,
        State::Yielded,
        State::Yielded,
        State::Yielded,
        State::Awaiting,
        State::Awaiting,
        State::Running,
        State::Returned,
        State::Failed,
    ]);
    let all: Vec<u64> = w.coros().map(|(n, _)| n).collect();
    let some: Vec<u64> = w.coros().filter(|(_, c)| c.state == want).map(|(n, _)| n).collect();
    match rng.any(&some).or_else(|| rng.any(&all)) {
        Some(c) if rng.chance(85) => c,
        _ => Words::of(w).one(rng),
    }
}

fn added(rng: &mut Rng, w: &World) -> Call {
    let words = Words::of(w);
    // Without a coroutine the later ones have little to find.
    let kinds = if lonely(w) && rng.chance(80) { 4 } else { 16 };
    match rng.below(kinds) {
        0..=2 => {
            let reg = match rng.below(8) {
                0 => w.window().len(),
                _ => rng.below(w.window().len()),
            };
            let word = if rng.chance(50) { coro_word(rng, w) } else { words.one(rng) };
            Call::PutWord { reg: reg as u16, word }
        }
        3 => Call::Grant { fuel: rng.pick(&[0, 1, 2, 3, 10, u64::MAX]) },
        4 => Call::Look,
        5 => Call::TakeOutcome,
        6..=7 => Call::MakeIterator { src: coro_word(rng, w) },
        8..=11 => Call::HandOver { coro: coro_word(rng, w) },
        12..=13 => Call::SpawnTask { word: coro_word(rng, w) },
        14 => Call::HostCall { func: funcs(rng, w) },
        _ => Call::HostEntry { coro: coro_word(rng, w), word: words.one(rng) },
    }
}

/// No coroutine is there.
fn lonely(w: &World) -> bool {
    w.coros().next().is_none()
}

fn host(rng: &mut Rng, w: &World) -> Call {
    match rng.below(20) {
        0..=8 => Call::HostCall { func: funcs(rng, w) },
        _ if lonely(w) && rng.chance(90) => Call::HostCall { func: funcs(rng, w) },
        9..=18 => Call::HostEntry { coro: coro_word(rng, w), word: Words::of(w).one(rng) },
        _ => finish(rng),
    }
}

/// From a frame without registers: leave it or call on.
fn no_registers(rng: &mut Rng, w: &World) -> Call {
    match rng.below(3) {
        0 => finish(rng),
        1 => unwind(rng, w),
        _ => Call::FunctionCall { pc: pc(rng), func: funcs(rng, w), cont: Cont::Discard },
    }
}

fn finish(rng: &mut Rng) -> Call {
    let kind = rng.pick(&[Kind::None, Kind::Dyn, Kind::I64, Kind::U64]);
    let edges = [
        0,
        1,
        (1 << 47) - 1,
        1 << 47,
        (1 << 63) - 1,
        1 << 63,
        u64::MAX,
        -(1_i64 << 47) as u64,
        (-(1_i64 << 47) - 1) as u64,
        word::from_ref(0, 0),
    ];
    Call::Finish { kind, word: rng.pick(&edges) }
}

fn unwind(rng: &mut Rng, w: &World) -> Call {
    let fault = match rng.below(20) {
        0 => rng.pick(&[0, 11, 14, 16, 18, 255]),
        1 => 9,
        2 => 10,
        3..=9 => rng.range(1, 8) as u8,
        _ => 17,
    };
    let signal = w.chain.last().and_then(|a| w.coro(a.coro)).map(|c| c.signal);
    let word = match signal {
        _ if fault != 17 => 0,
        Some(s) if rng.chance(60) => s,
        _ => Words::of(w).one(rng),
    };
    Call::Unwind { fault, word, pc: rng.chance(60).then(|| pc(rng)) }
}

fn function_call(rng: &mut Rng, w: &World) -> Call {
    let regs = w.window().len();
    let reg = if rng.chance(6) { regs } else { rng.below(regs) } as u16;
    let cont = match rng.below(14) {
        0 => Cont::Entry,
        1 => Cont::Coro,
        2..=3 => Cont::Discard,
        4..=6 => Cont::Write(reg),
        7..=10 => Cont::Dyn(reg),
        _ => Cont::Value(reg),
    };
    Call::FunctionCall { pc: pc(rng), func: funcs(rng, w), cont }
}

/// An instruction, after putting words that it needs into its registers.
fn instruction(rng: &mut Rng, w: &World, out: &mut Vec<Call>) {
    let regs = w.window().len();
    let reg = |rng: &mut Rng| if rng.chance(2) { regs as u16 } else { rng.below(regs) as u16 };
    let pc = pc(rng);
    let (dst, src, key) = (reg(rng), reg(rng), reg(rng));
    let words = Words::of(w);
    if rng.chance(25) {
        out.push(Call::PutWord { reg: src, word: words.one(rng) });
    }
    let active = !w.chain.is_empty();
    let kinds = match (active, lonely(w)) {
        _ if lonely(w) && rng.chance(65) => 5,
        (true, _) => 36,
        (false, _) => 27,
    };
    match rng.below(kinds) {
        kind @ 0..=4 => creation(rng, w, kind, dst, out),
        kind @ 5..=17 => {
            let coro = with_word(rng, w, coro_word, out);
            out.push(match kind {
                5..=9 => Call::Resume { pc, dst, coro, src },
                10..=13 => Call::ResumeThrow { pc, dst, coro, src },
                _ => Call::CoroClose { pc, dst, coro, src },
            });
        }
        18 => out.push(Call::CoroCurrent { pc, dst }),
        kind @ 19..=21 => {
            let coro = with_word(rng, w, coro_word, out);
            out.push(match kind {
                19 => Call::CoroStatus { pc, dst, coro },
                20 => Call::CoroKey { pc, dst, coro },
                _ => Call::CoroResult { pc, dst, coro },
            });
        }
        22..=24 => {
            let src = with_word(rng, w, coro_word, out);
            let iter = with_word(rng, w, iterator_word, out);
            let (has, val) = (dst, if rng.chance(20) { dst } else { key });
            out.push(Call::IterNext { pc, has, iter, val, src });
        }
        kind if !active => out.push(match rng.below(3) {
            _ if kind == 25 => Call::Yield { pc, dst, src },
            0 => Call::YieldKv { pc, dst, src, key },
            1 => Call::Await { pc, dst, src },
            _ => Call::Yield { pc, dst, src },
        }),
        25..=29 => {
            if rng.chance(60) {
                out.push(Call::PutWord { reg: key, word: integer_word(rng, w) });
            }
            out.push(Call::YieldKv { pc, dst, src, key });
        }
        30..=31 => out.push(Call::Await { pc, dst, src }),
        _ => out.push(Call::Yield { pc, dst, src }),
    }
}

/// A register that holds a wanted word, put there if need be.
fn with_word(
    rng: &mut Rng,
    w: &World,
    want: impl Fn(&mut Rng, &World) -> u64,
    out: &mut Vec<Call>,
) -> u16 {
    let word = want(rng, w);
    let holds = w.window().iter().position(|&x| x == word);
    match holds {
        Some(r) => r as u16,
        None => {
            let reg = rng.below(w.window().len()) as u16;
            out.push(Call::PutWord { reg, word });
            reg
        }
    }
}

fn iterator_word(rng: &mut Rng, w: &World) -> u64 {
    let found: Vec<u64> = objects(w, |o| matches!(o, Object::Iter { .. }));
    match rng.any(&found) {
        Some(i) if rng.chance(80) => i,
        _ => Words::of(w).one(rng),
    }
}

fn integer_word(rng: &mut Rng, w: &World) -> u64 {
    let mut found: Vec<u64> = objects(w, |o| matches!(o, Object::Int(_)));
    for i in [-9, 5, (1 << 47) - 1] {
        found.extend(word::inline_int(i));
    }
    rng.pick(&found)
}

fn objects(w: &World, which: impl Fn(&Object) -> bool) -> Vec<u64> {
    let slots = w.slots.iter().enumerate().filter(|(_, s)| which(&s.object));
    slots.map(|(i, s)| word::from_ref(i as u32, s.tag)).collect()
}

/// CoroNew with any count, the indirect two mostly with the right one.
fn creation(rng: &mut Rng, w: &World, kind: usize, dst: u16, out: &mut Vec<Call>) {
    let pc = pc(rng);
    let room = w.window().len().saturating_sub(usize::from(dst) + 1);
    if kind < 2 {
        // A wide frame, all of it handed on.
        if w.window().len() > 255 && rng.chance(70) {
            out.push(Call::CoroNew { pc, dst: 0, func: funcs(rng, w), argc: 255 });
            return;
        }
        let argc = match rng.below(4) {
            0 => rng.below(room + 2),
            1 => room,
            _ => rng.below(room + 1),
        };
        let argc = argc.min(255) as u8;
        out.push(Call::CoroNew { pc, dst, func: funcs(rng, w), argc });
        return;
    }
    let found: Vec<(u64, u32)> = w
        .slots
        .iter()
        .enumerate()
        .filter_map(|(i, s)| match s.object {
            Object::Func(f) => Some((word::from_ref(i as u32, s.tag), f)),
            _ => None,
        })
        .collect();
    let (callee_word, params) = match rng.any(&found) {
        // A function object may name no function.
        Some((c, f)) if rng.chance(88) => {
            (c, w.setup.funcs.get(f as usize).map_or(0, |f| f.nparams as usize))
        }
        _ => (Words::of(w).one(rng), 0),
    };
    let params = if rng.chance(90) { params } else { rng.below(4) };
    // A window that fits, if the frame has room for one.
    let regs = w.window().len();
    let dst = if params < regs && rng.chance(90) { rng.below(regs - params) as u16 } else { dst };
    let argc = params.min(255) as u8;
    let callee = with_word(rng, w, |_, _| callee_word, out);
    out.push(if kind == 2 {
        Call::CoroNewIndirect { pc, dst, callee, argc }
    } else {
        Call::Spawn { pc, dst, callee, argc }
    });
}
