//! Sequences written by hand, where random ones are silent.

mod arms;
mod words;

use crate::call::{Call, Kind};
use crate::examples::sizes_below;
use crate::generate::Sequence;
use crate::word::{from_ref, NIL, REF_BASE};
use crate::world::{Cont, Costs, Func, Handler, Object, Setup, World};

fn func(nregs: u64) -> Func {
    Func { nregs, ..Func::default() }
}

fn handler(catch: u64) -> Handler {
    Handler { start: 0, end: 100, target: 50, catch }
}

/// Function 2 catches in register 1, 4 has no registers, 5 takes two words.
fn setup(costs: Costs) -> Setup {
    Setup {
        depth: 8,
        stack: 40,
        rows: 4,
        slots: 16,
        memory: u64::MAX,
        costs,
        hook: None,
        funcs: vec![
            func(2),
            func(4),
            Func { handlers: vec![handler(1)], ..func(2) },
            func(6),
            func(0),
            Func { nparams: 2, ..func(3) },
        ],
    }
}

/// The first words made after the function objects.
const C: u64 = REF_BASE + 6;
const D: u64 = REF_BASE + 7;

fn new(dst: u16, func: u32) -> Call {
    Call::CoroNew { pc: 1, dst, func, argc: 0 }
}

fn resume(dst: u16, coro: u16) -> Call {
    Call::Resume { pc: 2, dst, coro, src: dst }
}

fn next(has: u16, iter: u16, val: u16, src: u16) -> Call {
    Call::IterNext { pc: 3, has, iter, val, src }
}

fn put(reg: u16, word: u64) -> Call {
    Call::PutWord { reg, word }
}

fn raise(word: u64) -> Call {
    Call::Unwind { fault: 17, word, pc: None }
}

fn status(dst: u16, coro: u16) -> Call {
    Call::CoroStatus { pc: 4, dst, coro }
}

const YIELD: Call = Call::Yield { pc: 8, dst: 0, src: 1 };
const VOID: Call = Call::Finish { kind: Kind::None, word: 0 };
const CURRENT: Call = Call::CoroCurrent { pc: 5, dst: 1 };

/// A host's frame of `func` with fuel, then `calls`.
fn from_host(costs: Costs, func: u32, calls: impl IntoIterator<Item = Call>) -> Sequence {
    let mut all = vec![Call::Grant { fuel: 1000 }, Call::HostCall { func }];
    all.extend(calls);
    Sequence { start: World::fresh(setup(costs)), calls: all }
}

/// Nil leaves a coroutine that is not closing: no signal, whoever drives.
fn nil_escapes(costs: Costs) -> Vec<Sequence> {
    let after = [Call::HostCall { func: 3 }, put(0, C), status(1, 0), Call::Look];
    let driven = |calls: Vec<Call>| {
        let escape = [raise(NIL), Call::TakeOutcome, Call::StopRun];
        from_host(costs, 3, calls.into_iter().chain(escape).chain(after.clone()))
    };
    let caught = [new(0, 0), resume(1, 0), raise(NIL), status(1, 0), Call::Look];
    vec![
        driven(vec![new(0, 0), resume(1, 0)]),
        driven(vec![new(0, 0), resume(1, 0), YIELD, resume(1, 0)]),
        driven(vec![new(0, 0), Call::MakeIterator { src: C }, put(1, D), next(2, 1, 3, 0)]),
        driven(vec![new(0, 0), Call::StopRun, Call::HostEntry { coro: C, word: 5 }]),
        from_host(costs, 2, caught),
    ]
}

/// Who is current: the innermost of two, then the outer one, then nobody.
fn current(costs: Costs) -> Sequence {
    let outer = [CURRENT, new(0, 1), resume(1, 0), CURRENT, Call::Look];
    let inner = [new(0, 0), resume(1, 0), CURRENT, Call::Look, YIELD];
    let back = [CURRENT, Call::Look, YIELD, CURRENT, Call::Look];
    from_host(costs, 1, outer.into_iter().chain(inner).chain(back))
}

/// One iterator for two loops, one inside the other and one after the other.
fn two_loops(costs: Costs) -> Vec<Sequence> {
    let begin = [new(0, 3), Call::MakeIterator { src: C }, put(1, D), next(2, 1, 3, 0)];
    // In the outer coroutine: another source, the same iterator.
    let inside = [new(0, 3), put(1, D), next(2, 1, 3, 0)];
    let keyed = Call::YieldKv { pc: 9, dst: 0, src: 4, key: 5 };
    let inner = [put(4, 7), put(5, 11), keyed.clone(), Call::Look];
    let again = [next(2, 1, 3, 0), put(5, 13), keyed, next(2, 1, 3, 0), VOID, Call::Look];
    let outer = [put(4, 8), YIELD, Call::Look, next(2, 1, 3, 0), VOID, Call::Look];
    let nested = begin.iter().chain(&inside).chain(&inner).chain(&again).chain(&outer);
    // The first loop ends; the second finds the iterator done, its source untouched.
    let ends = [VOID, new(4, 0), next(2, 1, 3, 4), status(5, 4), Call::Look];
    // The first loop is left; the second goes on with another source.
    let left = [YIELD, new(4, 0), next(2, 1, 3, 4), YIELD, next(2, 1, 3, 0), YIELD, Call::Look];
    let more = [next(2, 1, 3, 4), VOID, next(2, 1, 3, 0), status(5, 0), Call::Look];
    vec![
        from_host(costs, 3, nested.cloned()),
        from_host(costs, 3, begin.iter().chain(&ends).cloned()),
        from_host(costs, 3, begin.iter().chain(&left).chain(&more).cloned()),
    ]
}

/// A function object that names no function, with and without a hook, and
/// where nothing could be made.
fn no_function(costs: Costs) -> Vec<Sequence> {
    let indirect = |argc| Call::CoroNewIndirect { pc: 1, dst: 0, callee: 3, argc };
    let spawn = |argc| Call::Spawn { pc: 1, dst: 0, callee: 3, argc };
    let calls = vec![
        Call::Grant { fuel: 100 },
        Call::HostCall { func: 1 },
        put(3, from_ref(5, 0)),
        indirect(0),
        indirect(2),
        spawn(0),
        spawn(2),
        Call::Look,
    ];
    let start = |hook, func, slots| {
        let mut w = World::fresh(Setup { hook, slots, ..setup(costs) });
        w.slots[5].object = Object::Func(func);
        w
    };
    let starts = [start(None, 6, 16), start(Some(0), 6, 16), start(Some(0), u32::MAX, 6)];
    starts.map(|start| Sequence { start, calls: calls.clone() }).into()
}

/// Calls of no function, into an idle and a busy machine.
fn calls_of_none(costs: Costs) -> Sequence {
    let none = |func| {
        let cont = Cont::Discard;
        let called = Call::FunctionCall { pc: 1, func, cont };
        let made = Call::CoroNew { pc: 1, dst: 0, func, argc: 0 };
        [Call::HostCall { func }, called, made]
    };
    let entry = Call::HostEntry { coro: NIL, word: 0 };
    let mut calls = vec![Call::Grant { fuel: 9 }];
    calls.extend(none(6).into_iter().chain(none(u32::MAX)).chain([entry.clone()]));
    calls.push(Call::HostCall { func: 5 });
    calls.extend(none(6).into_iter().chain(none(u32::MAX)).chain(none(5)).chain([entry]));
    Sequence { start: World::fresh(setup(costs)), calls }
}

type Edit = fn(&mut Setup);

/// Both ends of each range of the closing list.
const INSIDE: &[Edit] = &[
    |s| s.depth = 1,
    |s| s.depth = 128,
    |s| s.stack = 1,
    |s| s.stack = 1024,
    |s| s.rows = 1,
    |s| s.rows = 64,
    |s| s.slots = 4096,
    |s| s.slots = s.funcs.len() as u64,
    |s| {
        s.funcs.truncate(1);
        s.slots = 1;
    },
    |s| {
        s.funcs = vec![func(1); 32];
        s.slots = 32;
    },
    |s| s.memory = 0,
    |s| s.memory = u64::MAX,
    |s| s.funcs[0].nregs = 0,
    |s| s.funcs[0].nregs = 256,
    |s| (s.funcs[0].nregs, s.funcs[0].nparams) = (256, 256),
    |s| s.funcs[0].nparams = s.funcs[0].nregs,
    |s| s.funcs[0].handlers = vec![handler(0); 8],
    |s| s.funcs[0].handlers = vec![handler(1)],
    |s| {
        let last = u64::from(u32::MAX);
        s.funcs[0].handlers = vec![Handler { start: last, end: last, target: last, catch: 0 }];
    },
    |s| s.hook = None,
    |s| {
        s.funcs[4] = func(1);
        s.hook = Some(4);
    },
    |s| s.hook = Some(s.funcs.len() as u64 - 1),
    |s| s.hook = Some(0),
];

/// One beyond, with nothing else wrong.
const BEYOND: &[Edit] = &[
    |s| s.depth = 0,
    |s| s.depth = 129,
    |s| s.stack = 0,
    |s| s.stack = 1025,
    |s| s.rows = 0,
    |s| s.rows = 65,
    |s| s.slots = 4097,
    |s| s.slots = s.funcs.len() as u64 - 1,
    |s| s.slots = 0,
    |s| s.funcs.clear(),
    |s| {
        s.funcs = vec![func(1); 33];
        s.slots = 33;
    },
    |s| s.funcs[0].nregs = 257,
    |s| s.funcs[5].nregs = 257,
    |s| s.funcs[0].nparams = s.funcs[0].nregs + 1,
    |s| s.funcs[4].nparams = 1,
    |s| s.funcs[0].handlers = vec![handler(0); 9],
    |s| s.funcs[0].handlers = vec![handler(2)],
    |s| s.funcs[0].handlers = vec![handler(0), handler(2)],
    |s| s.funcs[4].handlers = vec![handler(0)],
    |s| s.funcs[0].handlers = vec![Handler { start: 1 << 32, ..handler(0) }],
    |s| s.funcs[0].handlers = vec![Handler { end: 1 << 32, ..handler(0) }],
    |s| s.funcs[0].handlers = vec![Handler { target: 1 << 32, ..handler(0) }],
    |s| s.hook = Some(4),
    |s| s.hook = Some(s.funcs.len() as u64),
    |s| s.hook = Some(u64::MAX),
];

/// Each cost.
const COSTS: [fn(&mut Costs) -> &mut u64; 6] = [
    |k| &mut k.frame,
    |k| &mut k.coro,
    |k| &mut k.coro_object,
    |k| &mut k.int,
    |k| &mut k.error,
    |k| &mut k.iter,
];

/// Set-ups at both ends of each range, and one beyond. A machine that a
/// refused one leaves as it was has a frame, fuel and a coroutine.
fn set_ups(costs: Costs) -> Vec<Sequence> {
    let edited = |edit: &Edit| {
        let mut s = setup(costs);
        edit(&mut s);
        Call::SetUp(Box::new(s))
    };
    let cost = |at: usize, n: u64| {
        let mut s = setup(costs);
        *COSTS[at](&mut s.costs) = n;
        Call::SetUp(Box::new(s))
    };
    let refused = BEYOND.iter().map(edited).chain((0..6).map(|i| cost(i, 65_537)));
    let used = from_host(costs, 1, [new(0, 0), resume(1, 0), YIELD].into_iter().chain(refused));
    let accepted = (0..6).flat_map(|i| [cost(i, 0), cost(i, 65_536)]);
    let inside = from_host(costs, 1, [new(0, 0)].into_iter().chain(INSIDE.iter().map(edited)));
    let priced = from_host(costs, 1, [new(0, 0)].into_iter().chain(accepted));
    vec![used, inside, priced]
}

/// All of them, for a build of these costs.
#[must_use]
pub fn all(costs: Costs) -> Vec<Sequence> {
    let mut all = nil_escapes(costs);
    all.push(current(costs));
    all.extend(two_loops(costs));
    all.extend(no_function(costs));
    all.push(calls_of_none(costs));
    all.extend(set_ups(costs));
    all.extend(arms::all(costs));
    all.extend(words::all(costs));
    let (start, calls) = sizes_below(costs);
    all.push(Sequence { start, calls: calls.into() });
    all
}
