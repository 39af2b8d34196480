//! Every arm of every call once, at the edges of its tests.

use super::{new, next, put, raise, resume, setup, C, CURRENT, D, VOID, YIELD};
use crate::call::{Call, Kind};
use crate::engine::Engine;
use crate::generate::Sequence;
use crate::plain::Plain;
use crate::word::{from_ref, inline_int, NIL};
use crate::world::{Cont, Costs, Func, Handler, Object, Setup, Slot, State, World};

const AWAIT: Call = Call::Await { pc: 9, dst: 0, src: 1 };
const KINDS: [(Kind, u64); 9] = [
    (Kind::None, 7),
    (Kind::Dyn, 7),
    (Kind::I64, 5),
    (Kind::I64, u64::MAX),
    (Kind::I64, 1 << 47),
    (Kind::I64, 1 << 63),
    (Kind::U64, (1 << 47) - 1),
    (Kind::U64, 1 << 47),
    (Kind::U64, 1 << 63),
];
const CONTS: [Cont; 4] = [Cont::Write(1), Cont::Dyn(1), Cont::Value(1), Cont::Discard];

/// A sequence in the making, with an engine that runs along.
struct Run {
    start: World,
    engine: Plain,
    calls: Vec<Call>,
}

impl Run {
    fn of(start: World) -> Run {
        let mut engine = Plain::default();
        engine.load(&start);
        Run { start, engine, calls: Vec::new() }
    }

    /// From a set-up with room, with fuel and a host's frame of `func`.
    fn host(costs: Costs, func: u32) -> Run {
        let roomy = Setup { slots: 200, rows: 64, ..setup(costs) };
        Run::of(World::fresh(roomy)).with([Call::Grant { fuel: 9000 }, Call::HostCall { func }])
    }

    fn with(mut self, calls: impl IntoIterator<Item = Call>) -> Run {
        for c in calls {
            self.engine.call(&c);
            self.calls.push(c);
        }
        self
    }

    /// Begins a new sequence where this one stands, after a change.
    fn change(self, change: impl FnOnce(&mut World)) -> Run {
        let mut w = self.engine.world();
        change(&mut w);
        Run::of(w)
    }

    /// Whoever runs yields, until nobody does.
    fn settle(mut self) -> Run {
        while !self.engine.world().chain.is_empty() {
            self = self.with([YIELD]);
        }
        self
    }

    /// Calls return, down to the host's frame.
    fn back(mut self) -> Run {
        while self.engine.world().frames.len() > 1 {
            self = self.with([VOID]);
        }
        self
    }

    fn done(self) -> Sequence {
        Sequence { start: self.start, calls: self.calls }
    }
}

/// The calls that take a coroutine in register 1, or as a word.
fn asked(word: u64) -> Vec<Call> {
    vec![
        put(1, word),
        Call::CoroStatus { pc: 10, dst: 5, coro: 1 },
        Call::CoroKey { pc: 11, dst: 5, coro: 1 },
        Call::CoroResult { pc: 12, dst: 5, coro: 1 },
        Call::CoroNewIndirect { pc: 13, dst: 4, callee: 1, argc: 0 },
        Call::Spawn { pc: 14, dst: 4, callee: 1, argc: 0 },
        Call::MakeIterator { src: word },
        Call::SpawnTask { word },
        Call::SpawnTask { word },
        Call::HandOver { coro: word },
        Call::HandOver { coro: word },
    ]
}

/// The calls that may enter the coroutine in register 1.
fn entering(word: u64) -> [Call; 5] {
    [
        Call::Resume { pc: 20, dst: 5, coro: 1, src: 4 },
        Call::ResumeThrow { pc: 21, dst: 5, coro: 1, src: 4 },
        Call::CoroClose { pc: 22, dst: 5, coro: 1, src: 4 },
        Call::IterNext { pc: 23, has: 5, iter: 0, val: 3, src: 1 },
        Call::HostEntry { coro: word, word: 9 },
    ]
}

/// Coroutines in every state but Running: slots 6 to 10, functions 3.
fn all_states(costs: Costs) -> Run {
    let mut run = Run::host(costs, 3).with((0..5).map(|r| new(r, 3)));
    for (r, end) in [(1, YIELD), (2, AWAIT), (3, Call::Finish { kind: Kind::Dyn, word: 77 })] {
        run = run.with([resume(5, r), put(1, 40 + u64::from(r)), end]);
    }
    run.with([Call::ResumeThrow { pc: 3, dst: 5, coro: 4, src: 5 }])
}

/// Words that name no coroutine, and coroutines in every state, handed to
/// every call that takes one.
fn operands(costs: Costs) -> Vec<Sequence> {
    let coros: Vec<u64> = (6..11).map(|s| from_ref(s, 0)).collect();
    let mut others = vec![NIL, 5, from_ref(199, 0), from_ref(0, 9), from_ref(0, 0)];
    others.extend(inline_int(-3));
    others.extend((11..14).map(|s| from_ref(s, 0)));
    let start = || {
        all_states(costs).change(|w| {
            w.setup.hook = Some(0);
            let error = Object::Error { number: 2, func: 1, pc: 3, payload: 0 };
            let iter = Object::Iter { src: C, done: false, key: None };
            for object in [Object::Int(1 << 50), iter, error] {
                w.slots.push(Slot { tag: 0, object });
            }
        })
    };
    let mut none = start();
    for &v in &others {
        // A function object has its coroutine and its hook's frame.
        none = none.with(asked(v)).back();
    }
    let mut all = vec![none.done()];
    all.push(
        start()
            .with(others.iter().flat_map(|&v| [put(1, v)].into_iter().chain(entering(v))))
            .done(),
    );
    for &c in &coros {
        all.push(start().with(asked(c)).done());
        let mut run = start().with([put(1, c), put(4, 33)]);
        for call in entering(c) {
            run = run.with([call]).settle();
        }
        all.push(run.with([Call::StopRun, Call::HostEntry { coro: c, word: 9 }]).done());
    }
    // The running one names itself.
    let own = [put(1, C), put(4, 33)].into_iter().chain(entering(C)).chain(asked(C));
    all.push(start().with([resume(5, 0)]).with(own).done());
    all
}

/// Every kind of result through every continuation and to every driver.
fn results(costs: Costs) -> Vec<Sequence> {
    let mut called = Run::host(costs, 1).with([put(1, 3)]);
    for cont in CONTS {
        for (kind, word) in KINDS {
            let call = Call::FunctionCall { pc: 6, func: 0, cont };
            called = called.with([call, Call::Finish { kind, word }]);
        }
    }
    let (mut exits, mut bodies, mut loops) =
        (Run::host(costs, 1), Run::host(costs, 3), Run::host(costs, 3));
    for (kind, word) in KINDS {
        let end = Call::Finish { kind, word };
        exits = exits.with([end.clone(), Call::HostCall { func: 0 }]);
        // What does not convert leaves its frame.
        bodies = bodies.with([new(0, 0), resume(1, 0), end.clone()]).settle();
        loops = loops.with([new(0, 0), next(2, 1, 3, 0), end]).settle();
    }
    let mut hosted = Run::host(costs, 3).with((0..3).map(|r| new(r, 0))).with([Call::StopRun]);
    for (slot, (kind, word)) in (6..9).zip(KINDS) {
        let entry = Call::HostEntry { coro: from_ref(slot, 0), word: 9 };
        hosted = hosted.with([entry, Call::Finish { kind, word }, Call::TakeOutcome]);
    }
    let idle = Run::host(costs, 1).with([VOID, VOID, Call::Finish { kind: Kind::I64, word: 9 }]);
    [called, exits, bodies, loops, hosted, idle].map(Run::done).into()
}

/// Words and errors that leave frames of every kind, caught below or not.
fn escapes(costs: Costs) -> Vec<Sequence> {
    let fault = |fault, pc| Call::Unwind { fault, word: if fault == 17 { 5 } else { 0 }, pc };
    let mut caught = Run::host(costs, 2);
    for cont in CONTS {
        for f in [17, 1, 8] {
            let call = Call::FunctionCall { pc: 6, func: 0, cont };
            caught = caught.with([call, fault(f, Some(7))]);
        }
    }
    for f in [17, 4] {
        let inner = Call::FunctionCall { pc: 6, func: 1, cont: Cont::Value(0) };
        caught = caught.with([new(0, 0), resume(1, 0), inner, fault(f, None)]);
    }
    let mut edges = Run::host(costs, 2);
    for pc in [0, 99, 100] {
        edges = edges.with([fault(17, Some(pc)), Call::StopRun, Call::HostCall { func: 2 }]);
    }
    // An empty range, two that overlap, one that ends where the next begins.
    let range = |start, end, target, catch| Handler { start, end, target, catch };
    let ranges =
        vec![range(5, 5, 60, 0), range(3, 10, 61, 0), range(0, 12, 62, 1), range(12, 20, 63, 0)];
    let start = |fuel| {
        let mut s = setup(costs);
        s.funcs[0] = Func { nregs: 2, nparams: 0, handlers: ranges.clone() };
        Run::of(World::fresh(s)).with([Call::Grant { fuel }, Call::HostCall { func: 0 }])
    };
    let mut overlap = start(90);
    for pc in [0, 2, 3, 5, 9, 10, 11, 12, 19] {
        overlap = overlap.with([fault(17, Some(pc))]);
    }
    let mut uncaught = Run::host(costs, 1);
    for f in 0..=17 {
        uncaught = uncaught.with([fault(f, Some(7)), Call::StopRun, Call::HostCall { func: 1 }]);
    }
    let spent = start(1).with([CURRENT, fault(17, Some(3))]);
    let banked = start(3).change(|w| {
        (w.fuel, w.bank, w.close_ready) = (0, Some(3), true);
    });
    let paid = banked.with([fault(17, Some(3)), fault(2, None), CURRENT, CURRENT]);
    let no_slot = start(9).change(|w| w.setup.slots = 6).with([fault(2, Some(3))]);
    let idle = Run::host(costs, 1).with([Call::StopRun, fault(17, Some(3)), fault(2, None)]);
    // A coroutine that fails under each driver, two frames up.
    let inner = Call::FunctionCall { pc: 6, func: 2, cont: Cont::Discard };
    let mut driven = Run::host(costs, 3);
    for enter in [resume(1, 0), next(2, 1, 3, 0)] {
        let again = [Call::HostCall { func: 3 }];
        driven = driven
            .with([new(0, 0), Call::MakeIterator { src: C }, put(1, D), enter, inner.clone()])
            .with([fault(2, Some(100))])
            .with(again);
    }
    let hosted = [new(0, 0), Call::StopRun, Call::HostEntry { coro: C, word: 0 }, inner];
    let hosted = Run::host(costs, 3).with(hosted).with([fault(2, Some(101)), Call::TakeOutcome]);
    [caught, edges, overlap, uncaught, spent, paid, no_slot, idle, driven, hosted]
        .map(Run::done)
        .into()
}

/// A coroutine yields and is closed with 9 where it may catch.
fn closing(costs: Costs, func: u32) -> Run {
    Run::host(costs, 3)
        .with([new(0, func), resume(1, 0), YIELD, put(4, 9)])
        .with([Call::CoroClose { pc: 7, dst: 1, coro: 0, src: 4 }])
}

/// Closes: the signal escapes, another word does, it is caught and then the
/// coroutine yields, awaits, returns or fails.
fn closes(costs: Costs) -> Vec<Sequence> {
    let ends = [YIELD, AWAIT, Call::Finish { kind: Kind::Dyn, word: 8 }, raise(9), raise(8)];
    let mut all = vec![closing(costs, 0).with([raise(9)]), closing(costs, 0).with([raise(8)])];
    for end in ends {
        let last = [resume(1, 0), Call::Unwind { fault: 17, word: 9, pc: Some(200) }];
        all.push(closing(costs, 2).with([raise(9), end]).with(last));
    }
    // Closing, entered by a loop and by the host.
    for enter in [next(2, 5, 3, 0), Call::HostEntry { coro: C, word: 4 }] {
        for end in [YIELD, AWAIT, VOID, raise(9), raise(8)] {
            let begin = Run::host(costs, 3).with([new(0, 0), resume(1, 0), YIELD]);
            let begin = begin.change(|w| {
                let c = w.coro_mut(C).expect("just made");
                (c.closing, c.signal) = (true, 9);
            });
            let host = matches!(enter, Call::HostEntry { .. });
            let begin = if host { begin.with([Call::StopRun]) } else { begin };
            all.push(begin.with([enter.clone(), end, Call::TakeOutcome]));
        }
    }
    all.into_iter().map(Run::done).collect()
}

/// Cleanups: what they do, what the queue holds, who pays.
fn cleanups(costs: Costs) -> Vec<Sequence> {
    let two = || {
        let begin = [new(0, 2), new(4, 0), resume(1, 0), YIELD, resume(1, 4), YIELD];
        Run::host(costs, 3).with(begin)
    };
    let handed = || two().with([Call::HandOver { coro: C }, Call::HandOver { coro: D }]);
    let ends = [
        YIELD,
        AWAIT,
        Call::Finish { kind: Kind::Dyn, word: 8 },
        raise(NIL),
        raise(8),
        Call::StopRun,
    ];
    let mut all = Vec::new();
    for end in ends {
        let more = [CURRENT, raise(NIL), CURRENT, CURRENT, Call::Look];
        all.push(handed().with([CURRENT, raise(NIL), end.clone()]).with(more.clone()));
        all.push(handed().with([
            CURRENT,
            Call::Unwind { fault: 17, word: NIL, pc: Some(200) },
            end,
        ]));
    }
    // Handed over while one runs; while one runs nothing else starts.
    let late = [Call::HandOver { coro: C }, CURRENT, Call::HandOver { coro: D }, CURRENT, CURRENT];
    all.push(two().with(late).with([raise(8), CURRENT, raise(NIL)]));
    // A Returned one, one too large, one that has not begun, then one that fits.
    let mixed = |depth: u64, last: bool| {
        let begin = [new(0, 0), new(1, 3), new(2, 0), new(3, 0), resume(5, 1), YIELD];
        let run = Run::host(costs, 3).with(begin).with([resume(5, 3), YIELD]);
        let run = run.with([Call::CoroClose { pc: 7, dst: 5, coro: 0, src: 5 }]);
        run.change(|w| {
            (w.setup.stack, w.setup.depth) = (11, depth);
            for (slot, word) in (6..10).map(|s| (s, from_ref(s, 0))) {
                if last || slot < 9 {
                    w.coro_mut(word).expect("made").finalized = true;
                    w.cleanup.push(word);
                }
            }
            (w.bank, w.fuel, w.close_ready) = (Some(5), 0, true);
        })
        .with([CURRENT, CURRENT, Call::Look])
    };
    all.extend([mixed(8, true), mixed(8, false), mixed(1, true)]);
    // The bank is empty; ready without a queue; a grant while banked; no pc.
    for (bank, ready) in [(0, true), (1, true), (2, true), (3, false)] {
        let run = handed().change(|w| (w.bank, w.fuel, w.close_ready) = (Some(bank), 0, ready));
        all.push(run.with([CURRENT, raise(NIL), CURRENT, Call::Grant { fuel: 4 }, CURRENT]));
    }
    let empty = two().change(|w| (w.bank, w.fuel, w.close_ready) = (Some(4), 0, true));
    all.push(empty.with([Call::Grant { fuel: 3 }, CURRENT, CURRENT]));
    // A charge without a pc starts none: the hook's unit.
    let spawned = handed().change(|w| {
        w.setup.hook = Some(0);
        (w.bank, w.fuel, w.close_ready, w.finalizing) = (None, 1, false, true);
    });
    let spawn = Call::Spawn { pc: 15, dst: 3, callee: 5, argc: 0 };
    let hooks = [put(5, from_ref(0, 0)), spawn, Call::Grant { fuel: 1 }];
    let hooks2 = hooks.clone().into_iter().chain([Call::Grant { fuel: 5 }, hooks[1].clone()]);
    all.push(spawned.with(hooks2).with([VOID, Call::Look]));
    let ready = handed().change(|w| {
        w.setup.hook = Some(0);
        (w.bank, w.fuel, w.close_ready) = (None, 1, true);
    });
    all.push(ready.with(hooks).with([VOID, Call::Look]));
    let banked = handed().change(|w| w.setup.hook = Some(0)).change(|w| {
        (w.bank, w.fuel, w.close_ready) = (None, 0, true);
    });
    all.push(banked.with([CURRENT]));
    all.into_iter().map(Run::done).collect()
}

/// Grants at the top, of fuel and of a bank, and the last unit.
fn grants(costs: Costs) -> Vec<Sequence> {
    let grant = |fuel| Call::Grant { fuel };
    let top = [grant(u64::MAX), grant(0), grant(1), Call::HostCall { func: 1 }, CURRENT, grant(1)];
    let fuel = Run::of(World::fresh(setup(costs))).with(top).with([grant(1), grant(2)]);
    let bank = Run::of(World::fresh(setup(costs))).change(|w| w.bank = Some(5));
    let bank = bank.with([grant(1), grant(u64::MAX - 6), grant(0), grant(1)]);
    let last = [grant(2), Call::HostCall { func: 1 }, CURRENT, CURRENT, CURRENT, Call::Look];
    let last = Run::of(World::fresh(setup(costs))).with(last);
    [fuel, bank, last].map(Run::done).into()
}

/// Every register of every instruction just outside its frame, which does not
/// begin at the stack's bottom; and without a frame.
fn registers(costs: Costs) -> Vec<Sequence> {
    let out = 4;
    let mut wrong = vec![
        Call::CoroNew { pc: 1, dst: out, func: 0, argc: 0 },
        Call::CoroNew { pc: 1, dst: 0, func: 0, argc: 4 },
        Call::CoroNewIndirect { pc: 1, dst: out, callee: 0, argc: 0 },
        Call::CoroNewIndirect { pc: 1, dst: 0, callee: out, argc: 0 },
        Call::CoroNewIndirect { pc: 1, dst: 0, callee: 0, argc: 4 },
        Call::Spawn { pc: 1, dst: out, callee: 0, argc: 0 },
        Call::Spawn { pc: 1, dst: 0, callee: out, argc: 0 },
        Call::Spawn { pc: 1, dst: 0, callee: 0, argc: 4 },
        Call::CoroCurrent { pc: 1, dst: out },
        put(out, 1),
    ];
    let two = |a: u16, b: u16| {
        let (pc, dst) = (1, a);
        [
            Call::Yield { pc, dst, src: b },
            Call::Await { pc, dst, src: b },
            Call::CoroStatus { pc, dst, coro: b },
            Call::CoroKey { pc, dst, coro: b },
            Call::CoroResult { pc, dst, coro: b },
        ]
    };
    let three = |a: u16, b: u16, c: u16| {
        let (pc, dst) = (1, a);
        [
            Call::YieldKv { pc, dst, src: b, key: c },
            Call::Resume { pc, dst, coro: b, src: c },
            Call::ResumeThrow { pc, dst, coro: b, src: c },
            Call::CoroClose { pc, dst, coro: b, src: c },
        ]
    };
    let four = |has, iter, val, src| Call::IterNext { pc: 1, has, iter, val, src };
    wrong.extend([two(out, 0), two(0, out)].concat());
    wrong.extend([three(out, 0, 0), three(0, out, 0), three(0, 0, out)].concat());
    wrong.extend([four(out, 0, 0, 0), four(0, out, 0, 0), four(0, 0, out, 0), four(0, 0, 0, out)]);
    let call = |cont| Call::FunctionCall { pc: 1, func: 0, cont };
    let conts = [Cont::Write(out), Cont::Dyn(out), Cont::Value(out), Cont::Entry, Cont::Coro];
    wrong.extend(conts.map(call));
    let last = 3;
    let mut right = two(last, last).to_vec();
    right.extend(three(last, last, last));
    right.push(four(last, last, last, last));
    right.extend([put(last, 5), Call::CoroNew { pc: 1, dst: last, func: 0, argc: 0 }]);
    right.extend([Call::CoroNew { pc: 1, dst: 0, func: 5, argc: 3 }]);
    right.extend([Cont::Write(last), Cont::Dyn(last), Cont::Value(last)].map(call));
    let framed =
        Run::host(costs, 1).with([Call::FunctionCall { pc: 1, func: 1, cont: Cont::Discard }]);
    let idle = Run::host(costs, 1).with([Call::StopRun]).with(wrong.clone());
    let none = Call::HostCall { func: 4 };
    let bare = Run::of(World::fresh(setup(costs))).with([Call::Grant { fuel: 9 }, none]);
    [framed.with(wrong).with(right), idle, bare.with([put(0, 1), CURRENT, new(0, 0)])]
        .map(Run::done)
        .into()
}

/// Memory, slots and rows at their limits and one below.
fn memory(costs: Costs) -> Vec<Sequence> {
    let k = costs;
    let begin = |memory, slots, rows| {
        let s = Setup { memory, slots, rows, ..setup(costs) };
        Run::of(World::fresh(s)).with([Call::Grant { fuel: 90 }, Call::HostCall { func: 2 }])
    };
    let (first, second) = (16 + k.coro + k.frame, 16 + k.coro_object + k.frame);
    let mut all = Vec::new();
    for memory in [first - 1, first, second - 1, second] {
        all.push(begin(memory, 16, 4).with([new(0, 0), new(0, 0)]));
        all.push(begin(memory, 6, 4).with([new(0, 0)]));
    }
    for grown in [16 + k.frame - 1, 16 + k.frame] {
        let inner = Call::FunctionCall { pc: 6, func: 0, cont: Cont::Discard };
        let run = begin(second + grown, 16, 4).with([new(0, 0), resume(1, 0), inner, YIELD]);
        all.push(run.with([YIELD, resume(1, 0), AWAIT, resume(1, 0), YIELD]));
    }
    let large = |memory, slots| {
        let call = Call::FunctionCall { pc: 6, func: 0, cont: Cont::Dyn(1) };
        let end = Call::Finish { kind: Kind::I64, word: 1 << 47 };
        let error = Call::Unwind { fault: 2, word: 0, pc: Some(7) };
        [begin(memory, slots, 4).with([call, end]), begin(memory, slots, 4).with([error])]
    };
    for memory in [k.int - 1, k.int] {
        all.extend(large(memory, 16));
        all.extend(large(memory, 6));
    }
    let iterator = Call::MakeIterator { src: C };
    for memory in [second + k.iter - 1, second + k.iter] {
        all.push(begin(memory, 16, 4).with([new(0, 0), iterator.clone(), iterator.clone()]));
    }
    all.push(begin(u64::MAX, 7, 4).with([new(0, 0), iterator, new(1, 0)]));
    all.push(begin(u64::MAX, 16, 1).with([new(0, 0), new(1, 0), new(1, 0)]));
    let full = begin(u64::MAX, 16, 4).change(|w| w.used = u64::MAX - 10);
    all.push(full.with([new(0, 0), new(1, 0)]));
    // Rows: the lowest that is free; numbers come round.
    let close = |coro| Call::CoroClose { pc: 7, dst: 0, coro, src: 0 };
    let rows = Run::host(costs, 3).with((1..4).map(|r| new(r, 0))).with([close(2), new(4, 0)]);
    all.push(rows.with([close(1), close(3), new(5, 0), new(5, 0)]));
    all.push(begin(u64::MAX, 16, 4).change(|w| w.seq = u64::MAX).with([new(0, 0), new(0, 0)]));
    all.into_iter().map(Run::done).collect()
}

/// Keys: objects, integers that are greater or not, words that are none.
fn keys(costs: Costs) -> Vec<Sequence> {
    let begin = || Run::host(costs, 3).with([new(0, 1), resume(1, 0)]);
    let again = [resume(1, 0)];
    let keyed = |word| [put(2, word), Call::YieldKv { pc: 9, dst: 0, src: 1, key: 2 }];
    let mut run = begin();
    for k in [5, 3, -9, 6, (1 << 47) - 1] {
        run = run.with(keyed(inline_int(k).expect("inline"))).with(again.clone());
    }
    let run = run.with(keyed(NIL)).with(again.clone()).with([YIELD]).with(again.clone());
    let object = |n: i64| {
        let big = begin().change(|w| w.slots.push(Slot { tag: 3, object: Object::Int(n) }));
        big.with([YIELD]).with(again.clone()).with(keyed(from_ref(7, 3))).with(again.clone())
    };
    let mut all = vec![run.with([YIELD])];
    for n in [1 << 47, -(1 << 50), i64::MAX, i64::MIN] {
        let wrong = keyed(from_ref(7, 2));
        all.push(object(n).with([YIELD]).with(again.clone()).with(wrong).with(again.clone()));
    }
    // The key's object is made, and the words then do not fit.
    let inner = Call::FunctionCall { pc: 6, func: 0, cont: Cont::Discard };
    let stays = begin().with([inner]).change(|w| {
        w.coro_mut(C).expect("made").max_key = (1 << 47) - 1;
        w.setup.memory = w.used + w.setup.costs.int;
    });
    all.push(stays.with([YIELD]));
    // Nobody runs; two run.
    let outside = [YIELD, AWAIT, Call::YieldKv { pc: 9, dst: 0, src: 1, key: 2 }];
    all.push(Run::host(costs, 1).with(outside));
    all.push(begin().with([new(0, 0), resume(1, 0), YIELD, resume(1, 0), YIELD, YIELD]));
    all.into_iter().map(Run::done).collect()
}

/// Limits of depth and stack, tags, pcs that come round, arguments.
fn limits(costs: Costs) -> Vec<Sequence> {
    let begin = |depth, stack| {
        let s = Setup { depth, stack, hook: Some(0), ..setup(costs) };
        Run::of(World::fresh(s)).with([Call::Grant { fuel: 9 }, Call::HostCall { func: 1 }])
    };
    let inner = Call::FunctionCall { pc: 6, func: 0, cont: Cont::Discard };
    let spawn = Call::Spawn { pc: 15, dst: 1, callee: 2, argc: 0 };
    let mut all = Vec::new();
    for (depth, stack) in [(1, 40), (2, 40), (3, 40), (8, 5), (8, 6), (8, 7), (8, 3), (8, 4)] {
        let run = begin(depth, stack).with([new(0, 0), inner.clone(), Call::StopRun]);
        let run = run.with([Call::HostCall { func: 1 }, put(2, from_ref(0, 0)), put(0, C)]);
        let run = run.with([spawn.clone()]).back();
        all.push(run.with([resume(1, 0), inner.clone(), YIELD]));
    }
    let tagged = begin(8, 40).with([new(0, 0), resume(1, 0), YIELD]).change(|w| {
        w.slots[6].tag = 7;
    });
    let seven = from_ref(6, 7);
    all.push(tagged.with([resume(1, 0), put(0, seven), resume(1, 0), CURRENT, YIELD]));
    let top = u32::MAX;
    let wide = |dst, coro| Call::Resume { pc: top, dst, coro, src: dst };
    let last = Call::Yield { pc: top, dst: 1, src: 0 };
    let round = begin(8, 40).with([new(0, 0), wide(1, 0), last, wide(1, 0)]);
    let call = Call::FunctionCall { pc: top, func: 0, cont: Cont::Write(0) };
    all.push(round.with([call, Call::Finish { kind: Kind::Dyn, word: 4 }, VOID]));
    let words = [put(0, 11), put(1, 12), put(2, 13), put(3, 14)];
    let made = |func, argc| Call::CoroNew { pc: 1, dst: 0, func, argc };
    let passed = [made(0, 1), made(0, 2), made(0, 3), made(4, 0)];
    all.push(begin(8, 40).with(words.clone()).with(passed).with([resume(1, 0), Call::Look]));
    let indirect = |argc| Call::CoroNewIndirect { pc: 1, dst: 0, callee: 3, argc };
    let words = words.into_iter().chain([put(3, from_ref(5, 0))]);
    all.push(begin(8, 40).with(words).with([indirect(1), indirect(2), indirect(3), CURRENT]));
    // Two frames and two words saved at one height and restored at another, with a closure.
    let deep = begin(8, 40).with([put(3, from_ref(0, 0)), indirect(0), resume(1, 0)]);
    let deep = deep.with([put(0, 21), Call::FunctionCall { pc: 6, func: 1, cont: Cont::Dyn(1) }]);
    let deep = deep.with([put(2, 22), Call::Yield { pc: 30, dst: 3, src: 2 }]);
    let deep = deep.with([inner, put(0, C), put(1, 23), resume(1, 0), Call::Look]);
    all.push(deep.with([Call::Finish { kind: Kind::I64, word: 6 }, Call::Look, YIELD, VOID]));
    all.into_iter().map(Run::done).collect()
}

/// Stop run in the middle of everything.
fn stops(costs: Costs) -> Vec<Sequence> {
    let two = [new(0, 1), resume(1, 0), new(0, 0), resume(1, 0)];
    let run = Run::host(costs, 3).with(two).with([Call::StopRun, Call::StopRun]);
    let hosted = Run::host(costs, 3).with([new(0, 0), Call::StopRun]);
    let hosted = hosted.with([Call::HostEntry { coro: C, word: 0 }, YIELD, Call::StopRun]);
    let hosted = hosted.with([Call::TakeOutcome, Call::HostEntry { coro: C, word: 6 }, AWAIT]);
    let hosted = hosted.with([Call::TakeOutcome, Call::TakeOutcome, Call::HostCall { func: 3 }]);
    let current = hosted.change(|w| {
        assert_eq!(w.coro(C).map(|c| c.state), Some(State::Awaiting));
        w.setup.rows = 2;
    });
    [run, current.with([put(0, C), resume(1, 0), Call::Look, YIELD, CURRENT])].map(Run::done).into()
}

/// Entries that the limits just hold, or just do not, by every driver.
fn refusals(costs: Costs) -> Vec<Sequence> {
    let asleep = || Run::host(costs, 3).with([new(0, 0), resume(1, 0), YIELD, put(1, C)]);
    let mut all = Vec::new();
    for (depth, stack) in [(1, 40), (2, 40), (8, 7), (8, 8)] {
        let limit = |w: &mut World| (w.setup.depth, w.setup.stack) = (depth, stack);
        for call in entering(C).into_iter().take(4) {
            all.push(asleep().change(limit).with([call]).settle());
        }
        let fresh = Run::host(costs, 3).with([new(1, 0)]).change(limit);
        let fresh = fresh.with(entering(C).into_iter().take(1)).settle();
        all.push(fresh.with(entering(C).into_iter().skip(3).take(1)).settle());
    }
    for (depth, stack) in [(1, 1), (1, 2)] {
        let host = Call::HostEntry { coro: C, word: 9 };
        let run = asleep().with([Call::StopRun]);
        let run = run.change(|w| (w.setup.depth, w.setup.stack) = (depth, stack));
        all.push(run.with([host, Call::HostCall { func: 0 }, Call::Look]).settle());
    }
    all.into_iter().map(Run::done).collect()
}

/// Each call that may enter, on a coroutine in each state.
fn entries(costs: Costs) -> Vec<Sequence> {
    let mut all = Vec::new();
    for slot in 6..11 {
        let c = from_ref(slot, 0);
        for call in entering(c) {
            let run = all_states(costs).change(|_| ()).with([put(1, c), put(4, 33)]);
            let host = matches!(call, Call::HostEntry { .. });
            let run = if host { run.with([Call::StopRun]) } else { run };
            all.push(run.with([call]).settle().done());
        }
    }
    all
}

/// One register for `has` and `val`; queue words taken off by an instruction
/// of each Step.
fn steps(costs: Costs) -> Vec<Sequence> {
    let same = [new(0, 0), Call::MakeIterator { src: C }, put(1, D), next(2, 1, 2, 0), put(1, 7)];
    let same = Run::host(costs, 3).with(same).with([YIELD, next(2, 1, 2, 0), VOID, Call::Look]);
    // A queue of one Returned, and a bank.
    let queued = |run: Run, slot| {
        run.change(|w| {
            let word = from_ref(slot, 0);
            w.coro_mut(word).expect("made").finalized = true;
            w.cleanup = vec![word];
            (w.bank, w.fuel, w.close_ready) = (Some(5), 0, true);
            w.setup.hook = Some(0);
        })
    };
    let mut all = vec![same];
    let asleep = [1, 2].map(|coro| {
        [
            Call::Resume { pc: 20, dst: 5, coro, src: 5 },
            Call::ResumeThrow { pc: 21, dst: 5, coro, src: 5 },
            Call::CoroClose { pc: 22, dst: 5, coro, src: 5 },
            Call::Resume { pc: 23, dst: 5, coro: 3, src: 5 },
            Call::CoroStatus { pc: 24, dst: 5, coro },
        ]
    });
    for call in asleep.into_iter().flatten() {
        all.push(queued(all_states(costs), 9).with([call, CURRENT]).settle());
    }
    // Spawn's own unit is the second; its coroutine is made.
    for bank in [1, 2] {
        let run = queued(all_states(costs), 9).change(|w| w.bank = Some(bank));
        let spawn = Call::Spawn { pc: 15, dst: 4, callee: 5, argc: 0 };
        let run = run.change(|w| w.stack[5] = from_ref(0, 0));
        all.push(run.with([spawn, Call::Grant { fuel: 2 }, CURRENT]));
    }
    // Yields of a closing one, and in a loop, with words taken off.
    let inside = |closing| {
        let run = all_states(costs).with([next(5, 4, 3, 0)]);
        queued(run, 9).change(move |w| w.coro_mut(C).expect("runs").closing = closing)
    };
    all.extend([
        inside(true).with([YIELD]),
        inside(false).with([YIELD]),
        inside(false).with([AWAIT]),
    ]);
    all.into_iter().map(Run::done).collect()
}

/// Queues keep their order, and each its own marks; stop run clears an
/// outcome; Spawn without a hook makes nothing.
fn queues(costs: Costs) -> Vec<Sequence> {
    let task = |slot| Call::SpawnTask { word: from_ref(slot, 0) };
    let hand = |slot| Call::HandOver { coro: from_ref(slot, 0) };
    let both = [task(8), task(6), task(7), task(8), task(9), hand(8), hand(7), hand(8)];
    let both = all_states(costs).change(|_| ()).with(both).with([CURRENT, YIELD, CURRENT]);
    let entry = Call::HostEntry { coro: C, word: 6 };
    let stopped = Run::host(costs, 3).with([new(0, 0), Call::StopRun, entry.clone(), YIELD]);
    let stopped = stopped.with([Call::StopRun, Call::TakeOutcome, entry, AWAIT, Call::StopRun]);
    let spawn = Call::Spawn { pc: 15, dst: 0, callee: 2, argc: 0 };
    let hookless = Run::host(costs, 1).with([put(2, from_ref(0, 0)), spawn]);
    [both, stopped, hookless].map(Run::done).into()
}

/// A loop that has ended: what its source register holds is looked at before
/// the iterator's mark. Another iterator over the one that has returned.
fn ended(costs: Costs) -> Vec<Sequence> {
    let again = next(2, 1, 3, 4);
    let run = Run::host(costs, 3).with([new(0, 0), Call::MakeIterator { src: C }, put(1, D)]);
    let run = run.with([next(2, 1, 3, 0), VOID, next(2, 1, 3, 0), again.clone()]);
    let run = run.with([put(4, 7), again.clone(), put(4, from_ref(0, 0)), again]);
    let other = [Call::MakeIterator { src: C }, put(5, from_ref(8, 0)), next(2, 5, 3, 0)];
    vec![run.with(other).done()]
}

/// All of them.
pub(super) fn all(costs: Costs) -> Vec<Sequence> {
    let parts = [
        operands, results, escapes, closes, cleanups, grants, registers, memory, keys, limits,
        stops, refusals, entries, steps, queues, ended,
    ];
    parts.iter().flat_map(|part| part(costs)).collect()
}
