//! 01's P1 to P8 (depth limit 4, stack limit 10), as calls from a
//! set-up or, where 01 names a state, from that state.

use crate::call::{Answer, Call, Case, Kind};
use crate::engine::Engine;
use crate::sound::sound;
use crate::word;
use crate::world::{Costs, Func, Object, Setup, State, World};

/// Calls, and whether the answers and the state after are 01's.
pub struct Example {
    pub name: &'static str,
    start: World,
    calls: Vec<Call>,
    holds: fn(&[Answer], &World) -> bool,
}

impl Example {
    pub fn run(&self, engine: &mut dyn Engine) -> Result<(), String> {
        sound(&self.start)?;
        engine.load(&self.start);
        let answers: Vec<Answer> = self.calls.iter().map(|c| engine.call(c)).collect();
        (self.holds)(&answers, &engine.world())
            .then_some(())
            .ok_or_else(|| format!("{}: {answers:?}", self.name))
    }
}

fn number(answers: &[Answer]) -> u8 {
    answers.last().expect("at least one call").number
}

/// Function 0 has two registers, function 1 four.
fn fresh(costs: Costs) -> World {
    let func = |nregs| Func { nregs, ..Func::default() };
    World::fresh(Setup {
        depth: 4,
        stack: 10,
        rows: 4,
        slots: 16,
        memory: u64::MAX,
        costs,
        hook: None,
        funcs: vec![func(2), func(4)],
    })
}

const NEW: Call = Call::CoroNew { pc: 0, dst: 0, func: 0, argc: 0 };
const RESUME: Call = Call::Resume { pc: 1, dst: 1, coro: 0, src: 1 };
const YIELD: Call = Call::Yield { pc: 2, dst: 0, src: 1 };

fn call(func: u32) -> Call {
    let cont = crate::world::Cont::Discard;
    Call::FunctionCall { pc: 3, func, cont }
}

/// A coroutine of function 0 in register 0 of the host's frame.
fn begin() -> Vec<Call> {
    vec![Call::Grant { fuel: 1000 }, Call::HostCall { func: 0 }, NEW]
}

/// The coroutine suspended with two frames and four words.
fn two_frames() -> Vec<Call> {
    let mut calls = begin();
    calls.extend([RESUME, call(0), YIELD]);
    calls
}

/// The coroutine's word, then into the register of a new frame.
fn deeper(calls: &mut Vec<Call>, func: u32) {
    let coro = word::from_ref(2, 0);
    calls.extend([call(func), Call::PutWord { reg: 0, word: coro }]);
}

/// A state in which the coroutine runs with the given largest key.
fn running(costs: Costs, max_key: i64, closing: bool) -> World {
    let mut engine = crate::plain::Plain::default();
    engine.load(&fresh(costs));
    for c in begin().iter().chain([&RESUME]) {
        engine.call(c);
    }
    let mut w = engine.world();
    let c = w.coro_mut(word::from_ref(2, 0)).expect("just made");
    (c.max_key, c.closing) = (max_key, closing);
    w
}

fn key(w: &World) -> Option<i64> {
    let c = w.coro(word::from_ref(2, 0))?;
    word::inline_value(c.key)
}

fn keyed(i: i64) -> [Call; 2] {
    let word = word::inline_int(i).expect("inline");
    [Call::PutWord { reg: 0, word }, Call::YieldKv { pc: 4, dst: 1, src: 1, key: 0 }]
}

/// All of them.
#[must_use]
pub fn all(costs: Costs) -> Vec<Example> {
    let start = fresh(costs);
    let example =
        |name, start: &World, calls, holds| Example { name, start: start.clone(), calls, holds };
    let (mut two, mut three) = (two_frames(), two_frames());
    deeper(&mut two, 0);
    deeper(&mut three, 0);
    deeper(&mut three, 0);
    two.push(RESUME);
    three.push(RESUME);
    let (mut six, mut seven) = (two_frames(), two_frames());
    deeper(&mut six, 1);
    six.push(RESUME);
    // A third function, of five registers, for a stack of seven.
    let mut other = start.clone();
    other.setup.funcs.push(Func { nregs: 5, ..Func::default() });
    other = World::fresh(other.setup);
    let coro = word::from_ref(3, 0);
    seven.extend([call(2), Call::PutWord { reg: 0, word: coro }, RESUME]);
    let mut first = begin();
    first.extend([RESUME, YIELD]);
    let (mut after5, mut after9) = (begin(), begin());
    after5.push(RESUME);
    after5.extend(keyed(5));
    after5.extend([RESUME, YIELD]);
    after9.push(RESUME);
    after9.extend(keyed(-9));
    after9.extend([RESUME, YIELD]);
    let minus = Call::Finish { kind: Kind::I64, word: u64::MAX };
    let large = Call::Finish { kind: Kind::I64, word: 1 << 47 };
    let awaits = Call::Await { pc: 5, dst: 0, src: 1 };
    vec![
        example("P1: frames 2 + saved 2 enters", &start, two, |a, w| {
            number(a) == 0 && w.frames.len() == 4
        }),
        example("P1: frames 3 + saved 2 is 4", &start, three, |a, _| number(a) == 4),
        example("P2: stack 6 + saved 4 enters", &start, six, |a, w| {
            number(a) == 0 && w.stack.len() == 10
        }),
        example("P2: stack 7 + saved 4 is 4", &other, seven, |a, w| {
            number(a) == 4 && w.stack.len() == 7
        }),
        example("P3: first key 0", &start, first, |a, w| number(a) == 0 && key(w) == Some(0)),
        example("P3: after keyed 5, 6", &start, after5, |_, w| key(w) == Some(6)),
        example("P3: after keyed -9 alone, 0", &start, after9, |_, w| key(w) == Some(0)),
        example(
            "P4: largest 2^63 - 1: 7",
            &running(costs, i64::MAX, false),
            vec![YIELD],
            |a, w| number(a) == 7 && !w.chain.is_empty(),
        ),
        example("P5: -1 is FFFEFFFFFFFFFFFF", &running(costs, -1, false), vec![minus], |_, w| {
            w.stack[1] == 0xFFFE_FFFF_FFFF_FFFF
        }),
        example("P6: 2^47 is an object", &running(costs, -1, false), vec![large], |_, w| {
            w.get(w.stack[1]) == Some(&Object::Int(1 << 47))
        }),
        example("P7: closing, yield 6", &running(costs, -1, true), vec![YIELD], |a, _| {
            number(a) == 6
        }),
        example("P7: await stays closing", &running(costs, -1, true), vec![awaits], |a, w| {
            let c = w.coro(word::from_ref(2, 0));
            number(a) == 0 && c.is_some_and(|c| c.closing && c.state == State::Awaiting)
        }),
        example(
            "P8: fuel 2, no bank, one word taken off",
            &banked(costs),
            vec![Call::CoroCurrent { pc: 0, dst: 1 }],
            |a, w| {
                let last = &a[0];
                (last.number, last.taken, last.case) == (0, 1, Case::Plain)
                    && (w.fuel, w.bank) == (2, None)
            },
        ),
    ]
}

/// A sound state that no run leaves, and a resume and a yield from it: a
/// Yielded coroutine with two saved words whose largest sizes are 0, and
/// memory at its limit.
#[must_use]
pub fn sizes_below(costs: Costs) -> (World, [Call; 2]) {
    let mut engine = crate::plain::Plain::default();
    engine.load(&fresh(costs));
    for c in begin().iter().chain([&RESUME, &YIELD]) {
        engine.call(c);
    }
    let mut w = engine.world();
    w.setup.memory = w.used;
    let c = w.coro_mut(word::from_ref(2, 0)).expect("just made");
    (c.max_regs, c.max_frames) = (0, 0);
    (w, [RESUME, YIELD])
}

/// Fuel 0, bank 3, ready, and a queue of one Returned.
fn banked(costs: Costs) -> World {
    let mut engine = crate::plain::Plain::default();
    engine.load(&fresh(costs));
    let coro = word::from_ref(2, 0);
    let close = Call::CoroClose { pc: 0, dst: 1, coro: 0, src: 1 };
    for c in begin().iter().chain([&close]) {
        engine.call(c);
    }
    let mut w = engine.world();
    w.coro_mut(coro).expect("just made").finalized = true;
    w.cleanup = vec![coro];
    (w.fuel, w.bank, w.close_ready) = (0, Some(3), true);
    w
}
