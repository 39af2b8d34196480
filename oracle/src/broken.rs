//! States at the edge of each rule of "Sound": broken there and nowhere else,
//! or kept by a hair. All are changes of one sound state.

use crate::call::Call;
use crate::engine::Engine;
use crate::plain::Plain;
use crate::sound::Broken;
use crate::word::from_ref;
use crate::world::{Cont, Coro, Costs, Driver, Frame, Func, Handler, Object, Setup, State, World};

const SLEEPER: u32 = 2;
const RUNNER: u32 = 3;
const ENDED: u32 = 4;
const FRESH: u32 = 5;

/// A change of `base`, and the rule it breaks or keeps.
pub type Change = (Broken, fn(&mut World));

/// Slots: two function objects, a sleeper of two frames, a runner with a call
/// above it, one that has ended and one not yet begun. Registers of the host's
/// frame hold the first three.
#[must_use]
pub fn base() -> World {
    let handler = Handler { start: 0, end: 9, target: 1, catch: 3 };
    let setup = Setup {
        depth: 8,
        stack: 40,
        rows: 4,
        slots: 9,
        memory: 10_000,
        costs: Costs { frame: 32, coro: 104, coro_object: 160, int: 56, error: 56, iter: 112 },
        hook: Some(1),
        funcs: vec![
            Func { nregs: 4, nparams: 1, handlers: vec![handler] },
            Func { nregs: 2, nparams: 0, handlers: vec![] },
        ],
    };
    let new = |dst| Call::CoroNew { pc: 0, dst, func: 0, argc: 0 };
    let resume = |coro| Call::Resume { pc: 1, dst: 3, coro, src: 3 };
    let inner = Call::FunctionCall { pc: 2, func: 1, cont: Cont::Write(2) };
    let calls = [
        Call::Grant { fuel: 100 },
        Call::HostCall { func: 0 },
        new(0),
        resume(0),
        inner.clone(),
        Call::Yield { pc: 3, dst: 1, src: 0 },
        new(1),
        new(2),
        Call::CoroClose { pc: 4, dst: 3, coro: 2, src: 3 },
        new(3),
        Call::SpawnTask { word: from_ref(SLEEPER, 0) },
        resume(1),
        inner,
        Call::HandOver { coro: from_ref(SLEEPER, 0) },
    ];
    let mut engine = Plain::default();
    engine.load(&World::fresh(setup));
    for c in &calls {
        assert_eq!(engine.call(c).number, 0, "{c:?}");
    }
    engine.world()
}

fn coro(w: &mut World, slot: u32) -> &mut Coro {
    w.coro_mut(from_ref(slot, 0)).expect("a coroutine")
}

fn iter(w: &mut World, has: u16, val: u16) {
    w.chain[0].driver = Driver::Iter { has, val, iter: 0 };
}

fn error(w: &mut World, number: u8) {
    w.slots[0].object = Object::Error { number, func: 0, pc: 0, payload: 0 };
}

/// A second active coroutine: the one that has not begun, in the top frame.
fn second(w: &mut World) {
    let c = coro(w, FRESH);
    c.state = State::Running;
    c.regs.clear();
    c.frames.clear();
    w.frames[2].cont = Cont::Coro;
    let mut a = w.chain[0];
    (a.coro, a.floor) = (from_ref(FRESH, 0), 2);
    w.chain.push(a);
}

/// A body of twelve registers over a stack that has room for ten.
fn wide(w: &mut World, words: usize) {
    w.setup.stack = 10;
    w.setup.funcs[1].nregs = 12;
    coro(w, FRESH).regs = vec![0; words];
}

/// Each breaks one rule, the one that it names.
pub const BROKEN: &[Change] = &[
    // the closing list
    ("depth 1-128", |w| w.setup.depth = 0),
    ("depth 1-128", |w| w.setup.depth = 129),
    ("stack 1-1,024 words", |w| w.setup.stack = 1025),
    ("rows 1-64", |w| w.setup.rows = 65),
    ("slots 1-4,096", |w| w.setup.slots = 4097),
    ("functions 1-32", |w| w.setup.funcs.clear()),
    ("slots not fewer than the functions", |w| w.setup.slots = 1),
    ("costs 0-65,536", |w| w.setup.costs.int = 65_537),
    ("registers 0-256", |w| w.setup.funcs[1].nregs = 257),
    ("parameters at most registers", |w| w.setup.funcs[1].nparams = 3),
    ("at most eight handlers", |w| {
        let h = w.setup.funcs[0].handlers[0];
        w.setup.funcs[0].handlers = vec![h; 9];
    }),
    ("a catch register of its own frame", |w| w.setup.funcs[0].handlers[0].catch = 4),
    ("a pc is below 2^32", |w| w.setup.funcs[0].handlers[0].end = 1 << 32),
    ("hook: a function with a register", |w| w.setup.hook = Some(2)),
    // sizes
    ("frames within the depth limit", |w| w.setup.depth = 2),
    ("stack within its limit", |w| w.setup.stack = 9),
    ("slots within their limit", |w| w.setup.slots = 5),
    ("memory within its limit", |w| w.setup.memory = w.used - 1),
    // frames
    ("the stack is empty without a frame", |w| {
        w.frames.clear();
        w.chain.clear();
        coro(w, RUNNER).state = State::Returned;
        coro(w, RUNNER).row = 0;
    }),
    ("frame bases begin at 0", |w| w.frames[0].base = 1),
    ("frame bases begin at 0", |w| {
        coro(w, FRESH).frames[0].base = 1;
        coro(w, FRESH).regs.push(0);
    }),
    ("frame bases never fall and stay within", |w| {
        let base = w.stack.len() + 1;
        w.frames.push(Frame { func: 1, pc: 0, base, closure: 0, cont: Cont::Discard });
    }),
    ("frame bases never fall and stay within", |w| {
        let f = Frame { func: 1, pc: 0, base: 8, closure: 0, cont: Cont::Discard };
        w.frames.push(Frame { base: 9, ..f });
        w.frames.push(f);
    }),
    ("frame bases never fall and stay within", |w| coro(w, SLEEPER).frames[1].base = 7),
    ("every frame names a function", |w| w.frames[2].func = 2),
    ("every frame names a function", |w| coro(w, SLEEPER).frames[1].func = 2),
    ("catch registers lie in their frame", |w| w.frames[2].base = 7),
    ("catch registers lie in their frame", |w| w.frames[2].func = 0),
    ("catch registers lie in their frame", |w| coro(w, SLEEPER).frames[1].base = 3),
    ("catch registers lie in their frame", |w| coro(w, SLEEPER).frames[1].func = 0),
    ("continuation registers lie in their frame", |w| w.frames[2].cont = Cont::Write(4)),
    ("continuation registers lie in their frame", |w| w.frames[2].cont = Cont::Dyn(4)),
    ("continuation registers lie in their frame", |w| w.frames[2].cont = Cont::Value(4)),
    ("continuation registers lie in their frame", |w| w.frames[0].cont = Cont::Write(0)),
    ("continuation registers lie in their frame", |w| {
        coro(w, SLEEPER).frames[1].cont = Cont::Value(4);
    }),
    ("Entry only at the bottom", |w| w.frames[2].cont = Cont::Entry),
    // the chain
    ("active floors rise", |w| {
        second(w);
        w.chain.swap(0, 1);
    }),
    ("each floor at a Coro frame", |w| w.chain[0].floor = 2),
    ("an active one is a Running coroutine", |w| w.chain[0].coro = from_ref(SLEEPER, 0)),
    ("an active one is a Running coroutine", |w| {
        w.chain[0].coro = from_ref(0, 0);
        coro(w, RUNNER).state = State::Failed;
        coro(w, RUNNER).row = 0;
    }),
    ("a Running coroutine of its own", |w| {
        second(w);
        w.chain[1].coro = from_ref(RUNNER, 0);
        coro(w, FRESH).state = State::Failed;
        coro(w, FRESH).row = 0;
    }),
    ("driver registers lie in their frame", |w| w.chain[0].driver = Driver::Resume(4)),
    ("driver registers lie in their frame", |w| iter(w, 0, 4)),
    ("driver registers lie in their frame", |w| iter(w, 4, 0)),
    ("no other frame is Coro", |w| w.frames[2].cont = Cont::Coro),
    ("no other coroutine Running", |w| {
        let c = coro(w, SLEEPER);
        c.state = State::Running;
        c.regs.clear();
        c.frames.clear();
    }),
    // what is saved
    ("saved words within the row", |w| coro(w, SLEEPER).regs = vec![0; 41]),
    ("saved words within the row", |w| wide(w, 13)),
    ("saved frames within the row", |w| {
        let f = coro(w, SLEEPER).frames[1];
        let c = coro(w, SLEEPER);
        c.frames.resize(9, f);
    }),
    ("largest saved words within the row", |w| coro(w, SLEEPER).max_regs = 41),
    ("largest saved frames within the row", |w| coro(w, SLEEPER).max_frames = 9),
    ("a Running or finished one has nothing saved", |w| coro(w, RUNNER).regs.push(0)),
    ("a Running or finished one has nothing saved", |w| coro(w, ENDED).regs.push(0)),
    ("a Running or finished one has nothing saved", |w| {
        let f = coro(w, FRESH).frames[0];
        coro(w, ENDED).frames.push(f);
    }),
    ("at least one saved frame", |w| {
        let c = coro(w, FRESH);
        c.frames.clear();
        c.regs.clear();
    }),
    ("the first saved frame is Coro", |w| coro(w, SLEEPER).frames[0].cont = Cont::Discard),
    ("the rest neither Coro nor Entry", |w| coro(w, SLEEPER).frames[1].cont = Cont::Coro),
    ("the rest neither Coro nor Entry", |w| coro(w, SLEEPER).frames[1].cont = Cont::Entry),
    ("the waiting register lies in its frame", |w| coro(w, SLEEPER).resume_dst = 2),
    ("the waiting register lies in its frame", |w| {
        coro(w, SLEEPER).state = State::Awaiting;
        coro(w, SLEEPER).resume_dst = 2;
    }),
    ("a row there is", |w| coro(w, SLEEPER).row = 4),
    ("one row per unfinished coroutine, its own", |w| coro(w, SLEEPER).row = 1),
    // queues, fuel, unused words, codes
    ("queues hold coroutines", |w| w.ready.push(0)),
    ("queues hold coroutines", |w| w.cleanup.push(from_ref(0, 0))),
    ("each not twice in one queue", |w| w.ready.push(from_ref(SLEEPER, 0))),
    ("each not twice in one queue", |w| w.cleanup.push(from_ref(SLEEPER, 0))),
    ("the ready queue only tasks", |w| w.ready.push(from_ref(ENDED, 0))),
    ("the cleanup queue only finalized ones", |w| w.cleanup.push(from_ref(ENDED, 0))),
    ("fuel 0 while banked", |w| (w.bank, w.fuel) = (Some(1), 1)),
    ("a finished one has row 0", |w| coro(w, ENDED).row = 2),
    ("an error holds a fault 1 to 8", |w| error(w, 9)),
    ("an error holds a fault 1 to 8", |w| error(w, 0)),
    ("an empty slot is 0", |w| {
        w.slots[0].object = Object::Empty;
        w.slots[0].tag = 1;
    }),
    // one more is active than there are Coro frames, below the others
    ("each floor at a Coro frame", |w| {
        let cont = w.frames[2].cont;
        second(w);
        w.frames[2].cont = cont;
        let mut a = w.chain.pop().expect("just pushed");
        (a.floor, a.driver) = (0, Driver::Host);
        w.chain.insert(0, a);
    }),
];

/// Each keeps every rule: at the edge of one, or where there is none.
pub const KEPT: &[Change] = &[
    ("nothing changed", |_| {}),
    ("the largest limits", |w| {
        let s = &mut w.setup;
        (s.depth, s.stack, s.rows, s.slots, s.memory) = (128, 1024, 64, 4096, u64::MAX);
    }),
    ("the least limits", |w| {
        let s = &mut w.setup;
        (s.depth, s.stack, s.rows, s.slots, s.memory) = (3, 10, 3, 6, w.used);
        coro(w, FRESH).row = 2;
    }),
    ("hook: none", |w| w.setup.hook = None),
    ("eight handlers", |w| {
        let h = w.setup.funcs[0].handlers[0];
        w.setup.funcs[0].handlers = vec![h; 8];
    }),
    ("a frame without registers at the stack's end", |w| {
        let base = w.stack.len();
        w.frames.push(Frame { func: 1, pc: 0, base, closure: 0, cont: Cont::Discard });
    }),
    ("an extent that is not the register count", |w| w.stack.push(5)),
    ("a bottom Discard", |w| w.frames[0].cont = Cont::Discard),
    ("no frame and no stack", |w| {
        w.frames.clear();
        w.chain.clear();
        w.stack.clear();
        coro(w, RUNNER).state = State::Returned;
        coro(w, RUNNER).row = 0;
    }),
    ("the last register for a continuation", |w| w.frames[2].cont = Cont::Write(3)),
    ("the last register for a continuation", |w| w.frames[2].cont = Cont::Dyn(3)),
    ("the last register for a continuation", |w| w.frames[2].cont = Cont::Value(3)),
    ("the last register for a driver", |w| w.chain[0].driver = Driver::Resume(3)),
    ("the last register for a driver", |w| iter(w, 3, 3)),
    ("a driver that names none", |w| w.chain[0].driver = Driver::Host),
    ("a driver that names none", |w| w.chain[0].driver = Driver::Finalize),
    ("two active ones", second),
    ("a row of saved words", |w| {
        coro(w, SLEEPER).regs = vec![0; 40];
        coro(w, SLEEPER).max_regs = 40;
    }),
    ("saved words as many as the widest function's", |w| {
        wide(w, 12);
        coro(w, FRESH).max_regs = 12;
    }),
    ("a row of saved frames", |w| {
        let f = coro(w, SLEEPER).frames[1];
        let f = Frame { cont: Cont::Discard, base: 4, ..f };
        let c = coro(w, SLEEPER);
        c.frames.resize(8, f);
        c.max_frames = 8;
    }),
    ("the last register waits", |w| coro(w, SLEEPER).resume_dst = 1),
    ("the last register awaits", |w| {
        coro(w, SLEEPER).state = State::Awaiting;
        coro(w, SLEEPER).resume_dst = 1;
    }),
    ("a Created one's waiting register", |w| {
        let c = coro(w, SLEEPER);
        (c.state, c.resume_dst) = (State::Created, 9);
    }),
    ("the last row", |w| {
        w.setup.rows = 3;
        coro(w, FRESH).row = 2;
    }),
    ("a finished coroutine in a queue", |w| {
        coro(w, ENDED).finalized = true;
        w.cleanup.push(from_ref(ENDED, 0));
    }),
    ("one coroutine in both queues", |w| {
        assert_eq!(w.ready, w.cleanup);
    }),
    ("two in one queue", |w| {
        coro(w, ENDED).task = true;
        w.ready.push(from_ref(ENDED, 0));
    }),
    ("fuel 0 while banked", |w| (w.bank, w.fuel) = (Some(1), 0)),
    ("fuel without a bank", |w| (w.bank, w.fuel) = (None, 1)),
    ("largest sizes below the present ones", |w| coro(w, SLEEPER).max_regs = 0),
    ("a tag in a filled slot", |w| w.slots[0].tag = 7),
    ("the tag of a running coroutine", |w| {
        w.slots[RUNNER as usize].tag = 7;
        w.chain[0].coro = from_ref(RUNNER, 7);
    }),
    ("an empty slot below the count", |w| w.slots[0].object = Object::Empty),
    ("an error 1", |w| error(w, 1)),
    ("an error 8", |w| error(w, 8)),
    ("ready without a queue", |w| {
        w.cleanup.clear();
        w.close_ready = true;
    }),
    ("finalizing without a cleanup", |w| w.finalizing = true),
    ("a function object that names no function", |w| w.slots[0].object = Object::Func(7)),
];

/// A changed base.
#[must_use]
pub fn changed((_, change): Change) -> World {
    let mut w = base();
    change(&mut w);
    w
}
