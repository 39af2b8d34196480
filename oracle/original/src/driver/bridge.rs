//! Between a state of plain values and the original's own types.

use bytecode_lang::{
    Callee, CoroState, ErrorKind, FuncId, Handler, Hook, IntTy, Label, Module, Reg, ValType,
};
use oracle::word;
use oracle::world::{self, Coro, Costs, Setup, Slot, State, World};

use crate::heap::{Callable, CoroObj, ErrorObj, FuncObj, Heap, IterObj, Object, FRAME_BYTES};
use crate::machine::{Active, Cont, Driver, Frame, Machine, Stop, Wake};
use crate::map::Cursor;
use crate::program::{FuncInfo, Program, HOOKS};

/// 01's fault numbers 1 to 10, in order.
pub(crate) const KINDS: [ErrorKind; 10] = [
    ErrorKind::NullReference,
    ErrorKind::TypeError,
    ErrorKind::InvalidCoroState,
    ErrorKind::StackOverflow,
    ErrorKind::CannotSuspend,
    ErrorKind::CloseIgnored,
    ErrorKind::ArithOverflow,
    ErrorKind::NoScheduler,
    ErrorKind::OutOfMemory,
    ErrorKind::OutOfFuel,
];

pub(crate) fn number_of(kind: ErrorKind) -> u8 {
    let at = KINDS.iter().position(|&k| k == kind);
    at.expect("no other kind is raised by the coroutine code") as u8 + 1
}

/// The set-up costs of this build, read off the original's own types.
#[must_use]
pub fn costs() -> Costs {
    let coro = Object::Coro(Box::new(coro_object(&Coro::blank(State::Created))));
    let iter = Object::Iter(Box::new(iter_object(0, false, None)));
    let error = error_object(1, 0, 0, 0);
    Costs {
        frame: FRAME_BYTES as u64,
        coro: size_of::<CoroObj>() as u64,
        coro_object: Heap::cost(&coro) as u64,
        int: Heap::cost(&Object::Int(0)) as u64,
        error: Heap::cost(&error) as u64,
        iter: Heap::cost(&iter) as u64,
    }
}

/// The program that a good set-up describes. No register is `dyn`, so no
/// callee is dynamic.
pub(crate) fn program(s: &Setup) -> Program {
    let functions = s.funcs.iter().map(|f| {
        bytecode_lang::Function::new(
            f.handlers
                .iter()
                .map(|h| Handler {
                    start: h.start as u32,
                    end: h.end as u32,
                    target: Label(h.target as u32),
                    catch: Reg(h.catch as u16),
                })
                .collect(),
        )
    });
    let funcs = s.funcs.iter().map(|f| FuncInfo {
        sig: 0,
        nregs: f.nregs as usize,
        nparams: f.nparams as usize,
        regs: vec![ValType::Int(IntTy::I64); f.nregs as usize].into(),
        result: None,
        ref_regs: [].into(),
        captures: [].into(),
        names: [].into(),
        type_refs: [].into(),
        catch_table: None,
    });
    let mut hooks = [None; HOOKS];
    hooks[usize::from(Hook::Spawn.code())] = s.hook.map(|f| Callee::Func(FuncId(f as u32)));
    Program {
        module: Module::new(functions.collect()),
        funcs: funcs.collect(),
        types: Vec::new(),
        imports: Vec::new(),
        hooks,
        canon_ty: Vec::new(),
        global_types: Vec::new(),
        global_refs: Vec::new(),
    }
}

/// A machine holding the state `w`; its stack stays with the driver.
pub(crate) fn machine(prog: &Program, w: &World) -> Machine {
    let mut m = Machine::new(prog, w.setup.memory as usize);
    m.max_depth = w.setup.depth as usize;
    m.max_stack = w.setup.stack as usize;
    m.frames = w.frames.iter().map(to_frame).collect();
    m.coros = w.chain.iter().map(to_active).collect();
    m.finalize = w.cleanup.iter().copied().collect();
    m.sched.ready = w.ready.iter().map(|&c| (c, Wake::Send(word::NIL))).collect();
    m.finalizing = w.finalizing;
    m.close_ready = w.close_ready;
    m.fuel = w.fuel;
    m.bank = w.bank;
    m.coro_seq = w.seq;
    m.outcome = w.outcome.map(|s| match s {
        world::Stop::Yielded(v) => Stop::Yielded(v),
        world::Stop::Awaiting(v) => Stop::Awaiting(v),
        world::Stop::Returned(v) => Stop::Returned(v),
        world::Stop::Failed(v, f, pc) => Stop::Failed(v, f, pc),
        world::Stop::CloseIgnored => Stop::CloseIgnored,
    });
    for s in &w.slots {
        m.heap.push_slot(s.tag, to_object(&s.object));
    }
    m.heap.set_used(w.used as usize);
    m
}

/// The state that `m` and `stack` hold. Rows are the driver's: `row` gives a
/// coroutine's by its slot.
pub(crate) fn world(
    setup: &Setup,
    m: &Machine,
    stack: &[u64],
    row: impl Fn(usize) -> usize,
) -> World {
    let slots = m.heap.slots_in_order().enumerate();
    World {
        setup: setup.clone(),
        stack: stack.to_vec(),
        frames: m.frames.iter().map(from_frame).collect(),
        chain: m.coros.iter().map(from_active).collect(),
        slots: slots
            .map(|(i, (tag, obj))| Slot { tag, object: from_object(obj, || row(i)) })
            .collect(),
        ready: m.sched.ready.iter().map(|&(c, _)| c).collect(),
        cleanup: m.finalize.iter().copied().collect(),
        fuel: m.fuel,
        bank: m.bank,
        close_ready: m.close_ready,
        finalizing: m.finalizing,
        used: m.heap.used() as u64,
        seq: m.coro_seq,
        outcome: m.outcome.map(from_stop),
    }
}

pub(crate) fn from_stop(s: Stop) -> world::Stop {
    match s {
        Stop::Yielded(v) => world::Stop::Yielded(v),
        Stop::Awaiting(v) => world::Stop::Awaiting(v),
        Stop::Returned(v) => world::Stop::Returned(v),
        Stop::Failed(v, f, pc) => world::Stop::Failed(v, f, pc),
        Stop::CloseIgnored => world::Stop::CloseIgnored,
    }
}

pub(crate) fn to_cont(c: world::Cont) -> Cont {
    match c {
        world::Cont::Entry => Cont::Entry,
        world::Cont::Write(r) => Cont::Write(r),
        world::Cont::Dyn(r) => Cont::Dyn(r),
        world::Cont::Value(r) => Cont::Value(r),
        world::Cont::Discard => Cont::Discard,
        world::Cont::Coro => Cont::Coro,
    }
}

fn to_frame(f: &world::Frame) -> Frame {
    Frame { func: f.func, pc: f.pc, base: f.base, closure: f.closure, cont: to_cont(f.cont) }
}

fn from_frame(f: &Frame) -> world::Frame {
    world::Frame {
        func: f.func,
        pc: f.pc,
        base: f.base,
        closure: f.closure,
        cont: match f.cont {
            Cont::Entry => world::Cont::Entry,
            Cont::Write(r) => world::Cont::Write(r),
            Cont::Dyn(r) => world::Cont::Dyn(r),
            Cont::Value(r) => world::Cont::Value(r),
            Cont::Discard => world::Cont::Discard,
            Cont::Coro => world::Cont::Coro,
            other => unreachable!("no call makes a frame with {other:?}"),
        },
    }
}

fn to_active(a: &world::Active) -> Active {
    Active {
        coro: a.coro,
        floor: a.floor,
        driver: match a.driver {
            world::Driver::Resume(dst) => Driver::Resume(dst),
            world::Driver::Iter { has, val, iter } => Driver::Iter { has, val, iter },
            world::Driver::Host => Driver::Host,
            world::Driver::Finalize => Driver::Finalize,
        },
    }
}

fn from_active(a: &Active) -> world::Active {
    world::Active {
        coro: a.coro,
        floor: a.floor,
        driver: match a.driver {
            Driver::Resume(dst) => world::Driver::Resume(dst),
            Driver::Iter { has, val, iter } => world::Driver::Iter { has, val, iter },
            Driver::Host => world::Driver::Host,
            Driver::Finalize => world::Driver::Finalize,
        },
    }
}

const STATES: [CoroState; 6] = [
    CoroState::Created,
    CoroState::Running,
    CoroState::Yielded,
    CoroState::Awaiting,
    CoroState::Returned,
    CoroState::Failed,
];

/// A buffer of exactly the given capacity, or as large as its contents: the
/// original keeps a coroutine's largest saved sizes as capacities.
pub(crate) fn buffer<T: Clone>(items: &[T], capacity: usize) -> Vec<T> {
    let capacity = capacity.max(items.len());
    let mut v = Vec::with_capacity(capacity);
    v.extend_from_slice(items);
    assert_eq!(v.capacity(), capacity, "capacities are exact");
    v
}

fn coro_object(c: &Coro) -> CoroObj {
    let frames: Vec<Frame> = c.frames.iter().map(to_frame).collect();
    CoroObj {
        state: STATES[c.state as usize],
        closing: c.closing,
        finalized: c.finalized,
        task: c.task,
        seq: c.seq,
        frames: buffer(&frames, c.max_frames),
        regs: buffer(&c.regs, c.max_regs),
        resume_dst: c.resume_dst,
        payload: c.payload,
        key: c.key,
        max_key: c.max_key,
        result: c.result,
        signal: c.signal,
    }
}

fn iter_object(src: u64, done: bool, key: Option<u64>) -> IterObj {
    IterObj {
        src,
        dynamic: true,
        done,
        index: 0,
        cursor: Cursor(0),
        key,
        key_ty: ValType::Dyn,
        coro: true,
    }
}

fn error_object(number: u8, func: u32, pc: u32, payload: u64) -> Object {
    Object::Error(ErrorObj { kind: KINDS[usize::from(number) - 1], func, pc, payload })
}

fn to_object(o: &world::Object) -> Option<Object> {
    Some(match *o {
        world::Object::Empty => return None,
        world::Object::Func(f) => {
            Object::Func(FuncObj { target: Callable::Func(f), captures: [].into() })
        }
        world::Object::Int(i) => Object::Int(i),
        world::Object::Iter { src, done, key } => {
            Object::Iter(Box::new(iter_object(src, done, key)))
        }
        world::Object::Error { number, func, pc, payload } => {
            error_object(number, func, pc, payload)
        }
        world::Object::Coro(ref c) => Object::Coro(Box::new(coro_object(c))),
    })
}

fn from_object(o: Option<&Object>, row: impl Fn() -> usize) -> world::Object {
    match o {
        None => world::Object::Empty,
        Some(Object::Func(f)) => match f.target {
            Callable::Func(f) => world::Object::Func(f),
            Callable::Import(i) => unreachable!("no call makes import {i}"),
        },
        Some(Object::Int(i)) => world::Object::Int(*i),
        Some(Object::Iter(i)) => world::Object::Iter { src: i.src, done: i.done, key: i.key },
        Some(Object::Error(e)) => world::Object::Error {
            number: number_of(e.kind),
            func: e.func,
            pc: e.pc,
            payload: e.payload,
        },
        Some(Object::Coro(c)) => world::Object::Coro(Box::new(Coro {
            state: State::ALL[usize::from(c.state.code())],
            closing: c.closing,
            finalized: c.finalized,
            task: c.task,
            seq: c.seq,
            row: row(),
            resume_dst: c.resume_dst,
            payload: c.payload,
            key: c.key,
            max_key: c.max_key,
            result: c.result,
            signal: c.signal,
            max_regs: c.regs.capacity(),
            max_frames: c.frames.capacity(),
            regs: c.regs.clone(),
            frames: c.frames.iter().map(from_frame).collect(),
        })),
        Some(other) => unreachable!("no call makes {other:?}"),
    }
}
