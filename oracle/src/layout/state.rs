//! The order in which a state is written.

use crate::codec::{unused, Codec, Res};
use crate::world::{
    Active, Cont, Coro, Driver, Frame, Func, Handler, Object, Setup, Slot, State, Stop, World,
};

const CONTS: [&str; 6] = ["entry", "write", "dyn", "value", "discard", "coro"];
const DRIVERS: [&str; 4] = ["resume", "iter", "host", "finalize"];
const STATES: [&str; 6] = ["created", "running", "yielded", "awaiting", "returned", "failed"];
const OBJECTS: [&str; 6] = ["empty", "func", "int", "iter", "error", "coro"];
const STOPS: [&str; 6] = ["none", "yielded", "awaiting", "returned", "failed", "close_ignored"];

pub fn setup(c: &mut impl Codec, s: &mut Setup) -> Res {
    c.key("setup")?;
    for x in [&mut s.depth, &mut s.stack, &mut s.rows, &mut s.slots, &mut s.memory] {
        c.num(x)?;
    }
    let k = &mut s.costs;
    for x in [&mut k.frame, &mut k.coro, &mut k.coro_object, &mut k.int, &mut k.error, &mut k.iter]
    {
        c.num(x)?;
    }
    c.option(&mut s.hook)?;
    c.list(&mut s.funcs, Func::default(), |c, f| {
        c.num(&mut f.nregs)?;
        c.num(&mut f.nparams)?;
        let blank = Handler { start: 0, end: 0, target: 0, catch: 0 };
        c.list(&mut f.handlers, blank, |c, h| {
            [&mut h.start, &mut h.end, &mut h.target, &mut h.catch]
                .into_iter()
                .try_for_each(|x| c.num(x))
        })
    })
}

pub(super) fn cont(c: &mut impl Codec, k: &mut Cont) -> Res {
    let (mut i, mut reg) = match *k {
        Cont::Entry => (0, 0),
        Cont::Write(r) => (1, r),
        Cont::Dyn(r) => (2, r),
        Cont::Value(r) => (3, r),
        Cont::Discard => (4, 0),
        Cont::Coro => (5, 0),
    };
    c.pick(&CONTS, &mut i)?;
    c.field(&mut reg)?;
    unused(matches!(i, 0 | 4 | 5) && reg != 0)?;
    *k = [
        Cont::Entry,
        Cont::Write(reg),
        Cont::Dyn(reg),
        Cont::Value(reg),
        Cont::Discard,
        Cont::Coro,
    ][i];
    Ok(())
}

const NO_FRAME: Frame = Frame { func: 0, pc: 0, base: 0, closure: 0, cont: Cont::Entry };

fn frames(c: &mut impl Codec, fs: &mut Vec<Frame>) -> Res {
    c.list(fs, NO_FRAME, |c, f| {
        c.field(&mut f.func)?;
        c.field(&mut f.pc)?;
        c.field(&mut f.base)?;
        c.num(&mut f.closure)?;
        cont(c, &mut f.cont)
    })
}

fn chain(c: &mut impl Codec, actives: &mut Vec<Active>) -> Res {
    let blank = Active { coro: 0, floor: 0, driver: Driver::Host };
    c.list(actives, blank, |c, a| {
        c.num(&mut a.coro)?;
        c.field(&mut a.floor)?;
        let (mut i, mut x, mut y, mut z) = match a.driver {
            Driver::Resume(dst) => (0, dst, 0, 0),
            Driver::Iter { has, val, iter } => (1, has, val, iter),
            Driver::Host => (2, 0, 0, 0),
            Driver::Finalize => (3, 0, 0, 0),
        };
        c.pick(&DRIVERS, &mut i)?;
        c.field(&mut x)?;
        c.field(&mut y)?;
        c.num(&mut z)?;
        unused(i != 1 && (y, z) != (0, 0) || i > 1 && x != 0)?;
        let iter = Driver::Iter { has: x, val: y, iter: z };
        a.driver = [Driver::Resume(x), iter, Driver::Host, Driver::Finalize][i];
        Ok(())
    })
}

fn coro(c: &mut impl Codec, o: &mut Coro) -> Res {
    let mut i = o.state as usize;
    c.pick(&STATES, &mut i)?;
    o.state = State::ALL[i];
    c.flag(&mut o.closing)?;
    c.flag(&mut o.finalized)?;
    c.flag(&mut o.task)?;
    c.num(&mut o.seq)?;
    c.field(&mut o.row)?;
    c.field(&mut o.resume_dst)?;
    c.num(&mut o.payload)?;
    c.num(&mut o.key)?;
    c.signed(&mut o.max_key)?;
    c.num(&mut o.result)?;
    c.num(&mut o.signal)?;
    c.field(&mut o.max_regs)?;
    c.field(&mut o.max_frames)?;
    c.words(&mut o.regs)?;
    frames(c, &mut o.frames)
}

fn object(c: &mut impl Codec, o: &mut Object) -> Res {
    let was = match o {
        Object::Empty => 0,
        Object::Func(_) => 1,
        Object::Int(_) => 2,
        Object::Iter { .. } => 3,
        Object::Error { .. } => 4,
        Object::Coro(_) => 5,
    };
    let mut i = was;
    c.pick(&OBJECTS, &mut i)?;
    if i != was {
        *o = match i {
            0 => Object::Empty,
            1 => Object::Func(0),
            2 => Object::Int(0),
            3 => Object::Iter { src: 0, done: false, key: None },
            4 => Object::Error { number: 0, func: 0, pc: 0, payload: 0 },
            _ => Object::Coro(Box::new(Coro::blank(State::Created))),
        };
    }
    match o {
        Object::Empty => Ok(()),
        Object::Func(f) => c.field(f),
        Object::Int(n) => c.signed(n),
        Object::Iter { src, done, key } => {
            c.num(src)?;
            c.flag(done)?;
            c.option(key)
        }
        Object::Error { number, func, pc, payload } => {
            c.field(number)?;
            c.field(func)?;
            c.field(pc)?;
            c.num(payload)
        }
        Object::Coro(k) => coro(c, k),
    }
}

fn outcome(c: &mut impl Codec, stop: &mut Option<Stop>) -> Res {
    let (mut i, mut w, mut func, mut pc) = match *stop {
        None => (0, 0, 0, 0),
        Some(Stop::Yielded(w)) => (1, w, 0, 0),
        Some(Stop::Awaiting(w)) => (2, w, 0, 0),
        Some(Stop::Returned(w)) => (3, w, 0, 0),
        Some(Stop::Failed(w, func, pc)) => (4, w, func, pc),
        Some(Stop::CloseIgnored) => (5, 0, 0, 0),
    };
    c.pick(&STOPS, &mut i)?;
    c.num(&mut w)?;
    c.field(&mut func)?;
    c.field(&mut pc)?;
    unused(i != 4 && (func, pc) != (0, 0) || matches!(i, 0 | 5) && w != 0)?;
    *stop = match i {
        0 => None,
        1 => Some(Stop::Yielded(w)),
        2 => Some(Stop::Awaiting(w)),
        3 => Some(Stop::Returned(w)),
        4 => Some(Stop::Failed(w, func, pc)),
        _ => Some(Stop::CloseIgnored),
    };
    Ok(())
}

/// The machine without its set-up.
pub fn machine(c: &mut impl Codec, w: &mut World) -> Res {
    c.key("fuel")?;
    c.num(&mut w.fuel)?;
    c.key("bank")?;
    c.option(&mut w.bank)?;
    c.key("close_ready")?;
    c.flag(&mut w.close_ready)?;
    c.key("finalizing")?;
    c.flag(&mut w.finalizing)?;
    c.key("used")?;
    c.num(&mut w.used)?;
    c.key("seq")?;
    c.num(&mut w.seq)?;
    c.key("outcome")?;
    outcome(c, &mut w.outcome)?;
    c.key("stack")?;
    c.words(&mut w.stack)?;
    c.key("frames")?;
    frames(c, &mut w.frames)?;
    c.key("chain")?;
    chain(c, &mut w.chain)?;
    c.key("slots")?;
    let blank = Slot { tag: 0, object: Object::Empty };
    c.list(&mut w.slots, blank, |c, s| {
        c.field(&mut s.tag)?;
        object(c, &mut s.object)
    })?;
    c.key("ready")?;
    c.words(&mut w.ready)?;
    c.key("cleanup")?;
    c.words(&mut w.cleanup)
}

pub fn world(c: &mut impl Codec, w: &mut World) -> Res {
    setup(c, &mut w.setup)?;
    machine(c, w)
}
