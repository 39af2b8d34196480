//! Random machines that keep 01's paragraph "Sound", and nothing more.

use super::limits::tighten;
use super::setups::{pc, setup};
use super::words::{some_words, Words};
use super::{Profile, Rng};
use crate::sound::sound;
use crate::word;
use crate::world::{
    Active, Cont, Coro, Costs, Driver, Frame, Object, Setup, Slot, State, Stop, World,
};

/// Keys and integers around the ends of their ranges.
const EDGES: [i64; 12] = [
    -1,
    0,
    5,
    -9,
    (1 << 47) - 2,
    (1 << 47) - 1,
    1 << 47,
    -(1 << 47),
    -(1 << 47) - 1,
    i64::MAX - 1,
    i64::MAX,
    i64::MIN,
];

/// A random sound machine.
pub fn machine(rng: &mut Rng, costs: Costs, profile: Profile) -> World {
    loop {
        let w = attempt(rng, costs, profile);
        if sound(&w).is_ok() {
            return w;
        }
    }
}

fn attempt(rng: &mut Rng, costs: Costs, profile: Profile) -> World {
    let mut s = setup(rng, costs, profile);
    // Room first; the limits are drawn tighter at the end.
    (s.depth, s.stack, s.rows, s.memory) = (128, 1024, 64, u64::MAX);
    let mut w = World::fresh(s);
    objects(rng, &mut w, profile);
    w.setup.slots = w.slots.len() as u64 + rng.pick(&[0, 0, 1, 2, 5]);
    let words = Words::of(&w);
    fill(rng, &mut w, &words);
    let running: Vec<u64> = named(&w, |c| c.state == State::Running);
    let (frames, extents) = active(rng, &w.setup, running.len(), &words);
    w.stack = some_words(rng, &words, extents.iter().sum());
    w.chain = chain(rng, &running, &frames, &extents, &words);
    w.frames = frames;
    give_rows(rng, &mut w);
    queue_up(rng, &mut w);
    fuel(rng, &mut w);
    w.seq = rng.pick(&[0, 1, 7, u64::MAX, u64::MAX - 1]);
    w.outcome = outcome(rng, &words);
    tighten(rng, &mut w);
    w
}

/// Objects of every kind, most often with the function objects first.
fn objects(rng: &mut Rng, w: &mut World, profile: Profile) {
    let many = profile == Profile::Many;
    let states = |rng: &mut Rng| match rng.below(10) {
        0 | 1 => State::Created,
        2..=4 => State::Running,
        5 | 6 => State::Yielded,
        7 => State::Awaiting,
        8 => State::Returned,
        _ => State::Failed,
    };
    let mut made: Vec<Slot> = Vec::new();
    // at most 64 rows, so no more of them that are not finished
    let coros = if many { rng.range(20, 70) } else { rng.range(0, 6) };
    for _ in 0..coros {
        let state = states(rng);
        made.push(filled(rng, Object::Coro(Box::new(Coro::blank(state)))));
    }
    let integers = if many { rng.range(45, 125) } else { rng.below(3) };
    for _ in 0..integers {
        let i = rng.pick(&EDGES);
        made.push(filled(rng, Object::Int(i)));
    }
    if rng.chance(50) {
        let (done, key) = (rng.chance(30), rng.chance(40).then_some(0));
        made.push(filled(rng, Object::Iter { src: 0, done, key }));
    }
    if rng.chance(20) {
        let (number, func) = (rng.range(1, 8) as u8, rng.below(w.setup.funcs.len()) as u32);
        let error = Object::Error { number, func, pc: pc(rng), payload: 0 };
        made.push(filled(rng, error));
    }
    if rng.chance(15) {
        made.push(Slot { tag: 0, object: Object::Empty });
    }
    rng.shuffle(&mut made);
    w.slots.append(&mut made);
    if rng.chance(10) {
        rng.shuffle(&mut w.slots);
    }
}

fn filled(rng: &mut Rng, object: Object) -> Slot {
    let tag = if rng.chance(85) { 0 } else { rng.pick(&[1, 0x7FFF, 0x8000, 0xFFFF]) };
    Slot { tag, object }
}

/// What the words in a frame of `func` must at least number: its catch
/// registers lie in it. Mostly the function's register count.
fn extent(rng: &mut Rng, s: &Setup, func: u32) -> usize {
    let f = &s.funcs[func as usize];
    let least = f.handlers.iter().map(|h| h.catch + 1).max().unwrap_or(0) as usize;
    if rng.chance(80) {
        f.nregs as usize
    } else {
        least + rng.below(3)
    }
}

/// A continuation whose register lies in a frame of `below` words.
fn cont(rng: &mut Rng, below: usize) -> Cont {
    let r = rng.below(below) as u16;
    match rng.below(7) {
        0 => Cont::Discard,
        _ if below == 0 => Cont::Discard,
        1 | 2 => Cont::Write(r),
        3 | 4 => Cont::Dyn(r),
        _ => Cont::Value(r),
    }
}

/// Frames with their extents: `conts` gives each one's continuation from the
/// extent below.
fn pile(
    rng: &mut Rng,
    s: &Setup,
    words: &Words,
    count: usize,
    mut conts: impl FnMut(&mut Rng, usize, usize) -> Cont,
) -> (Vec<Frame>, Vec<usize>) {
    let (mut frames, mut extents) = (Vec::new(), Vec::new());
    let mut base = 0;
    for i in 0..count {
        let func = rng.below(s.funcs.len()) as u32;
        let below = extents.last().copied().unwrap_or(0);
        let size = extent(rng, s, func);
        frames.push(Frame {
            func,
            pc: pc(rng),
            base,
            closure: words.one(rng),
            cont: conts(rng, i, below),
        });
        base += size;
        extents.push(size);
    }
    (frames, extents)
}

fn active(rng: &mut Rng, s: &Setup, running: usize, words: &Words) -> (Vec<Frame>, Vec<usize>) {
    let count = match rng.below(8) {
        0 => running,
        _ => running + rng.range(1, 3),
    };
    let mut floors: Vec<usize> = (0..count).collect();
    rng.shuffle(&mut floors);
    floors.truncate(running);
    pile(rng, s, words, count, |rng, i, below| match i {
        _ if floors.contains(&i) => Cont::Coro,
        0 if rng.chance(85) => Cont::Entry,
        0 => Cont::Discard,
        _ => cont(rng, below),
    })
}

fn chain(
    rng: &mut Rng,
    running: &[u64],
    frames: &[Frame],
    extents: &[usize],
    words: &Words,
) -> Vec<Active> {
    let floors = (0..frames.len()).filter(|&i| frames[i].cont == Cont::Coro);
    let mut chain = Vec::new();
    for (floor, &coro) in floors.zip(running) {
        let below = floor.checked_sub(1).map_or(0, |i| extents[i]);
        let (has, val) = (rng.below(below) as u16, rng.below(below) as u16);
        let driver = match rng.below(10) {
            8 => Driver::Host,
            9 => Driver::Finalize,
            _ if below == 0 => rng.pick(&[Driver::Host, Driver::Finalize]),
            0..=3 => Driver::Resume(has),
            _ => Driver::Iter {
                has,
                val: if rng.chance(25) { has } else { val },
                iter: words.one(rng),
            },
        };
        chain.push(Active { coro, floor, driver });
    }
    chain
}

/// Gives every object contents.
fn fill(rng: &mut Rng, w: &mut World, words: &Words) {
    let s = w.setup.clone();
    for slot in &mut w.slots {
        match &mut slot.object {
            Object::Iter { src, key, .. } => {
                *src = words.one(rng);
                *key = key.map(|_| words.one(rng));
            }
            Object::Coro(c) => {
                c.closing = rng.chance(35);
                c.finalized = rng.chance(45);
                c.task = rng.chance(40);
                c.seq = rng.pick(&[0, 1, 2, u64::MAX]);
                c.payload = words.one(rng);
                c.key = words.one(rng);
                c.max_key = if rng.chance(50) { -1 } else { rng.pick(&EDGES) };
                c.result = words.one(rng);
                c.signal = if rng.chance(50) { word::NIL } else { words.one(rng) };
                c.resume_dst = rng.below(4) as u16;
                if c.state.is_resumable() {
                    save(rng, &s, c, words);
                }
                sizes(rng, c);
            }
            _ => {}
        }
    }
}

fn save(rng: &mut Rng, s: &Setup, c: &mut Coro, words: &Words) {
    let count = match rng.below(4) {
        0 => rng.range(2, 4),
        _ => 1,
    };
    let conts = |rng: &mut Rng, i, below| if i == 0 { Cont::Coro } else { cont(rng, below) };
    let (frames, mut extents) = pile(rng, s, words, count, conts);
    let top = extents.last_mut().expect("at least one frame");
    if c.state.is_suspended() {
        *top = (*top).max(1);
        c.resume_dst = rng.below(*top) as u16;
    }
    c.regs = some_words(rng, words, extents.iter().sum());
    c.frames = frames;
}

/// Largest saved sizes: mostly the present ones, sometimes more or less.
fn sizes(rng: &mut Rng, c: &mut Coro) {
    (c.max_regs, c.max_frames) = (c.regs.len(), c.frames.len());
    match rng.below(8) {
        0 => (c.max_regs, c.max_frames) = (0, 0),
        1 => c.max_regs += rng.range(1, 3),
        2 => c.max_frames += rng.range(1, 2),
        3 => c.max_regs = c.max_regs.saturating_sub(1),
        _ => {}
    }
    if c.state == State::Running && rng.chance(70) {
        (c.max_regs, c.max_frames) = (rng.below(6), rng.range(1, 3));
    }
}

pub(super) fn named(w: &World, which: impl Fn(&Coro) -> bool) -> Vec<u64> {
    w.coros().filter(|(_, c)| which(c)).map(|(n, _)| n).collect()
}

fn give_rows(rng: &mut Rng, w: &mut World) {
    let unfinished = named(w, |c| !c.state.is_finished());
    let mut rows: Vec<usize> = (0..unfinished.len() + rng.below(3)).collect();
    rng.shuffle(&mut rows);
    let mut most = 0;
    for (name, row) in unfinished.iter().zip(rows) {
        most = most.max(row);
        w.coro_mut(*name).expect("named").row = row;
    }
    w.setup.rows = most as u64 + rng.pick(&[1, 1, 2, 3]);
}

fn queue_up(rng: &mut Rng, w: &mut World) {
    for (mark, percent) in [(true, 50), (false, 75)] {
        let mut q = named(w, |c| if mark { c.task } else { c.finalized });
        rng.shuffle(&mut q);
        q.retain(|_| rng.chance(percent));
        if mark {
            w.ready = q;
        } else {
            w.cleanup = q;
        }
    }
}

fn fuel(rng: &mut Rng, w: &mut World) {
    let amount = rng.pick(&[0, 1, 2, 3, 50, 1000, u64::MAX]);
    let idle = !w.chain.iter().any(|a| a.driver == Driver::Finalize);
    w.finalizing = if rng.chance(80) { !idle } else { rng.chance(50) };
    let ready = !w.finalizing && !w.cleanup.is_empty();
    w.close_ready = if rng.chance(80) { ready } else { rng.chance(50) };
    if w.close_ready && rng.chance(85) || rng.chance(5) {
        w.bank = Some(amount);
    } else {
        w.fuel = amount;
    }
}

fn outcome(rng: &mut Rng, words: &Words) -> Option<Stop> {
    let w = words.one(rng);
    match rng.below(10) {
        0 => Some(Stop::Yielded(w)),
        1 => Some(Stop::Awaiting(w)),
        2 => Some(Stop::Returned(w)),
        3 => Some(Stop::Failed(w, rng.below(3) as u32, pc(rng))),
        4 => Some(Stop::CloseIgnored),
        _ => None,
    }
}
