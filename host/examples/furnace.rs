//! The furnace line of `./run`, from Rust: the same calls on the linked library,
//! and the same lines. Its scripts sleep, and are woken at other stack heights;
//! what each held is noted from outside before it sleeps, and compared when it
//! wakes. It ends with 1 if a sleeper comes back with anything else.

use std::collections::BTreeMap;
use std::process::ExitCode;

use humdelzi::{
    Answer, Call, Cont, Fault, Frame, Fuel, Function, FunctionId, Handler, Machine, Outcome, Pc,
    Reg, Setup, SetupError, Unwound, Value, Word,
};

/// Functions: the line, a zone that heats, a sensor, a trim, a survey, and a
/// recipe with a cleanup block.
fn setup() -> Setup {
    let block = Handler { start: Pc(0), end: Pc(100), target: Pc(200), catch: Reg(3) };
    let limits = Setup::new().depth(8).stack(40).rows(4).slots(16).memory(65_536);
    limits
        .function(Function::new(8))
        .function(Function::new(6).parameters(1))
        .function(Function::new(3))
        .function(Function::new(3))
        .function(Function::new(4))
        .function(Function::new(4).parameters(1).handler(block))
}

const ZONE1: Word = Word::slot(6);
const ZONE2: Word = Word::slot(7);
const RECIPE: Word = Word::slot(8);
const SENSOR: Word = Word::slot(9);
const READINGS: Word = Word::slot(10);

fn int(n: i64) -> Word {
    Word::int(n).expect("a small integer")
}

/// The calls, scene by scene (`crates/furnace/specs/Story.antt`).
fn story() -> Vec<Call> {
    let put = |r, word| Call::PutWord { reg: Reg(r), word };
    let new = |pc, dst, func, argc| Call::CoroNew {
        pc: Pc(pc),
        dst: Reg(dst),
        func: FunctionId(func),
        argc,
    };
    let resume =
        |pc, dst, c, src| Call::Resume { pc: Pc(pc), dst: Reg(dst), coro: Reg(c), src: Reg(src) };
    let yields = |pc, dst, src| Call::Yield { pc: Pc(pc), dst: Reg(dst), src: Reg(src) };
    let calls = |pc, func, r| Call::FunctionCall {
        pc: Pc(pc),
        func: FunctionId(func),
        cont: Cont::Dyn(Reg(r)),
    };
    let draws =
        |pc| Call::IterNext { pc: Pc(pc), has: Reg(5), iter: Reg(3), val: Reg(1), src: Reg(4) };
    let returns = |n| Call::Finish { value: Value::Word(int(n)) };
    let status = Call::CoroStatus { pc: Pc(2), dst: Reg(3), coro: Reg(0) };
    let current = Call::CoroCurrent { pc: Pc(3), dst: Reg(4) };
    let heating = [
        Call::Grant { amount: 23 },
        Call::HostCall { func: FunctionId(0) },
        put(1, int(820)),
        new(1, 0, 1, 1),
        put(2, int(640)),
        new(2, 1, 1, 1),
        put(3, int(910)),
        new(3, 2, 5, 1),
        resume(4, 3, 0, 4),
        put(1, int(815)),
        yields(1, 2, 1),
        resume(5, 4, 1, 4),
        new(1, 4, 2, 0),
        Call::MakeIterator { src: SENSOR },
        put(3, READINGS),
        draws(2),
        put(0, int(633)),
        yields(1, 2, 0),
        calls(3, 3, 2),
        put(0, int(7)),
        put(1, int(3)),
        Call::Await { pc: Pc(1), dst: Reg(2), src: Reg(0) },
        resume(6, 5, 2, 4),
        put(1, int(55)),
        yields(20, 2, 1),
    ];
    let surveying = [
        calls(7, 4, 6),
        put(0, ZONE2),
        put(2, int(9)),
        resume(1, 1, 0, 2),
        returns(635),
        draws(5),
        put(0, int(636)),
        yields(2, 2, 0),
        put(5, ZONE1),
        resume(6, 2, 5, 0),
        put(1, int(819)),
        yields(2, 2, 1),
        yields(7, 2, 1),
    ];
    let dropping = [
        Call::HandOver { coro: RECIPE },
        status,
        Call::Unwind { fault: Fault::Throw(Word::NIL), pc: None },
        put(1, int(0)),
        returns(0),
        status,
        returns(1),
    ];
    let racing = [resume(8, 3, 0, 4), current, current, current, current, Call::StopRun];
    let waking = [
        Call::Grant { amount: 10 },
        Call::HostEntry { coro: SENSOR, word: int(650) },
        returns(637),
        Call::TakeOutcome,
        Call::HostEntry { coro: ZONE2, word: int(660) },
        returns(640),
        Call::TakeOutcome,
    ];
    [&heating[..], &surveying, &dropping, &racing, &waking].concat()
}

fn name(w: Word) -> &'static str {
    match w {
        ZONE1 => "zone 1",
        ZONE2 => "zone 2",
        RECIPE => "recipe",
        SENSOR => "sensor",
        READINGS => "readings",
        _ => "function",
    }
}

/// A word as it is read.
fn word(w: Word) -> String {
    match w.as_int() {
        _ if w.is_nil() => "-".into(),
        Some(n) => n.to_string(),
        None if w.as_reference().is_some() => format!("@{}", name(w)),
        None => w.0.to_string(),
    }
}

/// Words, the one at `sent` in brackets.
fn row(words: &[Word], sent: Option<usize>) -> String {
    let one = |(i, &w)| match word(w) {
        w if sent == Some(i) && w.starts_with('@') => format!(" [{w}]"),
        w if sent == Some(i) => format!("  [{w}]"),
        w if w.starts_with('@') => format!(" {w}"),
        w => format!("{w:>5}"),
    };
    words.iter().enumerate().map(one).collect()
}

/// The functions and pcs of frames, the lowest first.
fn places(frames: &[Frame]) -> String {
    let one = |f: &Frame| format!("  {:<6} {}", NAMES[f.function.0 as usize], f.pc.0);
    format!("   at{}", frames.iter().map(one).collect::<String>())
}

fn fuel_at_hand(fuel: &Fuel) -> String {
    match fuel.banked() {
        Some(n) => format!("(fuel at hand {}, banked {n})", fuel.left()),
        None => format!("(fuel at hand {})", fuel.left()),
    }
}

/// What a sleeper held: its words, which of them waits, the height of the first,
/// and its frames, the top one at the pc of the call that suspended it.
struct Held {
    words: Vec<Word>,
    waits: usize,
    height: usize,
    frames: Vec<Frame>,
}

/// The frames of the innermost coroutine, its body first.
fn bodies(m: &Machine) -> Vec<Frame> {
    m.frames().skip(m.chain().next_back().map_or(0, |r| r.floor)).collect()
}

/// The height from which on the stack is its own.
fn own(m: &Machine) -> usize {
    bodies(m).first().map_or(0, |f| f.base)
}

fn innermost(m: &Machine) -> Word {
    m.chain().next_back().map_or(Word::NIL, |r| r.coroutine)
}

const NAMES: [&str; 6] = ["line", "heat", "sensor", "trim", "survey", "recipe"];

/// The stack as it stands, the top frame first; the word at height `sent` in brackets.
fn picture(m: &Machine, sent: Option<usize>) {
    let mut end = m.height();
    for (i, f) in m.frames().enumerate().rev() {
        let owner = m.chain().rev().find(|r| r.floor <= i).map_or("", |r| name(r.coroutine));
        let here = sent.and_then(|h| h.checked_sub(f.base));
        let (function, words) = (NAMES[f.function.0 as usize], row(&m.stack()[f.base..end], here));
        let (base, pc) = (f.base, f.pc.0);
        println!("     |{base:>5}..{end:<2} | {function:<6}{pc:>5} | {owner:<6} |{words}");
        end = f.base;
    }
}

struct Line {
    m: Machine,
    fuel: Fuel,
    held: BTreeMap<u64, Held>,
    wakes: u32,
    equal: u32,
}

impl Line {
    /// One call: noted before, told after.
    fn turn(&mut self, call: Call) {
        let (active, runner) = (self.m.active(), innermost(&self.m));
        let (waits, mut sent) = match call {
            Call::Yield { pc, dst, .. } | Call::Await { pc, dst, .. } => (Some((pc, dst)), None),
            Call::Resume { src, .. } => (None, self.m.register(src)),
            Call::IterNext { .. } => (None, Some(Word::NIL)),
            Call::HostEntry { word, .. } => (None, Some(word)),
            _ => (None, None),
        };
        if let Some((pc, dst)) = waits {
            let height = own(&self.m);
            let waits = self.m.top().map_or(0, |f| f.base) - height + usize::from(dst.0);
            let words = self.m.stack()[height..].to_vec();
            let mut frames = bodies(&self.m);
            if let Some(top) = frames.last_mut() {
                top.pc = pc;
            }
            self.held.insert(runner.0, Held { words, waits, height, frames });
        }
        let answer = self.m.call(&mut self.fuel, call);
        self.tell(call, answer, runner);
        if answer.fault().is_some() {
            sent = None;
        }
        if active < self.m.active() {
            self.entered(sent);
        } else if self.m.active() < active {
            match self.held.get(&runner.0) {
                Some(h) if waits.is_some() => {
                    let (words, at) = (row(&h.words, None), places(&h.frames));
                    println!("{} sleeps at height {} and holds{words}{at}", name(runner), h.height);
                }
                _ => println!("{} ends", name(runner)),
            }
        }
    }

    /// What the answer says, where a person wants to see it.
    fn tell(&self, call: Call, answer: Answer, runner: Word) {
        let hand = fuel_at_hand(&self.fuel);
        match (call, answer) {
            (_, a) if a.number() == 10 => {
                println!(
                    "{} tries an instruction without fuel: its call answers 10 {hand}",
                    name(runner)
                );
            }
            (_, a) if a.number() == 17 => {
                println!("a cleanup starts before the next instruction: its call answers 17 with {} {hand}", a.word());
            }
            (_, a) if a.number() != 0 => println!("{}", a.fault().expect("a fault")),
            (Call::Grant { amount }, _) => println!("the host grants {amount} {hand}"),
            (Call::HandOver { coro }, _) => {
                println!("{} is dropped: its cleanup is due {hand}", name(coro))
            }
            (_, Answer::Unwound(Unwound::Caught)) => {
                let pc = self.m.top().map_or(0, |f| f.pc.0);
                println!("its handler takes the signal: the cleanup block runs from pc {pc}");
            }
            (Call::StopRun, _) => {
                println!("the host stops the run: frames left {}", self.m.depth())
            }
            (_, Answer::Took(Some(Outcome::Returned(w)))) => {
                println!("the host takes the outcome: it returned {}", word(w));
            }
            (_, Answer::Took(other)) => println!("the host takes the outcome: {other:?}"),
            _ => {}
        }
    }

    /// A coroutine was entered: it starts, or it is woken.
    fn entered(&mut self, sent: Option<Word>) {
        let (m, who) = (&self.m, innermost(&self.m));
        let Some(held) = self.held.get(&who.0) else {
            println!("{} starts", name(who));
            return;
        };
        let (height, mut want, mut frames) = (own(m), held.words.clone(), held.frames.clone());
        let (back, mark) = (&m.stack()[height..], sent.map(|_| held.waits));
        let text = match sent {
            Some(w) if w.is_nil() => "nil".into(),
            Some(w) => word(w),
            None => "nothing".into(),
        };
        println!(
            "{} WAKES at height {height} (it slept at {}), sent {text}",
            name(who),
            held.height
        );
        picture(m, mark.map(|i| height + i));
        for f in &mut frames {
            f.base = f.base - held.height + height;
        }
        if let (Some(w), Some(top)) = (sent, frames.last_mut()) {
            want[held.waits] = w;
            top.pc = Pc(top.pc.0.wrapping_add(1));
        }
        let equal = want == back && frames == bodies(m);
        let verdict = match (equal, sent) {
            (false, _) => "NOT EQUAL",
            (true, Some(_)) => "EQUAL, with the word sent",
            (true, None) => "EQUAL",
        };
        println!("     held     {}{}", row(&held.words, None), places(&held.frames));
        println!("     came back{}{}   {verdict}", row(back, mark), places(&bodies(m)));
        self.wakes += 1;
        self.equal += u32::from(equal);
    }
}

fn main() -> Result<ExitCode, SetupError> {
    let (m, fuel) = setup().machine()?;
    let mut line = Line { m, fuel, held: BTreeMap::new(), wakes: 0, equal: 0 };
    story().into_iter().for_each(|call| line.turn(call));
    println!("\n{} wakes, {} equal", line.wakes, line.equal);
    Ok(if line.wakes > 0 && line.equal == line.wakes {
        ExitCode::SUCCESS
    } else {
        ExitCode::FAILURE
    })
}
