//! A compiled program on the library.

use humdelzi::{
    Cont, Fault, Finished, Fuel, FunctionId, Machine, Object, Pc, Reg, Step, StepError, Value, Word,
};

use crate::compile::{int, Code, Inst, Tag, R};
use crate::program::Pattern;

/// How a run ended.
#[derive(Clone, PartialEq, Eq, Debug)]
pub enum End {
    /// All actions are done.
    Done,
    /// Fuel was used up (10).
    Fuel,
    /// Too many steps, or no slot or row left: the program is not compared.
    TooLarge,
    /// What no run should do.
    Wrong(String),
}

/// A run: the machine, and what was logged so far.
pub struct Run<'a> {
    pub machine: Machine,
    pub fuel: Fuel,
    pub events: Vec<String>,
    codes: &'a [Code],
    steps: u32,
    /// The host's own pc, where it is not the top frame's.
    paused: Option<u32>,
}

const MOST: u32 = 20_000;

impl<'a> Run<'a> {
    pub fn new(machine: Machine, fuel: Fuel, codes: &'a [Code]) -> Run<'a> {
        Run { machine, fuel, events: Vec::new(), codes, steps: 0, paused: None }
    }

    fn get(&self, r: R) -> Word {
        self.machine.register(Reg(r)).expect("a register of the frame")
    }

    fn put(&mut self, r: R, w: Word) {
        self.machine.put_word(&mut self.fuel, Reg(r), w).expect("a register of the frame");
    }

    fn number(&self, w: Word) -> i64 {
        w.as_int().unwrap_or(0)
    }

    fn value(&self, w: Word) -> String {
        w.as_int().map_or("None".into(), |n| n.to_string())
    }

    /// What a raised word is called.
    fn exception(&self, w: Word) -> String {
        match (w.as_int(), self.machine.object(w)) {
            (Some(n), _) => format!("E{n}"),
            (_, Some(Object::Error { number, .. })) => number.to_string(),
            _ if w.is_nil() => "exit".into(),
            _ => format!("{w:?}"),
        }
    }

    fn matches(&self, w: Word, p: Pattern) -> bool {
        match p {
            Pattern::Own(n) => w.as_int() == Some(n),
            Pattern::Two => matches!(w.as_int(), Some(101 | 102)),
            Pattern::Exit => w.is_nil(),
            Pattern::Fault(n) => {
                matches!(self.machine.object(w), Some(Object::Error { number, .. }) if number == n)
            }
            Pattern::Ordinary => !w.is_nil(),
            Pattern::Any => true,
        }
    }

    fn log(&mut self, tag: Tag, w: Word) {
        let text = match tag {
            Tag::Log => format!("log {}", self.value(w)),
            Tag::Status => format!("status {}", w.0),
            Tag::Item => format!("item {}", self.value(w)),
            Tag::For => format!("for {}", self.value(w)),
            Tag::Close => format!("close {}", self.value(w)),
            Tag::Raised => format!("raised {}", self.exception(w)),
        };
        self.events.push(text);
    }

    /// One instruction; the program goes on where the top frame stands, or at
    /// the pc given back.
    fn step(&mut self, pc: u32, inst: Inst) -> Result<Option<u32>, End> {
        let at = Pc(pc);
        let (m, fuel) = (&mut self.machine, &mut self.fuel);
        let answer = match inst {
            Inst::New(dst, f, n) => m.coro_new(fuel, at, Reg(dst), humdelzi::FunctionId(f), n),
            Inst::Resume(d, c, s) => m.resume(fuel, at, Reg(d), Reg(c), Reg(s)),
            Inst::Throw(d, c, s) => m.resume_throw(fuel, at, Reg(d), Reg(c), Reg(s)),
            Inst::Close(d, c, s) => m.coro_close(fuel, at, Reg(d), Reg(c), Reg(s)),
            Inst::Yield(d, s) => m.yield_(fuel, at, Reg(d), Reg(s)),
            Inst::Await(d, s) => m.await_(fuel, at, Reg(d), Reg(s)),
            Inst::Status(d, c) => m.coro_status(fuel, at, Reg(d), Reg(c)),
            Inst::Current(d) => m.coro_current(fuel, at, Reg(d)),
            Inst::IterNext { has, iter, val, src } => {
                m.iter_next(fuel, at, Reg(has), Reg(iter), Reg(val), Reg(src))
            }
            _ => return self.own(pc, inst),
        };
        match answer {
            Ok(Step::Next) => Ok(Some(pc + 1)),
            Ok(Step::Frame) => Ok(None),
            Err(error) => match m.raise(fuel, error, at) {
                Ok(_) => Ok(None),
                Err(fault) => Err(ended(fault)),
            },
        }
    }

    /// One that is not the machine's.
    fn own(&mut self, pc: u32, inst: Inst) -> Result<Option<u32>, End> {
        let next = Ok(Some(pc + 1));
        let jump = |to: u32, yes: bool| Ok(Some(if yes { to } else { pc + 1 }));
        match inst {
            Inst::Const(r, w) => self.put(r, w),
            Inst::Move(to, from) => self.put(to, self.get(from)),
            Inst::Add(to, from, n) => {
                let sum = (self.number(self.get(from)) + n).rem_euclid(1000);
                self.put(to, int(sum));
            }
            Inst::Jump(to) => return Ok(Some(to)),
            Inst::JumpIs(r, w, to) => return jump(to, self.get(r) == w),
            Inst::JumpOdd(r, to) => return jump(to, self.number(self.get(r)) % 2 == 1),
            Inst::JumpMatch(r, p, to) => return jump(to, self.matches(self.get(r), p)),
            Inst::JumpReg(r) => return Ok(Some(self.get(r).0 as u32)),
            Inst::Log(tag, r) => self.log(tag, self.get(r)),
            Inst::LogResult(r, s) => {
                let kind = match self.get(s).0 {
                    2 => "yield",
                    3 => "await",
                    4 => "stop",
                    _ => "?",
                };
                let text = format!("{kind} {}", self.value(self.get(r)));
                self.events.push(text);
            }
            Inst::Raise(r) => return self.raise(pc, Fault::Throw(self.get(r))),
            Inst::Return(r) => {
                let word = self.get(r);
                return match self.machine.finish(&mut self.fuel, Value::Word(word)) {
                    Ok(Finished::Resume) => Ok(None),
                    Ok(exit) => Err(End::Wrong(format!("{exit:?}"))),
                    Err(fault) => Err(ended(fault)),
                };
            }
            Inst::Iterator(to, from) => {
                let source = self.get(from);
                let made = self.machine.make_iterator(&mut self.fuel, source);
                self.put(to, made.map_err(ended)?);
            }
            Inst::HandOver(r) => {
                let coro = self.get(r);
                if let Err(fault) = self.machine.hand_over(&mut self.fuel, coro) {
                    return self.raise(pc, fault);
                }
            }
            Inst::HandOverSpent(to, r) => {
                if let Err(fault) = self.hand_over_spent(pc, to, self.get(r))? {
                    return self.raise(pc, fault);
                }
            }
            Inst::HandOverDeep(r) => {
                let fault = self.hand_over_deep(pc, self.get(r))?;
                return self.raise(pc, fault);
            }
            Inst::Stop => return Err(End::Done),
            _ => unreachable!("the machine's"),
        }
        next
    }

    fn raise(&mut self, pc: u32, fault: Fault) -> Result<Option<u32>, End> {
        let raised = self.machine.unwind(&mut self.fuel, fault, Some(Pc(pc)));
        raised.map(|_| None).map_err(ended)
    }

    /// Departure 16: no unit is left at the hand over. The next charge answers
    /// 10 and takes the bank back; units granted after it start no cleanup.
    fn hand_over_spent(&mut self, pc: u32, to: R, coro: Word) -> Result<Result<(), Fault>, End> {
        let (m, left) = (&mut self.machine, self.fuel.left() + self.fuel.banked().unwrap_or(0));
        if let Err(fault) = m.hand_over(&mut self.fuel, coro) {
            return Ok(Err(fault));
        }
        self.fuel = m.fuel(0);
        let queue = m.cleanup_queue().to_vec();
        let spent = m.coro_current(&mut self.fuel, Pc(pc), Reg(to));
        if spent != Err(StepError::Fault(Fault::OutOfFuel)) {
            return Err(End::Wrong(format!("no unit is left, and it answers {spent:?}")));
        }
        m.grant(&mut self.fuel, left).map_err(ended)?;
        if self.fuel.banked().is_some() || m.cleanup_queue() != queue || queue.last() != Some(&coro)
        {
            return Err(End::Wrong(format!("after 10: {:?}", self.fuel)));
        }
        Ok(Ok(()))
    }

    /// Departure 14: frames fill the stack when a charge searches the queue. The
    /// coroutine is off it and as it was. To hand it over again is the fault.
    fn hand_over_deep(&mut self, pc: u32, coro: Word) -> Result<Fault, End> {
        let (m, fuel) = (&mut self.machine, &mut self.fuel);
        if let Err(fault) = m.hand_over(fuel, coro) {
            return Ok(fault);
        }
        let (handed, depth) = (m.coroutine(coro), m.depth());
        let filler = FunctionId(self.codes.len() as u32 - 1);
        let full = loop {
            if let Err(fault) = m.function_call(fuel, Pc(pc), filler, Cont::Discard) {
                break fault;
            }
        };
        let charged = m.coro_current(fuel, Pc(pc), Reg(0));
        if charged == Err(StepError::Fault(Fault::OutOfFuel)) {
            return Err(End::Fuel);
        }
        if full != Fault::StackOverflow || charged != Ok(Step::Next) {
            return Err(End::Wrong(format!("{full}; at the full stack {charged:?}")));
        }
        while m.depth() > depth {
            let finished = m.finish(fuel, Value::Word(Word::NIL)).map_err(ended)?;
            if finished != Finished::Resume {
                return Err(End::Wrong(format!("{finished:?}")));
            }
        }
        if !m.cleanup_queue().is_empty() || m.coroutine(coro) != handed {
            return Err(End::Wrong(format!("after the search: {:?}", m.coroutine(coro))));
        }
        match m.hand_over(fuel, coro) {
            Err(fault) => Ok(fault),
            Ok(()) => Err(End::Wrong("handed over twice".into())),
        }
    }

    /// How many instructions were run.
    pub fn steps(&self) -> u32 {
        self.steps
    }

    /// Runs to the end, or so many steps.
    pub fn go(&mut self, steps: u32) -> Option<End> {
        let mut pc = self.paused.take();
        for _ in 0..steps {
            self.steps += 1;
            if self.steps > MOST {
                return Some(End::TooLarge);
            }
            let top = self.machine.top().expect("the main program's frame");
            let at = pc.unwrap_or(top.pc.0);
            let inst = self.codes[top.function.0 as usize].insts[at as usize];
            match self.step(at, inst) {
                Ok(next) => pc = next,
                Err(end) => return Some(end),
            }
        }
        self.paused = pc;
        None
    }
}

fn ended(fault: Fault) -> End {
    match fault.number() {
        10 => End::Fuel,
        9 | 14 => End::TooLarge,
        _ => End::Wrong(fault.to_string()),
    }
}
