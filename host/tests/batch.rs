//! `run` beside single calls: random lists of calls of every kind, refused ones
//! too, leave the same machine and fuel, and have the same answers.

use std::collections::BTreeSet;

use humdelzi::*;

/// Numbers that look random (xorshift).
struct Random(u64);

impl Random {
    fn below(&mut self, n: u64) -> u64 {
        self.0 ^= self.0 << 13;
        self.0 ^= self.0 >> 7;
        self.0 ^= self.0 << 17;
        self.0 % n
    }

    fn pc(&mut self) -> Pc {
        Pc(self.below(70) as u32)
    }

    /// Of a frame of 3, 4 or 8 registers, or one beyond.
    fn reg(&mut self) -> Reg {
        Reg([0, 0, 0, 1, 1, 2, 2, 3, 4, 8][self.below(10) as usize])
    }

    fn func(&mut self) -> FunctionId {
        FunctionId([0, 1, 1, 2, 3, 3, 4][self.below(7) as usize])
    }

    /// Nil, integers, and references to slots that are filled or not.
    fn word(&mut self) -> Word {
        match self.below(8) {
            0 => Word::NIL,
            1 => Word::int(self.below(9) as i64 - 4).expect("small"),
            _ => Word(Word::REFERENCE_BASE + self.below(12)),
        }
    }

    fn fault(&mut self) -> Fault {
        match self.below(4) {
            0 => Fault::TypeError,
            1 => Fault::Full, // which is none that unwinds
            _ => Fault::Throw(self.word()),
        }
    }

    fn call(&mut self) -> Call {
        let (pc, dst, coro, src) = (self.pc(), self.reg(), self.reg(), self.reg());
        let (callee, argc) = (self.reg(), self.below(3) as u8);
        match self.below(100) {
            30..=39 => Call::CoroNew { pc, dst: Reg(0), func: FunctionId(3), argc: 0 },
            40..=64 => Call::Resume { pc, dst: Reg(1), coro: Reg(0), src },
            65..=89 => Call::Yield { pc, dst: Reg(1), src: Reg(2) },
            90..=94 => Call::HostCall { func: FunctionId(0) },
            0 => Call::CoroNew { pc, dst, func: self.func(), argc },
            1 => Call::CoroNewIndirect { pc, dst, callee, argc },
            2 => Call::Spawn { pc, dst, callee, argc },
            3 => Call::YieldKv { pc, dst, src, key: coro },
            4 => Call::Await { pc, dst, src },
            5 => Call::ResumeThrow { pc, dst, coro, src },
            6 => Call::CoroClose { pc, dst, coro, src },
            7 => Call::CoroStatus { pc, dst, coro },
            8 => Call::CoroCurrent { pc, dst },
            9 => Call::CoroKey { pc, dst, coro },
            10 => Call::CoroResult { pc, dst, coro },
            11 => Call::IterNext { pc, has: dst, iter: coro, val: callee, src },
            12 => {
                let word = self.word();
                let values =
                    [Value::None, Value::Word(word), Value::I64(word.0 as i64), Value::U64(word.0)];
                Call::Finish { value: values[self.below(4) as usize] }
            }
            13 => {
                let given = self.below(2) == 0;
                Call::Unwind { fault: self.fault(), pc: given.then_some(pc) }
            }
            14 => Call::SpawnTask { word: self.word() },
            15 | 16 => Call::HostCall { func: self.func() },
            17 => Call::HostEntry { coro: self.word(), word: self.word() },
            18 => {
                let conts = [Cont::Discard, Cont::Dyn(dst), Cont::Value(dst), Cont::Entry];
                Call::FunctionCall { pc, func: self.func(), cont: conts[self.below(4) as usize] }
            }
            19 => Call::PutWord { reg: dst, word: self.word() },
            20 | 21 => Call::MakeIterator { src: self.word() },
            22 => Call::TakeOutcome,
            23..=25 => Call::HandOver { coro: self.word() },
            26 => Call::Grant { amount: [3, 40, u64::MAX][self.below(3) as usize] },
            27 => Call::StopRun,
            28 => Call::Look,
            29 => Call::Resume { pc, dst, coro, src },
            _ => Call::Yield { pc, dst, src },
        }
    }
}

/// Small enough that each limit is met.
fn machine(units: u64) -> (Machine, Fuel) {
    let handler = Handler { start: Pc(0), end: Pc(50), target: Pc(60), catch: Reg(2) };
    let setup = Setup::new().depth(4).stack(30).rows(4).slots(24).memory(1200);
    let setup = setup
        .hook(FunctionId(2))
        .function(Function::new(8))
        .function(Function::new(4).parameters(1))
        .function(Function::new(1).parameters(1))
        .function(Function::new(3).handler(handler));
    let (mut m, mut fuel) = setup.machine().expect("a good set-up");
    assert_eq!(m.grant(&mut fuel, units), Ok(()));
    (m, fuel)
}

#[test]
fn a_batch_is_its_calls() {
    let mut r = Random(0x9E37_79B9_7F4A_7C15);
    let (mut kinds, mut numbers, mut switches) = (BTreeSet::new(), BTreeSet::new(), 0);
    for _ in 0..3000 {
        let calls: Vec<Call> = (0..r.below(120)).map(|_| r.call()).collect();
        let (mut one, mut fuel) = machine([15, 60, 500][r.below(3) as usize]);
        let (mut many, mut its_fuel) = (one.clone(), one.fuel(fuel.left()));
        assert_eq!(its_fuel, fuel);
        let singly: Vec<Answer> = calls.iter().map(|&c| one.call(&mut fuel, c)).collect();
        let mut batch = Batch::new(&calls);
        let answers = many.run(&mut its_fuel, &mut batch);
        assert_eq!(answers.iter().collect::<Vec<_>>(), singly, "{calls:?}");
        assert!((one, fuel) == (many, its_fuel), "{calls:?}");
        for (c, a) in calls.iter().zip(&singly) {
            kinds.insert(c.words()[0]);
            numbers.insert(a.number());
            let hot = matches!(c, Call::Resume { .. } | Call::Yield { .. });
            switches += usize::from(hot && matches!(a, Answer::Stepped { step: Step::Frame, .. }));
        }
    }
    println!("batch: kinds {kinds:?}, numbers {numbers:?}, {switches} switches");
    assert_eq!(kinds.len(), 27, "every kind of call");
    assert!(numbers.len() >= 16 && switches > 10_000);
}
