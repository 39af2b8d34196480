//! Which rule a refused set-up breaks: on random set-ups the crate tells one
//! exactly where the linked function refuses, and each is told.

use std::collections::BTreeMap;

use humdelzi::*;

/// Numbers that look random (xorshift).
struct Random(u64);

impl Random {
    fn below(&mut self, n: u64) -> u64 {
        self.0 ^= self.0 << 13;
        self.0 ^= self.0 >> 7;
        self.0 ^= self.0 << 17;
        self.0 % n
    }

    /// One of 1 to `most`; now and then a bound, or a number beyond it.
    fn number(&mut self, most: u64) -> u64 {
        match self.below(40) {
            0 => [0, most + 1, u64::MAX, 1 << 32][self.below(4) as usize],
            1 | 2 => [1, most][self.below(2) as usize],
            _ => 1 + self.below(most.min(20)),
        }
    }

    fn cost(&mut self) -> u64 {
        match self.below(40) {
            0 => 65_537 + self.below(2) * (u64::MAX - 65_537),
            1 => 65_536,
            _ => self.below(65_537),
        }
    }

    fn function(&mut self) -> Function {
        let registers = if self.below(8) == 0 { 0 } else { self.number(256).min(258) as u16 };
        let most = u64::from(registers) + u64::from(self.below(30) == 0);
        let handlers = if self.below(30) == 0 { 7 + self.below(3) } else { self.below(3) };
        let mut made = Function::new(registers).parameters(self.below(most + 1) as u16);
        for _ in 0..handlers {
            let beyond = u64::from(self.below(20) == 0 || registers == 0);
            let catch = Reg(self.below(u64::from(registers) + beyond) as u16);
            let pc = Pc(self.below(1 << 32) as u32);
            made = made.handler(Handler { start: pc, end: pc, target: pc, catch });
        }
        made
    }

    fn setup(&mut self) -> Setup {
        let [frame, coroutine, object, integer, error, iterator] = [0; 6].map(|_| self.cost());
        let mut setup = Setup::new()
            .depth(self.number(128))
            .stack(self.number(1024))
            .rows(self.number(64))
            .slots(self.number(4096))
            .memory(self.below(u64::MAX))
            .costs(Costs { frame, coroutine, object, integer, error, iterator });
        let functions = if self.below(20) == 0 { self.below(35) } else { 1 + self.below(4) };
        for _ in 0..functions {
            setup = setup.function(self.function());
        }
        match self.below(3) {
            0 => setup.hook(FunctionId(self.below(functions + 1) as u32)),
            _ => setup,
        }
    }
}

/// The rule without its numbers.
fn name(e: SetupError) -> &'static str {
    match e {
        SetupError::Depth(_) => "depth",
        SetupError::Stack(_) => "stack",
        SetupError::Rows(_) => "rows",
        SetupError::Slots(_) => "slots",
        SetupError::Cost(..) => "cost",
        SetupError::Functions(_) => "functions",
        SetupError::SlotsForFunctions { .. } => "slots for functions",
        SetupError::Registers(..) => "registers",
        SetupError::Parameters(..) => "parameters",
        SetupError::Handlers(..) => "handlers",
        SetupError::Catch(..) => "catch",
        SetupError::Hook(_) => "hook",
        SetupError::HookRegister(_) => "hook's register",
    }
}

#[test]
fn a_refused_set_up_breaks_the_rule_that_is_told() {
    let mut r = Random(0x9E37_79B9_7F4A_7C15);
    let (mut accepted, mut broken) = (0, BTreeMap::<&str, u64>::new());
    for _ in 0..20_000 {
        let setup = r.setup();
        // `machine` asks the library; that it refuses and no rule is broken panics
        match (setup.machine(), setup.broken()) {
            (Ok((m, fuel)), None) => {
                assert!(m.check(&fuel) && m.setup() == setup);
                accepted += 1;
            }
            (Err(e), Some(rule)) => {
                assert_eq!((e, e.fault()), (rule, Fault::Unsound));
                assert!(e.to_string().starts_with("11: "));
                *broken.entry(name(e)).or_default() += 1;
            }
            (made, rule) => panic!("{setup:?}\naccepted: {}, broken: {rule:?}", made.is_ok()),
        }
    }
    println!("rules: {accepted} set-ups accepted; refused by rule: {broken:?}");
    assert!(accepted > 1000);
    assert_eq!(broken.len(), 13, "every rule is met");
}
