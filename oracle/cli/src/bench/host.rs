//! Round trips through the crate `host/`: its methods, and its `run`.

use humdelzi::{
    Answer, Batch, Call, Cont, Fuel, Function, FunctionId, Machine, Pc, Reg, Setup, Step, StepError,
};
use oracle::world::{self, Costs};

use super::{setup, small, Switch, MOST};

/// A machine with fuel and a bottom frame of function 0.
fn fresh(s: &world::Setup) -> (Machine, Fuel) {
    let limits = Setup::new().depth(s.depth).stack(s.stack).rows(s.rows).slots(s.slots);
    let widths = s.funcs.iter().map(|f| Function::new(f.nregs as u16));
    let (mut m, mut fuel) = widths.fold(limits, Setup::function).machine().expect("a set-up");
    m.grant(&mut fuel, 1 << 60).expect("fuel");
    m.host_call(&mut fuel, FunctionId(0)).expect("room for a frame");
    (m, fuel)
}

/// Whether the frame on top goes on.
fn switched(step: Result<Step, StepError>) -> bool {
    matches!(step, Ok(Step::Frame))
}

/// What makes a round trip ready; nothing else is measured here.
macro_rules! others {
    () => {
        fn push(&mut self, func: u32) {
            let made = self.0.function_call(&mut self.1, Pc(0), FunctionId(func), Cont::Discard);
            made.expect("room for a frame");
        }

        fn create(&mut self, func: u32) {
            let made = self.0.coro_new(&mut self.1, Pc(0), Reg(0), FunctionId(func), 0);
            assert_eq!(made, Ok(Step::Next), "created");
        }

        fn resume(&mut self) {
            let entered = self.0.resume(&mut self.1, Pc(0), Reg(1), Reg(0), Reg(2));
            assert!(switched(entered), "entered");
        }

        fn suspend(&mut self) {
            assert!(switched(self.0.yield_(&mut self.1, Pc(0), Reg(0), Reg(1))), "suspended");
        }
    };
}

/// The methods `resume` and `yield_`.
pub(crate) struct Methods(Machine, Fuel);

impl Methods {
    pub(crate) fn new(costs: Costs) -> Methods {
        let (m, fuel) = fresh(&setup(costs));
        Methods(m, fuel)
    }
}

impl Switch for Methods {
    others!();
}

/// The calls of so many round trips.
fn calls(n: usize) -> Vec<Call> {
    let enter = Call::Resume { pc: Pc(0), dst: Reg(1), coro: Reg(0), src: Reg(2) };
    [enter, Call::Yield { pc: Pc(0), dst: Reg(0), src: Reg(1) }].repeat(n)
}

/// `run` on the small machine.
pub(crate) struct Run(Machine, Fuel, Batch);

impl Run {
    pub(crate) fn new(costs: Costs) -> Run {
        let (m, fuel) = fresh(&small(costs));
        Run(m, fuel, Batch::new(&calls(MOST)))
    }
}

impl Switch for Run {
    others!();

    fn trips(&mut self, n: usize) {
        self.2.truncate(2 * n);
        let answers = self.0.run(&mut self.1, &mut self.2);
        let last = answers.get(2 * n - 1);
        assert!(matches!(last, Some(Answer::Stepped { step: Step::Frame, .. })), "suspended");
    }
}
