//! The generator on states that random machines do not have.

use oracle::call::Call;
use oracle::engine::Engine;
use oracle::generate::{next_calls, Rng};
use oracle::plain::Plain;
use oracle::sound::sound;
use oracle::world::{Costs, Func, Object, Setup, World};

/// A function object that names no function is a callee like others.
#[test]
fn no_function_as_callee() {
    let costs = Costs { frame: 32, coro: 104, coro_object: 160, int: 56, error: 56, iter: 112 };
    let funcs = vec![Func { nregs: 4, nparams: 1, handlers: vec![] }; 2];
    let mut start = World::fresh(Setup {
        depth: 4,
        stack: 20,
        rows: 2,
        slots: 6,
        memory: 1000,
        costs,
        hook: Some(0),
        funcs,
    });
    start.slots[1].object = Object::Func(9);
    let mut engine = Plain::default();
    let mut refused = 0;
    for seed in 0..300 {
        let mut rng = Rng::new(seed);
        engine.load(&start);
        engine.call(&Call::Grant { fuel: 50 });
        engine.call(&Call::HostCall { func: 0 });
        for _ in 0..10 {
            for call in next_calls(&mut rng, &engine.world(), costs) {
                let answer = engine.call(&call);
                let callee = matches!(call, Call::CoroNewIndirect { .. } | Call::Spawn { .. });
                refused += u32::from(callee && answer.number == 2);
                assert_eq!(sound(&engine.world()), Ok(()), "{call:?}");
            }
        }
    }
    assert!(refused > 0);
}
