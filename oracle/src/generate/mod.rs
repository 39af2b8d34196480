//! Random set-ups, sound machines and calls.

mod calls;
mod limits;
mod machines;
mod rng;
mod setups;
mod wild;
mod words;

pub use calls::next_calls;
pub use machines::machine;
pub use rng::Rng;
pub use setups::{bad_setup, setup, Profile};
pub use wild::{wild, wild_call};

use crate::call::Call;
use crate::engine::Engine;
use crate::plain::Plain;
use crate::world::{Costs, World};

/// A start state and the calls made from it.
#[derive(Clone, Debug)]
pub struct Sequence {
    pub start: World,
    pub calls: Vec<Call>,
}

/// A random sequence of about `len` calls. The second engine runs along to
/// see what the next call finds.
#[must_use]
pub fn sequence(rng: &mut Rng, costs: Costs, len: usize) -> Sequence {
    let profile = match rng.below(100) {
        0..=3 => Profile::Wide,
        4..=30 => Profile::Roomy,
        _ => Profile::Small,
    };
    let mut calls = Vec::new();
    let fresh = profile == Profile::Roomy || rng.chance(15);
    let start = if fresh {
        calls.extend(rng.chance(70).then_some(Call::Grant { fuel: 1000 }));
        World::fresh(setup(rng, costs, profile))
    } else {
        machine(rng, costs, profile)
    };
    let len = if profile == Profile::Roomy { 3 * len } else { len };
    let mut engine = Plain::default();
    engine.load(&start);
    for call in &calls {
        engine.call(call);
    }
    while calls.len() < len {
        for call in next_calls(rng, &engine.world(), costs) {
            engine.call(&call);
            calls.push(call);
        }
    }
    Sequence { start, calls }
}
