//! Runs and states in text, for checks made elsewhere.

use oracle::codec::NumReader;
use oracle::engine::Engine;
use oracle::generate::{machine, sequence, Profile, Rng};
use oracle::layout;
use oracle::sound::sound;
use oracle::world::{Costs, World};

use super::fuzz::{rng, LENGTH};

/// Random sequences, each as `oracle run` takes it (`load`, then calls), with
/// the answer and the state after each call.
pub(crate) fn trace(
    original: &mut dyn Engine,
    costs: Costs,
    seed: u64,
    n: u64,
) -> Result<(), String> {
    for i in 0..n {
        let sequence = sequence(&mut rng(seed, i), costs, LENGTH);
        original.load(&sequence.start);
        println!("load {}", layout::text(&sequence.start, layout::world));
        for call in &sequence.calls {
            println!("{}", layout::text(call, layout::call));
            println!("{}", layout::text(&original.call(call), layout::answer));
            println!("state {}", layout::text(&original.world(), layout::world));
        }
    }
    Ok(())
}

/// Random sound states with one number changed, each with the answer that a
/// `load` gives and the rule that is broken.
pub(crate) fn damaged(costs: Costs, seed: u64, n: u64) {
    let mut left = n;
    let mut rng = Rng::new(seed);
    while left > 0 {
        let Some(w) = damage(&mut rng, costs) else {
            continue;
        };
        left -= 1;
        println!("load {}", layout::text(&w, layout::world));
        match sound(&w) {
            Ok(()) => println!("answer 0"),
            Err(rule) => println!("answer 11 # {rule}"),
        }
    }
}

/// `None` if the damaged numbers are no state at all.
pub(crate) fn damage(rng: &mut Rng, costs: Costs) -> Option<World> {
    let mut numbers = layout::numbers(&machine(rng, costs, Profile::Small), layout::world);
    let at = rng.below(numbers.len());
    let other = numbers[rng.below(numbers.len())];
    numbers[at] = match rng.below(5) {
        0 => 0,
        1 => numbers[at].wrapping_add(1),
        2 => numbers[at].wrapping_sub(1),
        3 => rng.below(8) as u64,
        _ => other,
    };
    let mut c = NumReader(&numbers);
    let w = layout::from_numbers(&mut c, World::default(), layout::world).ok()?;
    c.0.is_empty().then_some(w)
}
