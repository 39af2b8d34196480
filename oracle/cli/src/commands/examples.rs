//! 01's examples on an engine.

use oracle::engine::Engine;
use oracle::examples::{all, sizes_below};
use oracle::layout;
use oracle::plain::Plain;
use oracle::world::Costs;

fn run(name: &str, engine: &mut dyn Engine, costs: Costs) -> Result<(), String> {
    let examples = all(costs);
    for e in &examples {
        e.run(engine)?;
    }
    println!("examples: {name}: all {} of P1 to P8 hold", examples.len());
    Ok(())
}

pub(crate) fn second(costs: Costs) -> Result<(), String> {
    run("second engine", &mut Plain::default(), costs)
}

pub(crate) fn original(original: &mut dyn Engine, costs: Costs) -> Result<(), String> {
    run("original", original, costs)
}

fn show(name: &str, engine: &mut dyn Engine, costs: Costs) -> Result<(), String> {
    let (start, calls) = sizes_below(costs);
    engine.load(&start);
    for call in &calls {
        let answer = engine.call(call);
        let w = engine.world();
        println!(
            "{name}: {}: {}, memory {} of {}",
            layout::text(call, layout::call),
            layout::text(&answer, layout::answer),
            w.used,
            w.setup.memory
        );
        if answer.number != 0 {
            return Err(format!("{name}: what is saved was charged again"));
        }
    }
    Ok(())
}

/// Largest sizes below what is saved: nothing is charged for what was saved.
pub(crate) fn sizes(costs: Costs) -> Result<(), String> {
    show("second engine", &mut Plain::default(), costs)?;
    #[cfg(original)]
    show("original", &mut original::Original::blank(), costs)?;
    Ok(())
}
