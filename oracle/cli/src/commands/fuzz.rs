//! Random sequences on the original and on the second engine.

use oracle::compare::{compare, Made};
use oracle::coverage::Coverage;
use oracle::engine::Engine;
use oracle::generate::{sequence, Rng};
use oracle::plain::Plain;
use oracle::world::Costs;

/// Calls in a sequence, about; a roomy one has three times as many.
pub(crate) const LENGTH: usize = 20;

/// The random source of one sequence.
pub(crate) fn rng(seed: u64, i: u64) -> Rng {
    Rng::new(seed.wrapping_mul(0x1_0000_0001).wrapping_add(i))
}

/// Runs `n` sequences on both; a difference or an unsound state is an error.
fn each(
    original: &mut dyn Engine,
    costs: Costs,
    (seed, n): (u64, u64),
    mut see: impl FnMut(Made),
) -> Result<(), String> {
    let mut second = Plain::default();
    for i in 0..n {
        let sequence = sequence(&mut rng(seed, i), costs, LENGTH);
        compare(original, &mut second, &sequence, &mut see)
            .map_err(|f| format!("sequence {i}:\n{}", f.text()))?;
    }
    Ok(())
}

pub(crate) fn fuzz(
    original: &mut dyn Engine,
    costs: Costs,
    seed: u64,
    n: u64,
) -> Result<(), String> {
    let mut calls = 0_u64;
    each(original, costs, (seed, n), |_| calls += 1)?;
    println!("fuzz: {n} sequences, {calls} calls, no difference, every state sound");
    Ok(())
}

/// As `fuzz`, counting what was reached; every cell that can be must be met.
fn count(original: &mut dyn Engine, costs: Costs, seed: u64, n: u64) -> Result<Coverage, String> {
    let mut seen = Coverage::default();
    each(original, costs, (seed, n), |m| seen.see(&m))?;
    Ok(seen)
}

fn judge(seen: &Coverage) -> Result<(), String> {
    let amiss = seen.amiss();
    amiss.is_empty().then_some(()).ok_or_else(|| amiss.join("\n"))
}

/// Prints the tables.
pub(crate) fn coverage(
    original: &mut dyn Engine,
    costs: Costs,
    seed: u64,
    n: u64,
) -> Result<(), String> {
    let seen = count(original, costs, seed, n)?;
    println!("{}", seen.text());
    judge(&seen)
}

/// Prints the counts only.
pub(crate) fn reached(
    original: &mut dyn Engine,
    costs: Costs,
    seed: u64,
    n: u64,
) -> Result<(), String> {
    let seen = count(original, costs, seed, n)?;
    judge(&seen)?;
    println!("fuzz: {n} sequences, {} calls, no difference, every state sound", seen.calls());
    println!(
        "coverage: all {} cells of call and answer met, and all {} situations",
        seen.met(),
        seen.situations.len()
    );
    Ok(())
}
