//! The compiled library beside the original, and bad input on it.

use oracle::engine::Engine;
use oracle::world::Costs;

#[cfg(library)]
mod linked {
    use std::time::Instant;

    use oracle::bad;
    use oracle::beside::{Count, Library};
    use oracle::engine::Engine;
    use oracle::generate::{sequence, wild, Rng, Sequence};
    use oracle::world::Costs;

    use super::super::fuzz::{rng, LENGTH};

    /// `n` sequences beside the original, with a table of calls by answers.
    pub(crate) fn beside(
        name: &str,
        original: &mut dyn Engine,
        (seed, n): (u64, u64),
        mut next: impl FnMut(&mut Rng) -> Sequence,
    ) -> Result<(), String> {
        let (start, mut count) = (Instant::now(), Count::default());
        for i in 0..n {
            let s = next(&mut rng(seed, i));
            Library::beside(original, &s, &mut count, |_, _, _| Ok(()))
                .map_err(|why| format!("sequence {i}: {why}"))?;
        }
        println!(
            "{name}: {} sequences, {} calls through bvm_call, bvm_call_unchecked, {}{} ({} runs), {} cells, {} words that are no call, {} words of state, {:.1} s, no difference",
            count.sequences,
            count.calls,
            if cfg!(switch) { "bvm_try_resume_unchecked and bvm_try_yield_unchecked, " } else { "" },
            if cfg!(batch) { "bvm_run and bvm_batch" } else { "bvm_run" },
            count.runs,
            count.met(),
            count.none,
            count.words,
            start.elapsed().as_secs_f64()
        );
        println!("{}", count.table());
        Ok(())
    }

    pub(crate) fn library(o: &mut dyn Engine, c: Costs, seed: u64, n: u64) -> Result<(), String> {
        beside("library", o, (seed, n), |rng| sequence(rng, c, LENGTH))
    }

    pub(crate) fn wilds(o: &mut dyn Engine, c: Costs, seed: u64, n: u64) -> Result<(), String> {
        beside("wild", o, (seed, n), |rng| wild(rng, c, LENGTH))
    }

    pub(crate) fn carried(o: &mut dyn Engine, c: Costs, seed: u64, n: u64) -> Result<(), String> {
        let (start, mut count) = (Instant::now(), bad::Carried::default());
        for i in 0..n {
            let mut rng = rng(seed, i);
            let s = sequence(&mut rng, c, LENGTH);
            bad::carried(&mut rng, &s, o, &mut count).map_err(|e| format!("run {i}: {e}"))?;
        }
        println!(
            "carried: {} runs with one word changed on the way: {} refused with 11 at the load, put right and carried on, {} sound still and carried on; {} calls, {:.1} s, no difference",
            count.runs,
            count.refused,
            count.sound,
            count.calls,
            start.elapsed().as_secs_f64()
        );
        Ok(())
    }

    pub(crate) fn memories(c: Costs, seed: u64, n: u64) -> Result<(), String> {
        let (start, mut tried) = (Instant::now(), bad::Tried::default());
        bad::memories(&mut Rng::new(seed), c, n, &mut tried)?;
        let [sound, unsound] = tried.totals();
        println!(
            "bad: {} memories, {sound} sound and {unsound} not, {} words, {:.1} s: 11 exactly where the rules say so, nothing changed on a refusal",
            tried.count(),
            tried.words,
            start.elapsed().as_secs_f64()
        );
        for (damage, [sound, unsound]) in &tried.memories {
            println!("  {damage:?}: {sound} sound, {unsound} not");
        }
        for ((function, number), n) in &tried.answers {
            println!("  {function} {number}: {n}");
        }
        for (rule, n) in &tried.rules {
            println!("  broken: {rule}: {n}");
        }
        Ok(())
    }

    pub(crate) fn set_ups(c: Costs, seed: u64, n: u64) -> Result<(), String> {
        let (start, mut tried) = (Instant::now(), bad::Tried::default());
        bad::set_ups(&mut Rng::new(seed), c, n, &mut tried)?;
        println!(
            "set-ups: {n}, by answer {:?}, {:.1} s",
            tried.answers,
            start.elapsed().as_secs_f64()
        );
        Ok(())
    }
}

#[cfg(not(library))]
mod linked {
    use super::{Costs, Engine};

    fn skipped() -> Result<(), String> {
        println!("skipped: the library is not linked (BVM_LIB is unset)");
        Ok(())
    }

    pub(crate) fn library(_: &mut dyn Engine, _: Costs, _: u64, _: u64) -> Result<(), String> {
        skipped()
    }

    pub(crate) fn wilds(_: &mut dyn Engine, _: Costs, _: u64, _: u64) -> Result<(), String> {
        skipped()
    }

    pub(crate) fn carried(_: &mut dyn Engine, _: Costs, _: u64, _: u64) -> Result<(), String> {
        skipped()
    }

    pub(crate) fn memories(_: Costs, _: u64, _: u64) -> Result<(), String> {
        skipped()
    }

    pub(crate) fn set_ups(_: Costs, _: u64, _: u64) -> Result<(), String> {
        skipped()
    }
}

/// Random sequences, from set-ups and from random sound machines.
pub(crate) fn library(
    original: &mut dyn Engine,
    costs: Costs,
    seed: u64,
    n: u64,
) -> Result<(), String> {
    linked::library(original, costs, seed, n)
}

/// Calls with operands at and beyond every limit.
pub(crate) fn wild(o: &mut dyn Engine, costs: Costs, seed: u64, n: u64) -> Result<(), String> {
    linked::wilds(o, costs, seed, n)
}

/// Runs with one word changed on the way.
pub(crate) fn carried(o: &mut dyn Engine, costs: Costs, seed: u64, n: u64) -> Result<(), String> {
    linked::carried(o, costs, seed, n)
}

/// Lent memories that hold anything.
pub(crate) fn bad(costs: Costs, seed: u64, n: u64) -> Result<(), String> {
    linked::memories(costs, seed, n)
}

/// Set-ups, good and bad.
pub(crate) fn set_ups(costs: Costs, seed: u64, n: u64) -> Result<(), String> {
    linked::set_ups(costs, seed, n)
}
