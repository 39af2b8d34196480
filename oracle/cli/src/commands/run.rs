//! Reads calls from the standard input, one to a line, and prints answers and
//! states. `load` takes a state; `#` begins a comment. Lines with answers and
//! states are passed over, so that a run's output can be run again.

use std::io::{self, BufRead};

use oracle::call::{Answer, Call};
use oracle::engine::Engine;
use oracle::layout;
use oracle::sound::sound;
use oracle::world::{Costs, World};

pub(crate) fn run(original: &mut dyn Engine, costs: Costs) -> Result<(), String> {
    for (i, line) in io::stdin().lock().lines().enumerate() {
        let line = line.map_err(|e| e.to_string())?;
        let line = line.trim();
        let passed = ["#", "answer ", "state "].iter().any(|p| line.starts_with(p));
        if line.is_empty() || passed {
            continue;
        }
        let answer = one(original, costs, line).map_err(|e| format!("line {}: {e}", i + 1))?;
        println!("{}", layout::text(&answer, layout::answer));
        println!("state {}", layout::text(&original.world(), layout::world));
    }
    Ok(())
}

fn one(original: &mut dyn Engine, costs: Costs, line: &str) -> Result<Answer, String> {
    let this_build = |found: Costs| {
        (found == costs)
            .then_some(())
            .ok_or(format!("this build of the original has the costs {costs:?}"))
    };
    if let Some(rest) = line.strip_prefix("load ") {
        let w = layout::from_text(rest, World::default(), layout::world)?;
        if let Err(rule) = sound(&w) {
            println!("# {rule}");
            return Ok(Answer::plain(11));
        }
        this_build(w.setup.costs)?;
        original.load(&w);
        return Ok(Answer::plain(0));
    }
    let call = layout::from_text(line, Call::Look, layout::call)?;
    if let Call::SetUp(s) = &call {
        if oracle::sound::good_setup(s).is_ok() {
            this_build(s.costs)?;
        }
    }
    Ok(original.call(&call))
}
