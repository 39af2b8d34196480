//! One function per command.

mod antt;
mod bench;
mod examples;
mod fuzz;
mod library;
mod recorded;
mod run;
mod trace;
mod words;

use std::path::Path;

use oracle::engine::Engine;
use oracle::plain::Plain;
use oracle::world::Costs;

const USAGE: &str = "usage: oracle COMMAND
  check             everything below that tests, in one go
  run               calls from the standard input: answers and states
  fuzz SEED N       N random sequences on the original and the second engine
  coverage SEED N   the same, with a table of calls by answers
  library SEED N    N random sequences on the original and through the library's functions
  wild SEED N       the same, with operands at and beyond every limit
  carried SEED N    the same through `bvm_call_unchecked`, with one word changed on the way
  bad SEED N        N lent memories that hold anything, through the library
  set-ups SEED N    N set-ups, good and bad, through the library
  trace SEED N      N random sequences as text
  damaged SEED N    N states with one number changed, and whether each is sound
  examples          01's P1 to P8
  sizes             largest sizes below the saved ones, on the original as it is
  record SEED N     writes recorded/answers.txt: N sequences or more
  renew             answers its sequences again, and adds those by hand that it lacks
  verify            replays recorded/answers.txt
  show I            recorded sequence I as text
  mutants           wrong engines against recorded/answers.txt
  antt SEED N DIR   N random sequences as theorems about the definitions
  antt-recorded FROM TO DIR   recorded sequences as theorems
  antt-damaged SEED N DIR     states at each rule's edge as theorems, and damaged ones, each rule broken up to N times
  antt-words FROM TO DIR      recorded sequences in lent words as theorems
  antt-memories DIR           lent words, one changed at a rule's edge, as theorems
  bench [MEASURE].. the original's speed, the library's beside it, and others', of these measures by number
  goals N           the benchmark's goals by N processes, each of which is `ratios`
  stores [ENGINE].. instructions, loads and stores of a round trip, by lackey, and its time
  growth FILE       how a round trip grows with frames and registers, as a plot
  instructions      the library's instructions of each measure, by callgrind
  count ENGINE I N  N operations of measure I, for callgrind";

#[cfg(not(original))]
const SKIPPED: &str = "skipped: the original's sources are not here (BVM_SRC is unset)";

/// The costs that the recorded answers were made with.
pub(crate) const COSTS: Costs =
    Costs { frame: 32, coro: 104, coro_object: 160, int: 56, error: 56, iter: 112 };

pub(crate) fn run(args: &[&str]) -> Result<(), String> {
    match *args {
        ["check"] => check(),
        ["run"] => with_original(run::run),
        ["fuzz", seed, n] => seeded(seed, n, fuzz::fuzz),
        ["coverage", seed, n] => seeded(seed, n, fuzz::coverage),
        ["library", seed, n] => seeded(seed, n, library::library),
        ["wild", seed, n] => seeded(seed, n, library::wild),
        ["carried", seed, n] => seeded(seed, n, library::carried),
        ["bad", seed, n] => library::bad(COSTS, number(seed)?, number(n)?),
        ["set-ups", seed, n] => library::set_ups(COSTS, number(seed)?, number(n)?),
        ["trace", seed, n] => seeded(seed, n, trace::trace),
        ["damaged", seed, n] => {
            trace::damaged(COSTS, number(seed)?, number(n)?);
            Ok(())
        }
        ["examples"] => examples(),
        ["sizes"] => examples::sizes(COSTS),
        ["record", seed, n] => seeded(seed, n, recorded::record),
        ["renew"] => with_original(recorded::renew),
        ["verify"] => verify(),
        ["show", i] => recorded::show(number(i)?),
        ["mutants"] => recorded::mutants(true),
        ["antt", seed, n, dir] => {
            seeded(seed, n, |o, costs, seed, n| antt::random(o, costs, seed, n, Path::new(dir)))
        }
        ["antt-recorded", from, to, dir] => {
            let (from, to) = (number(from)? as usize, number(to)? as usize);
            antt::recorded(&mut Plain::default(), from, to, Path::new(dir))
        }
        ["antt-words", from, to, dir] => {
            let (from, to) = (number(from)? as usize, number(to)? as usize);
            words::recorded(&mut Plain::default(), from, to, Path::new(dir))
        }
        ["antt-memories", dir] => words::memories(Path::new(dir)),
        ["antt-damaged", seed, n, dir] => {
            antt::damaged(COSTS, number(seed)?, number(n)?, Path::new(dir))
        }
        ["bench", ref only @ ..] => bench::bench(only),
        ["goals", n] => crate::bench::goals(number(n)? as usize),
        ["ratios"] => crate::bench::ratios(bench::costs()?),
        ["stores", ref only @ ..] => crate::bench::stores::table(bench::costs()?, only),
        ["growth", file] => crate::bench::growth(bench::costs()?, file),
        ["instructions"] => crate::bench::recorded(),
        ["count", engine, i, n] => {
            crate::bench::count(bench::costs()?, engine, number(i)? as usize, number(n)? as usize)
        }
        _ => Err(USAGE.into()),
    }
}

/// What the recorded answers allow, then what needs the original.
fn check() -> Result<(), String> {
    examples()?;
    verify()?;
    recorded::mutants(false)?;
    with_original(|original, costs| fuzz::reached(original, costs, 1, 50_000))
}

fn examples() -> Result<(), String> {
    examples::second(COSTS)?;
    with_original(examples::original)
}

fn verify() -> Result<(), String> {
    recorded::verify_second()?;
    with_original(recorded::verify_original)
}

fn number(s: &str) -> Result<u64, String> {
    s.parse().map_err(|_| format!("`{s}` is no number"))
}

/// A command of a seed and a number that needs the original.
fn seeded(
    seed: &str,
    n: &str,
    f: impl FnOnce(&mut dyn Engine, Costs, u64, u64) -> Result<(), String>,
) -> Result<(), String> {
    let (seed, n) = (number(seed)?, number(n)?);
    with_original(|original, costs| f(original, costs, seed, n))
}

/// Runs `f` with the original and its costs, or says that it is not here.
fn with_original(
    f: impl FnOnce(&mut dyn Engine, Costs) -> Result<(), String>,
) -> Result<(), String> {
    #[cfg(original)]
    {
        let costs = original::costs();
        f(&mut original::Original::blank(), costs)
    }
    #[cfg(not(original))]
    {
        let _ = f;
        println!("{SKIPPED}");
        Ok(())
    }
}
