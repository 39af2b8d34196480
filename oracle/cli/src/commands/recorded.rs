//! The recorded answers: making them, replaying them, and what they tell
//! apart.

use std::fs;
use std::path::PathBuf;

use oracle::aimed;
use oracle::call::Call;
use oracle::compare::compare;
use oracle::engine::Engine;
use oracle::generate::Sequence;
use oracle::layout;
use oracle::plain::wrong::Wrong;
use oracle::plain::Plain;
use oracle::recorded::{read, replay, write, Recorded};
use oracle::sample::sample;
use oracle::world::Costs;

fn file() -> PathBuf {
    PathBuf::from(env!("CARGO_MANIFEST_DIR")).join("../recorded/answers.txt")
}

pub(crate) fn load() -> Result<Vec<Recorded>, String> {
    let text = fs::read_to_string(file()).map_err(|e| format!("{}: {e}", file().display()))?;
    read(&text)
}

fn calls(all: &[Recorded]) -> usize {
    all.iter().map(|r| r.lines.len()).sum()
}

/// Cells of call and answer that occur.
fn cells(all: &[Recorded]) -> usize {
    let mut met = vec![[false; 18]; Call::NAMES.len()];
    for l in all.iter().flat_map(|r| &r.lines) {
        met[l.call.number()][usize::from(l.answer.number)] = true;
    }
    met.iter().flatten().filter(|&&m| m).count()
}

pub(crate) fn record(
    original: &mut dyn Engine,
    costs: Costs,
    seed: u64,
    n: u64,
) -> Result<(), String> {
    let mut all = sample(original, costs, seed, n as usize).map_err(|f| f.text())?;
    let random = all.len();
    for s in aimed::all(costs) {
        all.push(answered(original, &s)?);
    }
    store("record", random, &all)
}

/// What the original answers, where the second engine agrees.
fn answered(original: &mut dyn Engine, s: &Sequence) -> Result<Recorded, String> {
    compare(original, &mut Plain::default(), s, |_| ()).map_err(|f| f.text())?;
    Ok(oracle::recorded::record(original, s))
}

fn store(command: &str, random: usize, all: &[Recorded]) -> Result<(), String> {
    let text = write(all);
    fs::write(file(), &text).map_err(|e| format!("{}: {e}", file().display()))?;
    println!(
        "{command}: {random} random sequences, {} by hand, {} calls, {} cells, {} bytes",
        all.len() - random,
        calls(all),
        cells(all),
        text.len()
    );
    Ok(())
}

/// The file's sequences answered again, each under its number, and after them
/// those by hand that it lacks.
pub(crate) fn renew(original: &mut dyn Engine, costs: Costs) -> Result<(), String> {
    let mut all = Vec::new();
    for r in load()? {
        let calls = r.lines.into_iter().map(|l| l.call).collect();
        all.push(answered(original, &Sequence { start: r.start, calls })?);
    }
    let by_hand = aimed::all(costs);
    let same = |r: &Recorded, s: &Sequence| {
        r.start == s.start && r.lines.iter().map(|l| &l.call).eq(&s.calls)
    };
    let random = all.iter().filter(|r| !by_hand.iter().any(|s| same(r, s))).count();
    for s in &by_hand {
        if !all.iter().any(|r| same(r, s)) {
            all.push(answered(original, s)?);
        }
    }
    store("renew", random, &all)
}

/// Replays the file on one engine.
fn check(name: &str, engine: &mut dyn Engine) -> Result<(), String> {
    let all = load()?;
    for (i, r) in all.iter().enumerate() {
        replay(engine, r).map_err(|j| format!("{name}: sequence {i} differs at its call {j}"))?;
    }
    println!(
        "verify: {name}: {} sequences, {} calls, {} cells, no difference",
        all.len(),
        calls(&all),
        cells(&all)
    );
    Ok(())
}

pub(crate) fn verify_second() -> Result<(), String> {
    check("second engine", &mut Plain::default())
}

pub(crate) fn verify_original(original: &mut dyn Engine, costs: Costs) -> Result<(), String> {
    let recorded = load()?.first().map(|r| r.start.setup.costs);
    if recorded != Some(costs) {
        return Err(format!("recorded with the costs {recorded:?}, this build has {costs:?}"));
    }
    check("original", original)
}

/// One recorded sequence as text, with the states that the second engine
/// leaves.
pub(crate) fn show(i: u64) -> Result<(), String> {
    let all = load()?;
    let r = all.get(i as usize).ok_or(format!("there are {} sequences", all.len()))?;
    let mut engine = Plain::default();
    engine.load(&r.start);
    println!("load {}", layout::text(&r.start, layout::world));
    for l in &r.lines {
        engine.call(&l.call);
        println!("{}", layout::text(&l.call, layout::call));
        println!("{}", layout::text(&l.answer, layout::answer));
        println!("# digest {}", l.digest);
        println!("state {}", layout::text(&engine.world(), layout::world));
    }
    Ok(())
}

/// Each wrong engine, the sentence it breaks, and the recorded call (counted
/// from 1 over the file) at which it is found.
pub(crate) fn mutants(table: bool) -> Result<(), String> {
    let all = load()?;
    let mut survivors = Vec::new();
    if table {
        println!("| wrong engine | sentence it breaks | found at call |\n|---|---|---:|");
    }
    for &(wrong, sentence) in Wrong::ALL {
        match found_at(&mut Plain::wrong(wrong), &all) {
            Some(at) if table => println!("| {wrong:?} | {sentence} | {at} |"),
            Some(_) => {}
            None => survivors.push(format!("{wrong:?}")),
        }
    }
    let n = Wrong::ALL.len();
    println!("mutants: {} of {n} wrong engines told apart", n - survivors.len());
    if survivors.is_empty() {
        return Ok(());
    }
    Err(format!("not told apart: {}", survivors.join(", ")))
}

fn found_at(engine: &mut Plain, all: &[Recorded]) -> Option<usize> {
    let mut before = 0;
    for r in all {
        if let Err(i) = replay(engine, r) {
            return Some(before + i + 1);
        }
        before += r.lines.len();
    }
    None
}
