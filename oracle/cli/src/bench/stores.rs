//! What a round trip executes, by valgrind's tool lackey, beside its time:
//! instructions, loads and stores of the program that is timed.

use std::process::Command;

use oracle::world::Costs;

use super::{engines, timed, valgrind, Engine, MEASURES};

/// The engines named, or those of the goals; a line each, with the two round
/// trips of the goals.
pub(crate) fn table(costs: Costs, only: &[&str]) -> Result<(), String> {
    if !valgrind() {
        println!("Skipped: valgrind is not installed.");
        return Ok(());
    }
    let engines = engines();
    let asked = |e: &Engine| if only.is_empty() { e.judged() } else { only.contains(&e.name) };
    let these: Vec<_> = engines.iter().filter(|e| asked(e)).collect();
    if these.is_empty() {
        return Ok(());
    }
    let times = [0, 1].map(|m| timed(costs, MEASURES[m].1, &these, false));
    println!(
        "| 1 frame of 4 registers / 4 frames of 64 | instructions | loads | stores | least ns |"
    );
    println!("|---|---:|---:|---:|---:|");
    for (i, e) in these.iter().enumerate() {
        let told = || format!("{}: lackey told no number", e.name);
        let (one, four) =
            (executed(0, e.name).ok_or_else(told)?, executed(1, e.name).ok_or_else(told)?);
        let cells = [0, 1, 2].map(|k| format!("{:.0} / {:.0}", one[k], four[k])).join(" | ");
        let [a, b] = [0, 1].map(|m: usize| times[m][i].least);
        println!("| {} | {cells} | {a:.1} / {b:.1} |", e.shown);
    }
    Ok(())
}

/// Instructions, loads and stores of one operation: the difference between two
/// runs of this program that differ in nothing but their number.
fn executed(measure: usize, engine: &str) -> Option<[f64; 3]> {
    let (few, many) = (25, 125);
    let (a, b) = (run(measure, engine, few)?, run(measure, engine, many)?);
    Some([0, 1, 2].map(|k| (b[k] - a[k]) / (many - few) as f64))
}

/// The counts of a whole run. Lackey tells loads and stores by the type of what
/// is moved, a line for each; that no block is joined to the one after it makes
/// its instructions callgrind's.
fn run(measure: usize, engine: &str, n: usize) -> Option<[f64; 3]> {
    let out = Command::new("valgrind")
        .args(["--tool=lackey", "--detailed-counts=yes", "--vex-guest-chase=no"])
        .arg(std::env::current_exe().ok()?)
        .args(["count", engine, &measure.to_string(), &n.to_string()])
        .output()
        .ok()?;
    let text = String::from_utf8_lossy(&out.stderr).replace(',', "");
    let lines = || text.lines().filter_map(|l| l.split_once("== ")).map(|(_, l)| l.trim());
    let instructions =
        lines().find_map(|l| l.strip_prefix("guest instrs:"))?.trim().parse().ok()?;
    let rows = lines().skip_while(|l| !l.starts_with("Type ")).skip(2);
    let mut moved = [0.0, 0.0];
    for row in rows.take_while(|l| l.starts_with(['I', 'F', 'D', 'V'])) {
        let mut cells = row.split_whitespace().skip(1);
        for sum in &mut moved {
            *sum += cells.next()?.parse::<f64>().ok()?;
        }
    }
    (moved != [0.0, 0.0]).then_some([instructions, moved[0], moved[1]])
}
