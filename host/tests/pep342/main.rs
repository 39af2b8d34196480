//! CPython, the authority on send, throw and close. Random generator
//! programs run in `python3` and, compiled to the machine's instructions with
//! handlers, on the library. What they log must be equal: values yielded,
//! returned and awaited, exceptions that escape, states.
//!
//! Where the machine departs from PEP 342 (docs/rules/PEP342.md), `judge.py`
//! observes what CPython does, counts the departure and goes on as the machine
//! does; so every difference is a listed one.
//!
//! `PROGRAMS` sets how many programs are run (1000), `SEED` the first seed (1).

mod compile;
mod program;
mod python;
mod run;

use std::collections::BTreeMap;
use std::io::Write;
use std::process::{Command, Stdio};
use std::time::Instant;
use std::{env, fs, thread};

use crate::compile::{compile, setup, Code};
use crate::program::Program;
use crate::run::{End, Run};

/// Programs that one python3 runs.
const BATCH: usize = 2_000;

/// A program that has been run on the library.
struct Ran {
    program: Program,
    text: String,
    events: Vec<String>,
    steps: u32,
    end: End,
}

fn on_library(program: Program) -> Ran {
    let codes = compile(&program);
    let registers: Vec<usize> = codes.iter().map(|c: &Code| c.registers.into()).collect();
    let text = python::text(&program, &registers);
    let (mut machine, mut fuel) = setup(&program, &codes).machine().expect("a good set-up");
    machine.grant(&mut fuel, program.fuel).expect("a grant");
    machine.host_call(&mut fuel, humdelzi::FunctionId(0)).expect("a frame");
    let mut run = Run::new(machine, fuel, &codes);
    let end = run.go(u32::MAX).expect("it ends");
    let steps = run.steps();
    Ran { program, text, events: run.events, steps, end }
}

/// What python3 says of a program.
#[derive(Default)]
struct Theirs {
    events: Vec<String>,
    departures: Vec<u32>,
    /// Operations by the state of the generator, and how many.
    operations: Vec<(String, u64)>,
    end: String,
}

fn on_python(batch: &[Ran]) -> Vec<Theirs> {
    let judge = concat!(env!("CARGO_MANIFEST_DIR"), "/tests/pep342/judge.py");
    let mut child = Command::new("python3")
        .arg(judge)
        .stdin(Stdio::piped())
        .stdout(Stdio::piped())
        .spawn()
        .expect("python3");
    let mut input = child.stdin.take().expect("piped");
    let text: String = batch.iter().map(|r| format!("{}#end\n", r.text)).collect();
    let writer = thread::spawn(move || input.write_all(text.as_bytes()));
    let output = child.wait_with_output().expect("python3 runs");
    writer.join().expect("no panic").expect("python3 reads");
    let (mut all, mut one) = (Vec::new(), Theirs::default());
    let number = |n: &str| n.parse::<u64>().expect("a number");
    for line in String::from_utf8(output.stdout).expect("text").lines() {
        if let Some(seen) = line.strip_prefix("#departures ") {
            one.departures = seen.split_whitespace().map(|n| number(n) as u32).collect();
        } else if let Some(tried) = line.strip_prefix("#operations ") {
            let words: Vec<&str> = tried.split_whitespace().collect();
            one.operations = words.chunks(2).map(|w| (w[0].into(), number(w[1]))).collect();
        } else if let Some(end) = line.strip_prefix("#end ") {
            one.end = end.into();
            all.push(std::mem::take(&mut one));
        } else {
            one.events.push(line.into());
        }
    }
    assert_eq!(all.len(), batch.len(), "python3 answered for every program");
    all
}

/// Whether the machine's event is CPython's; its own `close` drops a value.
fn equal(ours: &str, theirs: &str, dropped: &mut bool) -> bool {
    if theirs == "close ?" && ours.starts_with("close ") {
        *dropped |= ours != "close None";
        return true;
    }
    ours == theirs
}

fn differ(ran: &Ran, theirs: &[String], end: &str) -> ! {
    let file = env::temp_dir().join(format!("pep342-{}.py", ran.program.seed));
    let _ = fs::write(&file, &ran.text);
    let at = ran.events.iter().zip(theirs).position(|(a, b)| !equal(a, b, &mut false));
    panic!(
        "seed {} (text in {}): ended {:?} here, {end} in python3; event {at:?}\nhere:    {:?}\npython3: {theirs:?}",
        ran.program.seed,
        file.display(),
        ran.end,
        ran.events
    );
}

fn number(name: &str, default: u64) -> u64 {
    env::var(name).ok().map_or(default, |n| n.parse().expect("a number"))
}

#[test]
fn generators_in_cpython_and_here() {
    let version = Command::new("python3").arg("--version").output();
    let Some(version) = version.ok().filter(|v| v.status.success()) else {
        println!("pep342: skipped: python3 is not here, so no program was compared");
        return;
    };
    let (programs, seed, start) = (number("PROGRAMS", 1000), number("SEED", 1), Instant::now());
    let mut seen: BTreeMap<u32, u64> = BTreeMap::new();
    let mut kinds: BTreeMap<String, u64> = BTreeMap::new();
    let mut tried: BTreeMap<String, u64> = BTreeMap::new();
    let (mut compared, mut events, mut steps) = (0_u64, 0_u64, 0_u64);
    let (mut large, mut next) = (0_u64, seed << 32);
    while compared < programs {
        let mut batch = Vec::new();
        while batch.len() < BATCH.min((programs - compared) as usize) {
            let ran = on_library(Program::random(next));
            next += 1;
            match &ran.end {
                End::TooLarge => large += 1,
                End::Wrong(why) => panic!("seed {}: {why}\n{}", ran.program.seed, ran.text),
                _ => batch.push(ran),
            }
        }
        for (ran, told) in batch.iter().zip(on_python(&batch)) {
            let Theirs { events: theirs, departures, operations, end } = told;
            let mut dropped = false;
            let same = match ran.end {
                // fuel was used up: what came before is the same
                End::Fuel => ran.events.len() <= theirs.len(),
                _ => ran.events.len() == theirs.len(),
            };
            let all = ran.events.iter().zip(&theirs).all(|(a, b)| equal(a, b, &mut dropped));
            if !same || !all || end != "ok" {
                differ(ran, &theirs, &end);
            }
            if ran.end == End::Fuel {
                *seen.entry(12).or_default() += 1;
            } else {
                departures.iter().for_each(|d| *seen.entry(*d).or_default() += 1);
            }
            if dropped && !departures.contains(&2) {
                *seen.entry(2).or_default() += 1;
            }
            for (operation, n) in operations {
                *tried.entry(operation).or_default() += n;
            }
            events += ran.events.len() as u64;
            steps += u64::from(ran.steps);
            for e in &ran.events {
                let kind = match e.split_once(' ') {
                    Some(("raised", what)) => format!("raised {what}"),
                    Some((kind, _)) => kind.to_string(),
                    None => e.clone(),
                };
                *kinds.entry(kind).or_default() += 1;
            }
            compared += 1;
        }
    }
    println!(
        "pep342: {compared} programs in {} and here, {steps} instructions here, {events} events equal, {:.1} s ({large} too large, not compared)",
        String::from_utf8_lossy(&version.stdout).trim(),
        start.elapsed().as_secs_f64()
    );
    println!("pep342: events: {kinds:?}");
    println!("pep342: operations by state: {tried:?}");
    println!("pep342: programs by departure: {seen:?}");
    // created, running, yielded, awaiting, returned, failed; programs with awaits have no loops
    let states = [
        ("send", 0..6),
        ("throw", 0..6),
        ("close", 0..6),
        ("drop", 2..4),
        ("next", 0..3),
        ("next", 4..6),
    ];
    for (operation, states) in states {
        for state in states {
            assert!(
                tried.contains_key(&format!("{operation}{state}")),
                "{operation} in state {state}"
            );
        }
    }
    let missing: Vec<u32> = (1..=16).filter(|d| !seen.contains_key(d)).collect();
    assert!(missing.is_empty(), "departures not seen: {missing:?}");
}
