//! The engines that are linked, measured in one run: a batch of each in turn,
//! so that a busy machine hits all of them. Instructions are counted by
//! callgrind, where it is installed: the same batches in a process each.

#[cfg(all(test, original, library))]
mod agree;
#[cfg(all(library, feature = "host"))]
mod host;
#[cfg(library)]
mod library;
mod plot;
pub(crate) mod stores;

use std::hint::black_box;
use std::process::Command;
use std::time::{Duration, Instant};

#[cfg(library)]
pub(crate) use oracle::switch::setup;
pub(crate) use oracle::switch::Switch;
use oracle::world::Costs;
#[cfg(library)]
use oracle::world::Setup;

/// How many operations are timed at once, at most.
const MOST: usize = 1000;

/// How often a batch is timed, and how long at most.
const SAMPLES: usize = 1001;
const PATIENCE: Duration = Duration::from_millis(1500);

/// What is measured: a number of operations on a machine made ready.
#[derive(Clone, Copy, PartialEq, Eq)]
pub(crate) enum Measure {
    /// Resume and yield, of so many frames of a function.
    Trip(u32, usize),
    Create,
    Throw,
    Close,
    Step,
    Clean,
    /// So many calls, and unwinding through them.
    Unwind(usize),
    Finish,
}

use Measure::{Clean, Close, Create, Finish, Step, Throw, Trip, Unwind};

pub(crate) const MEASURES: [(&str, Measure); 12] = [
    ("resume + yield, 1 frame of 4 registers", Trip(0, 1)),
    ("resume + yield, 4 frames of 64 registers in all", Trip(1, 4)),
    ("creation, 4 registers", Create),
    ("throw to a handler + yield", Throw),
    ("creation, entry, yield, close", Close),
    ("a loop's step: iter_next + yield", Step),
    ("creation, entry, yield, hand over, cleanup", Clean),
    ("1 call + unwinding through it", Unwind(1)),
    ("8 calls + unwinding through them", Unwind(8)),
    ("64 calls + unwinding through them", Unwind(64)),
    ("call + finish", Finish),
    ("resume + yield, 16 frames of 256 registers in all", Trip(1, 16)),
];

impl Measure {
    /// How many operations a machine bears.
    fn most(self) -> usize {
        match self {
            Create => 48,
            Close | Clean => 480,
            Unwind(64) => 100,
            _ => MOST,
        }
    }

    pub(crate) fn ready<E: Switch + ?Sized>(self, e: &mut E) {
        match self {
            Trip(func, frames) => {
                e.create(func);
                e.resume();
                (1..frames).for_each(|_| e.push(func));
                e.suspend();
            }
            Throw => {
                e.create(0);
                e.resume();
                e.suspend();
            }
            Step => {
                e.create(0);
                e.iterate();
            }
            Create | Close | Clean | Unwind(_) | Finish => {}
        }
    }

    pub(crate) fn batch<E: Switch + ?Sized>(self, e: &mut E, n: usize) {
        match self {
            Trip(..) => e.trips(n),
            Create => (0..n).for_each(|_| e.create(0)),
            Throw => (0..n).for_each(|_| {
                e.throw();
                e.suspend();
            }),
            Close => (0..n).for_each(|_| {
                e.create(1);
                e.resume();
                e.suspend();
                e.close();
            }),
            Step => (0..n).for_each(|_| {
                e.next();
                e.suspend();
            }),
            Clean => (0..n).for_each(|_| {
                e.create(1);
                e.resume();
                e.suspend();
                e.clean();
            }),
            Unwind(frames) => (0..n).for_each(|_| {
                (0..frames).for_each(|_| e.push(2));
                e.unwind();
            }),
            Finish => (0..n).for_each(|_| {
                e.push(2);
                e.finish();
            }),
        }
    }
}

/// The same functions but the widest on a machine of 1,111 words.
#[cfg(library)]
pub(crate) fn small(costs: Costs) -> Setup {
    let mut s = setup(costs);
    s.funcs.truncate(4);
    Setup { depth: 8, stack: 128, rows: 2, slots: 16, ..s }
}

/// An engine: its name, what the table calls it, how a fresh one is made, and
/// what it is measured on.
struct Engine {
    name: &'static str,
    shown: &'static str,
    fresh: fn(Costs) -> Box<dyn Switch>,
    only: fn(Measure) -> bool,
}

fn engines() -> Vec<Engine> {
    vec![
        #[cfg(original)]
        Engine { name: "original", shown: "original", fresh: original::switch, only: |_| true },
        #[cfg(switch)]
        Engine {
            name: "bvm_try",
            shown: "`bvm_try_resume_unchecked`, `bvm_try_yield_unchecked`",
            fresh: |c| Box::new(library::Try::new(c)),
            only: |m| matches!(m, Trip(..)),
        },
        #[cfg(library)]
        Engine {
            name: "bvm_call_unchecked",
            shown: "`bvm_call_unchecked`",
            fresh: |c| Box::new(library::Unchecked::new(c)),
            only: |_| true,
        },
        #[cfg(library)]
        Engine {
            name: "bvm_call",
            shown: "`bvm_call`, small",
            fresh: |c| Box::new(library::Checked::new(c)),
            only: trips,
        },
        #[cfg(library)]
        Engine {
            name: "bvm_run",
            shown: "`bvm_run`, small",
            fresh: |c| Box::new(library::Run::new(c, oracle::library::Bare::run)),
            only: trips,
        },
        #[cfg(batch)]
        Engine {
            name: "bvm_batch",
            shown: "`bvm_batch`, small",
            fresh: |c| Box::new(library::Run::new(c, oracle::library::Bare::batch)),
            only: trips,
        },
        #[cfg(all(library, feature = "host"))]
        Engine {
            name: "crate",
            shown: "crate `host/`: `resume`, `yield_`",
            fresh: |c| Box::new(host::Methods::new(c)),
            only: trips,
        },
        #[cfg(all(library, feature = "host"))]
        Engine {
            name: "crate-run",
            shown: "crate `host/`: `run`, small",
            fresh: |c| Box::new(host::Run::new(c)),
            only: trips,
        },
    ]
}

#[cfg(library)]
fn trips(m: Measure) -> bool {
    matches!(m, Trip(0, 1) | Trip(1, 4))
}

/// Nanoseconds and instructions of one operation.
#[derive(Clone, Copy)]
struct Found {
    median: f64,
    least: f64,
    instructions: Option<f64>,
}

/// The table: the measures on every engine.
pub(crate) fn table(costs: Costs, only: impl Fn(usize) -> bool) {
    let engines = engines();
    if engines.is_empty() {
        return;
    }
    let counted = valgrind();
    if !counted {
        println!("skipped: instructions are not counted (valgrind is not installed)\n");
    }
    println!("| measure | function | median ns | least ns | instructions | medians | leasts | instructions |");
    println!("|---|---|---:|---:|---:|---:|---:|---:|");
    for (_, (name, measure)) in MEASURES.into_iter().enumerate().filter(|(i, _)| only(*i)) {
        let these: Vec<_> = engines.iter().filter(|e| (e.only)(measure)).collect();
        let found = timed(costs, measure, &these, counted);
        for (e, f) in these.iter().zip(&found) {
            println!("| {name} | {} |{}", e.shown, line(f, &found[0]));
        }
    }
}

// ---- goals

/// What was to be reached beside the original, with one frame of 4 registers
/// and with four of 64 in all.
const GOALS: [(&str, &str, [f64; 2]); 4] = [
    ("bvm_try", "single calls, the benchmark's host", [0.85, 0.95]),
    ("crate", "single calls, the crate `host/`", [0.85, 0.95]),
    ("bvm_batch", "a batch, the benchmark's host", [0.70, 0.88]),
    ("crate-run", "a batch, the crate `host/`", [0.70, 0.88]),
];

impl Engine {
    /// Whether it is the original, or has a goal beside it.
    fn judged(&self) -> bool {
        self.name == "original" || GOALS.iter().any(|g| g.0 == self.name)
    }
}

/// The engines of the goals beside the original, a line each: the engine, then
/// the ratios of leasts and of medians, with one frame and with four.
pub(crate) fn ratios(costs: Costs) -> Result<(), String> {
    let engines = engines();
    let these: Vec<_> = engines.iter().filter(|e| e.judged()).collect();
    if these.first().is_none_or(|e| e.name != "original") {
        return Err("the original is not linked".to_owned());
    }
    let found = [Trip(0, 1), Trip(1, 4)].map(|m| timed(costs, m, &these, false));
    for (i, e) in these.iter().enumerate().skip(1) {
        let of = |f: &Vec<Found>| (f[i].least / f[0].least, f[i].median / f[0].median);
        let (one, four) = (of(&found[0]), of(&found[1]));
        println!("{}\t{}\t{}\t{}\t{}", e.name, one.0, four.0, one.1, four.1);
    }
    Ok(())
}

/// The goals, by so many processes: where the code and the words lie differs
/// from one to the next. Told are the median of the ratios of leasts, and the
/// quartiles.
pub(crate) fn goals(processes: usize) -> Result<(), String> {
    let this = std::env::current_exe().map_err(|e| e.to_string())?;
    let mut lines = String::new();
    for _ in 0..processes {
        let ran = Command::new(&this).arg("ratios").output().map_err(|e| e.to_string())?;
        if !ran.status.success() {
            return Err(String::from_utf8_lossy(&ran.stderr).into_owned());
        }
        lines += &String::from_utf8_lossy(&ran.stdout);
    }
    let rows: Vec<Vec<&str>> = lines.lines().map(|l| l.split('\t').collect()).collect();
    if let (true, [Some(one), Some(four)]) =
        (valgrind(), [0, 1].map(|i| instructions(i, "original")))
    {
        println!("The original so compiled takes {one:.0} / {four:.0} instructions.\n");
    }
    println!("| 1 frame of 4 registers / 4 frames of 64 | goal, at most | median (quartiles) | |");
    println!("|---|---|---|---|");
    for (engine, shown, most) in GOALS {
        let of = |column: usize| -> Vec<f64> {
            let mine = rows.iter().filter(|r| r[0] == engine);
            let mut all: Vec<f64> = mine.filter_map(|r| r.get(column)?.parse().ok()).collect();
            all.sort_by(f64::total_cmp);
            all
        };
        let found = [1, 2].map(of);
        if found[0].is_empty() {
            continue;
        }
        let told = |all: &Vec<f64>| {
            let at = |quarter: usize| all[(all.len() - 1) * quarter / 4];
            format!("{:.2} ({:.2} to {:.2})", at(2), at(1), at(3))
        };
        let met = |i: usize| (found[i][found[i].len() / 2] * 100.0).round() / 100.0 <= most[i];
        let word = match [met(0), met(1)] {
            [true, true] => "met",
            [true, false] => "missed with four frames",
            [false, true] => "missed with one frame",
            [false, false] => "missed",
        };
        let [a, b] = found.each_ref().map(told);
        println!("| {shown} | {:.2} / {:.2} | {a} / {b} | {word} |", most[0], most[1]);
    }
    Ok(())
}

fn line(f: &Found, first: &Found) -> String {
    let count = f.instructions.map_or("-".to_owned(), |n| format!("{n:.0}"));
    let counts = f.instructions.zip(first.instructions);
    let of_counts = counts.map_or("-".to_owned(), |(a, b)| format!("{:.2}", a / b));
    let (medians, leasts) = (f.median / first.median, f.least / first.least);
    if std::ptr::eq(f, first) {
        return format!(" {:.1} | {:.1} | {count} | | | |", f.median, f.least);
    }
    format!(
        " {:.1} | {:.1} | {count} | {medians:.2} | {leasts:.2} | {of_counts} |",
        f.median, f.least
    )
}

/// A batch of each engine in turn, on a fresh machine each time.
fn timed(costs: Costs, m: Measure, engines: &[&Engine], counted: bool) -> Vec<Found> {
    let n = m.most();
    let mut taken = vec![Vec::new(); engines.len()];
    let start = Instant::now();
    let keeps = matches!(m, Trip(..) | Throw | Step | Unwind(_) | Finish);
    let make = |e: &Engine| {
        let mut s = (e.fresh)(costs);
        m.ready(&mut *s);
        s
    };
    let mut ready: Vec<_> = engines.iter().map(|e| make(e)).collect();
    while taken[0].len() < SAMPLES && start.elapsed() < PATIENCE * engines.len() as u32 {
        for ((all, e), s) in taken.iter_mut().zip(engines).zip(&mut ready) {
            if !keeps {
                *s = make(e);
            }
            let start = Instant::now();
            m.batch(&mut **s, n);
            all.push(start.elapsed().as_nanos() as f64 / n as f64);
        }
    }
    let measure = MEASURES.iter().position(|x| x.1 == m);
    taken
        .into_iter()
        .zip(engines)
        .map(|(mut each, e)| {
            each.sort_by(f64::total_cmp);
            let instructions = measure.filter(|_| counted).and_then(|i| instructions(i, e.name));
            Found { median: each[each.len() / 2], least: each[0], instructions }
        })
        .collect()
}

// ---- instructions

fn valgrind() -> bool {
    Command::new("valgrind").arg("--version").output().is_ok_and(|o| o.status.success())
}

/// Instructions of one operation: the difference between two runs of this
/// program that differ in nothing but their number.
fn instructions(measure: usize, engine: &str) -> Option<f64> {
    let n = MEASURES[measure].1.most().min(100);
    let (few, many) = (n / 4, n);
    let (a, b) = (collected(measure, engine, few)?, collected(measure, engine, many)?);
    Some((b - a) / (many - few) as f64)
}

fn collected(measure: usize, engine: &str, n: usize) -> Option<f64> {
    let out = Command::new("valgrind")
        .args(["--tool=callgrind", "--callgrind-out-file=/dev/null"])
        .arg(std::env::current_exe().ok()?)
        .args(["count", engine, &measure.to_string(), &n.to_string()])
        .output()
        .ok()?;
    let text = String::from_utf8_lossy(&out.stderr).into_owned();
    let told = text.lines().find_map(|l| l.split("Collected :").nth(1)).map(str::trim)?;
    told.parse().ok()
}

/// So many operations of a measure on an engine, for callgrind.
pub(crate) fn count(costs: Costs, engine: &str, measure: usize, n: usize) -> Result<(), String> {
    let engines = engines();
    let e = engines.iter().find(|e| e.name == engine).ok_or("no such engine is linked")?;
    let (_, m) = *MEASURES.get(measure).ok_or("no such measure")?;
    let mut s = (e.fresh)(costs);
    at_a_page(&mut || {
        m.ready(&mut *s);
        m.batch(&mut *s, n);
    });
    Ok(())
}

/// Runs `f` with a stack that begins at a page. Where it begins else hangs on
/// how long the environment and the program's path are, and on that how many
/// instructions the C library's `memset` and `memcpy` take.
#[inline(never)]
fn at_a_page(f: &mut dyn FnMut()) {
    #[repr(align(4096))]
    struct Page([u8; 4096]);
    let mut page = Page([0; 4096]);
    f();
    black_box(&mut page.0);
}

/// The instructions of each measure, a line each: measure, engine, instructions.
pub(crate) fn recorded() -> Result<(), String> {
    if !valgrind() {
        return Err("valgrind is not installed".to_owned());
    }
    for (i, (name, m)) in MEASURES.iter().enumerate() {
        for e in engines().iter().filter(|e| e.name != "original" && (e.only)(*m)) {
            let n = instructions(i, e.name).ok_or("callgrind told no number")?;
            println!("{name}\t{}\t{n:.0}", e.name);
        }
    }
    Ok(())
}

// ---- growth

/// How the round trip grows, as a plot in the file named.
pub(crate) fn growth(costs: Costs, file: &str) -> Result<(), String> {
    let engines = engines();
    let these: Vec<_> = engines
        .iter()
        .filter(|e| ["original", "bvm_try", "bvm_call_unchecked"].contains(&e.name))
        .collect();
    let over = |shapes: &[(u32, usize)], words: fn(u32, usize) -> usize| -> Vec<plot::Row> {
        shapes
            .iter()
            .map(|&(func, frames)| {
                let found = timed(costs, Trip(func, frames), &these, false);
                let mut least: Vec<f64> = found.iter().map(|f| f.least).collect();
                least.push(copied(words(func, frames)));
                plot::Row {
                    at: if func == 2 { frames } else { frames * REGS[func as usize] },
                    least,
                }
            })
            .collect()
    };
    // a frame has six words; a round trip moves all words there and back
    let frames: Vec<(u32, usize)> = [1, 2, 4, 8, 16, 32, 64].map(|n| (2, n)).to_vec();
    // four frames of 255 registers fill the stack's 1,024 words beside the caller's four
    let regs = [(0, 1), (1, 1), (3, 1), (4, 1), (4, 2), (4, 4)];
    let moved = |func: u32, n: usize| n * (REGS[func as usize] + 6);
    let (frames, regs) = (over(&frames, moved), over(&regs, moved));
    let mut names: Vec<&str> = these.iter().map(|e| e.shown).collect();
    names.push("a plain copy");
    let text = plot::svg(&names, &frames, &regs);
    std::fs::write(file, text).map_err(|e| format!("{file}: {e}"))?;
    for (what, rows) in
        [("frames of 4 registers", &frames), ("registers, up to 255 in a frame", &regs)]
    {
        println!("\n| {what} | {} |\n|---:|{}", names.join(" | "), "---:|".repeat(names.len()));
        for r in rows {
            let ns: Vec<String> = r.least.iter().map(|n| format!("{n:.1}")).collect();
            println!("| {} | {} |", r.at, ns.join(" | "));
        }
    }
    Ok(())
}

/// The registers of each function of the set-up.
const REGS: [usize; 5] = [4, 16, 4, 64, 255];

/// Nanoseconds to copy so many words there and back, the least of many.
fn copied(words: usize) -> f64 {
    let (mut a, mut b) = (vec![1u64; words], vec![0u64; words]);
    let mut least = f64::MAX;
    for _ in 0..SAMPLES {
        let start = Instant::now();
        for _ in 0..1000 {
            black_box(&mut b).copy_from_slice(black_box(&a));
            black_box(&mut a).copy_from_slice(black_box(&b));
        }
        least = least.min(start.elapsed().as_nanos() as f64 / 1000.0);
    }
    least
}
