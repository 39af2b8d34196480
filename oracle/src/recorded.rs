//! Recorded answers: plain numbers, so that any language can replay them.
//! oracle/README.md gives the layout.

use crate::call::{Answer, Call};
use crate::codec::{Codec, NumReader, NumWriter, Res};
use crate::engine::Engine;
use crate::generate::Sequence;
use crate::layout;
use crate::sound::sound;
use crate::world::World;

/// The layout's version, the file's first number.
const VERSION: u64 = 1;

/// A call, its answer, and the digest of the state after it.
#[derive(Clone, PartialEq, Eq, Debug)]
pub struct Line {
    pub call: Call,
    pub answer: Answer,
    pub digest: u64,
}

#[derive(Clone, PartialEq, Eq, Debug)]
pub struct Recorded {
    pub start: World,
    pub lines: Vec<Line>,
}

/// A state in one number: over its machine's numbers (the set-up left out),
/// each result is the last times 33 plus the next number, modulo 2^64.
#[must_use]
pub fn digest(w: &World) -> u64 {
    layout::numbers(w, layout::machine)
        .iter()
        .fold(0, |h: u64, &x| h.wrapping_mul(33).wrapping_add(x))
}

/// Runs a sequence and writes down what came of it.
#[must_use]
pub fn record(engine: &mut dyn Engine, sequence: &Sequence) -> Recorded {
    engine.load(&sequence.start);
    let lines = sequence
        .calls
        .iter()
        .map(|call| {
            let answer = engine.call(call);
            Line { call: call.clone(), answer, digest: digest(&engine.world()) }
        })
        .collect();
    Recorded { start: sequence.start.clone(), lines }
}

/// Runs a recorded sequence again. Gives the first line that differs.
pub fn replay(engine: &mut dyn Engine, recorded: &Recorded) -> Result<(), usize> {
    engine.load(&recorded.start);
    for (i, line) in recorded.lines.iter().enumerate() {
        let answer = engine.call(&line.call);
        if answer != line.answer || digest(&engine.world()) != line.digest {
            return Err(i);
        }
    }
    Ok(())
}

/// A start state: 0 and the set-up for the machine that it leaves, else 1,
/// the set-up and the machine.
fn start(c: &mut impl Codec, w: &mut World) -> Res {
    let mut whole = u64::from(*w != World::fresh(w.setup.clone()));
    c.num(&mut whole)?;
    layout::setup(c, &mut w.setup)?;
    match whole {
        0 => *w = World::fresh(std::mem::take(&mut w.setup)),
        1 => layout::machine(c, w)?,
        n => return Err(format!("{n} is no kind of start")),
    }
    Ok(())
}

fn line(c: &mut impl Codec, l: &mut Line) -> Res {
    layout::call(c, &mut l.call)?;
    layout::answer(c, &mut l.answer)?;
    c.num(&mut l.digest)
}

/// The file: version and count, then each sequence's call count, start and
/// calls, one to a line.
#[must_use]
pub fn write(all: &[Recorded]) -> String {
    let mut out = format!("{VERSION} {}\n", all.len());
    let mut put = |mut c: NumWriter| {
        let numbers: Vec<String> = c.0.drain(..).map(|n| n.to_string()).collect();
        out += &numbers.join(" ");
        out.push('\n');
    };
    for r in all {
        let mut c = NumWriter(vec![r.lines.len() as u64]);
        start(&mut c, &mut r.start.clone()).expect("writing numbers never fails");
        put(c);
        for l in &r.lines {
            let mut c = NumWriter::default();
            line(&mut c, &mut l.clone()).expect("writing numbers never fails");
            put(c);
        }
    }
    out
}

/// Reads a file; every start must be sound.
pub fn read(text: &str) -> Res<Vec<Recorded>> {
    let numbers = text
        .split_ascii_whitespace()
        .map(|t| t.parse().map_err(|_| format!("`{t}` is no number")))
        .collect::<Res<Vec<u64>>>()?;
    let mut c = NumReader(&numbers);
    let (mut version, mut count) = (0, 0);
    c.num(&mut version)?;
    c.num(&mut count)?;
    if version != VERSION {
        return Err(format!("layout {version}, not {VERSION}"));
    }
    let mut all = Vec::new();
    for _ in 0..count {
        let mut calls = 0;
        c.num(&mut calls)?;
        let blank = Line { call: Call::Look, answer: Answer::plain(0), digest: 0 };
        let start = layout::from_numbers(&mut c, World::default(), start)?;
        sound(&start)?;
        let lines = (0..calls)
            .map(|_| layout::from_numbers(&mut c, blank.clone(), line))
            .collect::<Res<Vec<Line>>>()?;
        all.push(Recorded { start, lines });
    }
    if !c.0.is_empty() {
        return Err("numbers after the end".into());
    }
    Ok(all)
}
