//! Which random sequences are worth recording.

use crate::compare::{compare, Finding};
use crate::coverage::{Coverage, POSSIBLE};
use crate::engine::Engine;
use crate::generate::{sequence, Rng};
use crate::layout;
use crate::plain::wrong::Wrong;
use crate::plain::Plain;
use crate::recorded::{record, replay, Recorded};
use crate::world::Costs;

/// Calls in a recorded sequence, about.
const LENGTH: usize = 12;
/// Starts longer than this are kept only for something rare.
const SMALL: usize = 160;
/// How often each cell, situation and wrong engine is wanted.
const CELL: u64 = 6;
const SITUATION: u64 = 4;
const KILLS: u64 = 3;

/// What is recorded so far.
#[derive(Default)]
struct Sample {
    all: Vec<Recorded>,
    seen: Coverage,
    kills: Vec<u64>,
}

/// Random sequences of `seed` until `n` are kept and nothing is wanted any
/// more. The original and the second engine must agree on each.
pub fn sample(
    original: &mut dyn Engine,
    costs: Costs,
    seed: u64,
    n: usize,
) -> Result<Vec<Recorded>, Box<Finding>> {
    let mut s = Sample { kills: vec![0; Wrong::ALL.len()], ..Sample::default() };
    let mut rng = Rng::new(seed);
    while s.all.len() < n || s.wants() {
        let candidate = sequence(&mut rng, costs, LENGTH);
        let mut seen = Coverage::default();
        compare(original, &mut Plain::default(), &candidate, |m| seen.see(&m))?;
        let recorded = record(original, &candidate);
        let kills = s.kills(&recorded);
        let size = layout::numbers(&candidate.start, layout::world).len();
        if s.rare(&seen, &kills) || size <= SMALL && s.all.len() < n {
            s.keep(recorded, &seen, &kills);
        }
    }
    Ok(s.all)
}

impl Sample {
    fn cells(seen: &Coverage) -> impl Iterator<Item = (usize, usize, u64)> + '_ {
        POSSIBLE
            .iter()
            .enumerate()
            .flat_map(|(call, answers)| answers.iter().map(move |&a| (call, usize::from(a))))
            .map(|(call, a)| (call, a, seen.cells[call][a]))
    }

    /// Which of the wrong engines still wanted a sequence tells apart.
    fn kills(&self, recorded: &Recorded) -> Vec<bool> {
        let told = |wrong| replay(&mut Plain::wrong(wrong), recorded).is_err();
        let wanted = Wrong::ALL.iter().zip(&self.kills);
        wanted.map(|(&(wrong, _), &n)| n < KILLS && told(wrong)).collect()
    }

    /// Whether anything is met too seldom.
    fn wants(&self) -> bool {
        Sample::cells(&self.seen).any(|(_, _, n)| n < CELL)
            || self.seen.situations.iter().any(|&n| n < SITUATION)
            || self.kills.iter().any(|&n| n < KILLS)
    }

    /// Whether a sequence has something that is met too seldom.
    fn rare(&self, seen: &Coverage, kills: &[bool]) -> bool {
        let cell = Sample::cells(seen).any(|(c, a, n)| n > 0 && self.seen.cells[c][a] < CELL);
        let mut situations = seen.situations.iter().zip(&self.seen.situations);
        let mut killed = kills.iter().zip(&self.kills);
        cell || situations.any(|(&new, &old)| new > 0 && old < SITUATION)
            || killed.any(|(&new, &old)| new && old < KILLS)
    }

    fn keep(&mut self, recorded: Recorded, seen: &Coverage, kills: &[bool]) {
        for (call, row) in self.seen.cells.iter_mut().enumerate() {
            for (a, n) in row.iter_mut().enumerate() {
                *n += seen.cells[call][a];
            }
        }
        for (old, new) in self.seen.situations.iter_mut().zip(&seen.situations) {
            *old += new;
        }
        for (old, &new) in self.kills.iter_mut().zip(kills) {
            *old += u64::from(new);
        }
        self.all.push(recorded);
    }
}
