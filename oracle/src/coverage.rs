//! What a run reached: calls by answers, and situations worth meeting.

use crate::call::Call;
use crate::compare::Made;
use crate::situations::SITUATIONS;

/// Answer numbers 0 to 17.
pub const ANSWERS: usize = 18;

/// Counts of one run.
pub struct Coverage {
    pub cells: [[u64; ANSWERS]; Call::NAMES.len()],
    pub situations: Vec<u64>,
}

impl Default for Coverage {
    fn default() -> Coverage {
        Coverage { cells: [[0; ANSWERS]; Call::NAMES.len()], situations: vec![0; SITUATIONS.len()] }
    }
}

impl Coverage {
    pub fn see(&mut self, made: &Made) {
        self.cells[made.call.number()][usize::from(made.answer.number)] += 1;
        for (count, (_, met)) in self.situations.iter_mut().zip(SITUATIONS) {
            *count += u64::from(met(made));
        }
    }

    /// Calls seen.
    #[must_use]
    pub fn calls(&self) -> u64 {
        self.cells.iter().flatten().sum()
    }

    /// Cells met at least once.
    #[must_use]
    pub fn met(&self) -> usize {
        self.cells.iter().flatten().filter(|&&n| n > 0).count()
    }

    /// Cells met that cannot occur, cells that can and were not met, and
    /// situations not met.
    #[must_use]
    pub fn amiss(&self) -> Vec<String> {
        let mut out = Vec::new();
        for ((name, row), can) in Call::NAMES.iter().zip(&self.cells).zip(POSSIBLE) {
            for (a, &n) in row.iter().enumerate() {
                match (can.contains(&(a as u8)), n) {
                    (true, 0) => out.push(format!("{name} {a} not met")),
                    (false, 1..) => out.push(format!("{name} {a} cannot be")),
                    _ => {}
                }
            }
        }
        for (n, (name, _)) in self.situations.iter().zip(SITUATIONS) {
            if *n == 0 {
                out.push(format!("not met: {name}"));
            }
        }
        out
    }

    /// Both tables in Markdown.
    #[must_use]
    pub fn text(&self) -> String {
        let mut out = String::from("| call |");
        for a in 0..ANSWERS {
            out += &format!(" {a} |");
        }
        out += "\n|---|";
        out += &"---:|".repeat(ANSWERS);
        for (name, row) in Call::NAMES.iter().zip(&self.cells) {
            out += &format!("\n| {name} |");
            for n in row {
                out += &if *n == 0 { " |".into() } else { format!(" {n} |") };
            }
        }
        out += &format!("\n\n{} cells met.\n\n| situation | calls |\n|---|---:|", self.met());
        for (n, (name, _)) in self.situations.iter().zip(SITUATIONS) {
            out += &format!("\n| {name} | {n} |");
        }
        out
    }
}

/// The answers that each call can give from a sound machine, in the calls'
/// order.
pub const POSSIBLE: &[&[u8]] = &[
    &[0, 9, 10, 12, 13, 14, 17],
    &[0, 1, 2, 9, 10, 12, 13, 14, 17],
    &[0, 1, 2, 4, 8, 9, 10, 12, 13, 14, 17],
    &[0, 5, 6, 7, 9, 10, 12, 13, 14, 17],
    &[0, 5, 6, 9, 10, 12, 13, 17],
    &[0, 2, 5, 9, 10, 12, 13, 17],
    &[0, 1, 2, 3, 4, 10, 12, 13, 17],
    &[1, 2, 3, 4, 10, 12, 13, 17],
    &[0, 1, 2, 3, 4, 10, 12, 13, 17],
    &[0, 1, 2, 10, 12, 13, 17],
    &[0, 10, 12, 13, 17],
    &[0, 1, 2, 10, 12, 13, 17],
    &[0, 1, 2, 3, 10, 12, 13, 17],
    &[0, 1, 2, 3, 4, 10, 12, 13, 17],
    &[0, 7, 9, 14],
    &[0, 9, 10, 11, 14, 17],
    &[0, 2],
    &[0, 11],
    &[0, 4, 13, 15],
    &[0, 1, 2, 3, 4, 15],
    &[0, 4, 12, 13],
    &[0, 12, 13],
    &[0, 1, 2, 9, 14],
    &[0],
    &[0, 1, 2, 3],
    &[0, 16],
    &[0],
    &[0],
];
