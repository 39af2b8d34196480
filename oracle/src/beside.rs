//! The compiled library beside another engine: the answer and every word
//! after each call, through `bvm_call`, `bvm_call_unchecked`, `bvm_run`, and
//! `bvm_try_resume_unchecked` and `bvm_try_yield_unchecked` where they are linked; `bvm_batch` too,
//! beside `bvm_run`.

use crate::call::{Answer, Call};
use crate::coverage::ANSWERS;
use crate::due::due;
use crate::engine::Engine;
use crate::generate::Sequence;
use crate::layout;
use crate::lent::{answer_words, call_words, refused, setup_words, CallWords, Words, MACHINE};
use crate::library::{Lent, Through};
use crate::sound::good_setup;
use crate::world::{Setup, World};

/// What was compared.
#[derive(Clone, Debug)]
pub struct Count {
    pub sequences: u64,
    /// By call and answer, through each function.
    pub cells: [[u64; ANSWERS]; Call::NAMES.len()],
    pub calls: u64,
    /// Runs of several calls.
    pub runs: u64,
    /// Words of calls that are none.
    pub none: u64,
    pub words: u64,
    /// Resumes and Yields that the functions of their own did.
    pub resumes: u64,
    pub yields: u64,
}

impl Default for Count {
    fn default() -> Count {
        Count {
            sequences: 0,
            cells: [[0; ANSWERS]; Call::NAMES.len()],
            calls: 0,
            runs: 0,
            none: 0,
            words: 0,
            resumes: 0,
            yields: 0,
        }
    }
}

impl Count {
    /// Cells met at least once.
    #[must_use]
    pub fn met(&self) -> usize {
        self.cells.iter().flatten().filter(|&&n| n > 0).count()
    }

    /// The table in Markdown.
    #[must_use]
    pub fn table(&self) -> String {
        let mut out = String::from("| call |");
        (0..ANSWERS).for_each(|a| out += &format!(" {a} |"));
        out += &format!("\n|---|{}", "---:|".repeat(ANSWERS));
        for (name, row) in Call::NAMES.iter().zip(&self.cells) {
            out += &format!("\n| {name} |");
            for n in row {
                out += &if *n == 0 { " |".into() } else { format!(" {n} |") };
            }
        }
        out
    }
}

/// Old words, in slices as long as a set-up asks (a bad one: as they were),
/// some of them longer.
fn room(old: &Words, setup: &Setup, more: usize) -> Words {
    let mut words = old.clone();
    if good_setup(setup).is_ok() {
        let fresh = Words::of(&World::fresh(setup.clone()));
        for (i, (ws, like)) in words.0.iter_mut().zip(&fresh.0).enumerate() {
            let more = if i < MACHINE { more } else { 0 };
            ws.resize(like.len() + more, 0xBAD);
        }
    }
    words
}

/// The library's four ways, each with a memory of its own.
pub struct Library {
    call: Lent,
    unchecked: Lent,
    switch: Lent,
    run: Lent,
    /// Calls for `bvm_run`, and their answers.
    waiting: Vec<(CallWords, [u64; 8])>,
    most: usize,
}

impl Library {
    #[must_use]
    pub fn new(start: &World) -> Library {
        let lent = Lent::new(&Words::of(start));
        Library {
            call: lent.clone(),
            unchecked: lent.clone(),
            switch: lent.clone(),
            run: lent,
            waiting: Vec::new(),
            most: 1,
        }
    }

    /// One call on each; every word must be what the other engine left.
    fn one(&mut self, words: CallWords, wanted: [u64; 8], after: &Words) -> Result<(), String> {
        for (through, lent) in [
            (Through::Call, &mut self.call),
            (Through::Unchecked, &mut self.unchecked),
            (Through::Switch, &mut self.switch),
        ] {
            let (number, answer) = lent.call(through, &words);
            if answer != wanted || number != wanted[0] {
                return Err(format!("{through:?} answers {number}: {answer:?}, not {wanted:?}"));
            }
            if !lent.is(after) {
                let what = after.differs(&lent.words());
                return Err(format!("{through:?}: {}", what.unwrap_or_default()));
            }
        }
        self.waiting.push((words, wanted));
        Ok(())
    }

    /// The calls that wait, in one run.
    fn catch_up(&mut self, after: &Words) -> Result<(), String> {
        let (calls, wanted): (Vec<_>, Vec<_>) = self.waiting.drain(..).unzip();
        let (calls, wanted) = (calls.concat(), wanted.concat());
        let (number, answers) = self.run.run(&calls, wanted.len(), calls.len() % 5);
        if number != 0 || answers != wanted {
            return Err(format!("run answers {number}: {answers:?}, not {wanted:?}"));
        }
        match after.differs(&self.run.words()) {
            Some(what) => Err(format!("run: {what}")),
            None => Ok(()),
        }
    }

    fn set_up(&mut self, s: &Setup, after: &Words, more: usize) -> Result<(), String> {
        let wanted = if good_setup(s).is_ok() { [0; 8] } else { refused(11) };
        for lent in [&mut self.call, &mut self.unchecked, &mut self.switch, &mut self.run] {
            let before = room(&lent.words(), s, more);
            *lent = Lent::new(&before);
            let (number, answer) = lent.set_up(&setup_words(s));
            if answer != wanted || number != wanted[0] {
                return Err(format!("set-up answers {number}: {answer:?}, not {wanted:?}"));
            }
            let expected = if number == 0 { after.clone().within(&before) } else { before };
            if let Some(what) = expected.differs(&lent.words()) {
                return Err(format!("set-up: {what}"));
            }
            // exact lengths again
            *lent = Lent::new(after);
        }
        Ok(())
    }

    /// Runs a sequence on the library and on another engine. Now and then the
    /// library is given words that are no call, which must change nothing.
    pub fn beside(
        other: &mut dyn Engine,
        sequence: &Sequence,
        count: &mut Count,
        mut see: impl FnMut(&Call, &Answer, &World) -> Result<(), String>,
    ) -> Result<(), String> {
        other.load(&sequence.start);
        let mut all = Library::new(&sequence.start);
        count.sequences += 1;
        let mut before = sequence.start.clone();
        for (i, call) in sequence.calls.iter().enumerate() {
            let told = other.call(call);
            let after = other.world();
            see(call, &told, &after)?;
            let expected = Words::of(&after);
            let at = |what: String| {
                format!(
                    "call {i}: {what}\nload {}\n{}\n# {}",
                    layout::text(&before, layout::world),
                    layout::text(call, layout::call),
                    layout::text(&told, layout::answer)
                )
            };
            match call_words(call) {
                Some(words) => {
                    if let (Some(taken), Some(due)) =
                        (all.switch.takes(&words), due(&before, call, &told))
                    {
                        if taken != due {
                            return Err(at(format!(
                                "done by its own function: {taken}, not {due}"
                            )));
                        }
                        let plain = matches!(call, Call::Resume { .. });
                        *(if plain { &mut count.resumes } else { &mut count.yields }) +=
                            u64::from(taken);
                    }
                    all.one(words, answer_words(call, &told), &expected).map_err(&at)?;
                    if all.waiting.len() >= all.most || i + 1 == sequence.calls.len() {
                        all.catch_up(&expected).map_err(&at)?;
                        all.most = all.most % 7 + 1;
                        count.runs += 1;
                    }
                }
                None => {
                    all.catch_up(&Words::of(&before)).map_err(&at)?;
                    let Call::SetUp(s) = call else { unreachable!("all others have words") };
                    all.set_up(s, &expected, i % 3).map_err(&at)?;
                }
            }
            count.calls += 1;
            count.cells[call.number()][usize::from(told.number)] += 1;
            count.words += expected.count() as u64;
            if let Some((words, number)) = no_call(i, after.frames.len()) {
                for (through, lent) in [
                    (Through::Call, &mut all.call),
                    (Through::Unchecked, &mut all.unchecked),
                    (Through::Switch, &mut all.switch),
                ] {
                    let (n, answer) = lent.call(through, &words);
                    if (n, answer) != (number, refused(number)) || !lent.is(&expected) {
                        return Err(at(format!("{words:?} answers {n}: {answer:?}")));
                    }
                }
                count.none += 1;
            }
            before = after;
        }
        Ok(())
    }
}

/// Words that are no call, and the number that they are refused with on a sound
/// machine of so many frames: 01 tests 12 or 15 before 13.
#[must_use]
pub fn no_call(i: usize, frames: usize) -> Option<(Vec<u64>, u64)> {
    let framed = if frames == 0 { 12 } else { 13 };
    let busy = if frames == 0 { 13 } else { 15 };
    let all: [(&[u64], u64); 27] = [
        (&[27, 0, 0, 0, 0, 0], 13),
        (&[u64::MAX, 0, 0, 0, 0, 0], 13),
        (&[26, 0, 0, 0, 0, 1], 13),
        (&[26, 0, 0, 0, 0], 13),
        (&[26, 0, 0, 0, 0, 0, 0], 13),
        (&[20, 1 << 16, 0, 0, 0], 13),
        (&[], 13),
        (&[0, 1 << 32, 0, 0, 0, 0], framed),
        (&[0, 0, 1 << 16, 0, 0, 0], framed),
        (&[0, 0, 0, 0, 256, 0], framed),
        (&[3, 1 << 32, 0, 0, 0, 0], framed),
        (&[13, 0, 0, 0, 0, 1 << 16], framed),
        (&[14, 4, 0, 0, 0, 0], 13),
        (&[14, 0, 0, 1, 0, 0], 13),
        (&[15, 18, 0, 0, 0, 0], 11),
        (&[15, u64::MAX, 1, 2, 3, 4], 11),
        (&[15, 0, 7, 0, 0, 0], 11),
        (&[15, 11, 7, 0, 0, 0], 11),
        (&[15, 16, 0, 2, 0, 0], 11),
        (&[15, 5, 1, 0, 0, 0], 13),
        (&[15, 5, 0, 2, 0, 0], 13),
        (&[15, 17, 1, 0, 1, 0], 13),
        (&[17, 1 << 32, 0, 0, 0, 0], busy),
        (&[18, 0, 0, 1, 0, 0], busy),
        (&[19, 0, 0, 6, 0, 0], framed),
        (&[19, 0, 1 << 32, 0, 0, 0], framed),
        (&[20, 1 << 16, 0, 0, 0, 0], framed),
    ];
    all.get(i % 64).map(|&(words, number)| (words.to_vec(), number))
}
