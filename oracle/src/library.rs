//! The compiled library, on words with a guard around each slice.

use crate::lent::{setup_words, AnswerWords, CallWords, Words, MACHINE, STACK};
use crate::world::{Setup, World};

macro_rules! functions {
    ($($name:ident($($slice:ident)* $(; $($word:ident: $kind:ty),*)?);)*) => {
        extern "C" {
            $(fn $name(
                stack: *mut u64, _: usize,
                frames: *mut u64, _: usize,
                chain: *mut u64, _: usize,
                slots: *mut u64, _: usize,
                saved_stack: *mut u64, _: usize,
                saved_frames: *mut u64, _: usize,
                ready: *mut u64, _: usize,
                finalize: *mut u64, _: usize,
                setup: *mut u64, _: usize,
                machine: *mut u64, _: usize,
                fuel: *mut u64, _: usize,
                $($slice: *mut u64, _: usize,)*
                $($($word: $kind),*)?
            ) -> u64;)*
        }
    };
}

functions! {
    bvm_set_up(given answer);
    bvm_call(call answer);
    bvm_call_unchecked(call answer);
    bvm_run(calls answers);
    bvm_look(span);
    bvm_grant(answer; amount: u64);
    bvm_sound();
}

/// Those that are lent what a switch touches: six slices, the numbers, the fuel.
#[cfg(switch)]
macro_rules! switches {
    ($($name:ident($($word:ident: $kind:ty),*);)*) => {
        extern "C" {
            $(fn $name(
                stack: *mut u64, _: usize,
                frames: *mut u64, _: usize,
                chain: *mut u64, _: usize,
                slots: *mut u64, _: usize,
                saved_stack: *mut u64, _: usize,
                saved_frames: *mut u64, _: usize,
                machine: *mut u64, _: usize,
                fuel: *mut u64, _: usize,
                $($word: $kind),*
            ) -> u64;)*
        }
    };
}

#[cfg(switch)]
switches! {
    bvm_try_resume_unchecked(pc: u32, dst: u16, coro: u16, src: u16);
    bvm_try_yield_unchecked(pc: u32, dst: u16, src: u16);
}

#[cfg(batch)]
functions! {
    bvm_batch(calls answers);
}

const GUARD: u64 = 0x5AFE_5AFE_5AFE_5AFE;
/// Guard words on each side.
const AROUND: usize = 4;

/// A slice with guard words on both sides.
#[derive(Clone, Debug)]
struct Guarded(Vec<u64>);

impl Guarded {
    fn new(words: &[u64]) -> Guarded {
        let mut all = Vec::with_capacity(words.len() + 2 * AROUND);
        all.extend([GUARD; AROUND]);
        all.extend(words);
        all.extend([GUARD; AROUND]);
        Guarded(all)
    }

    fn slice(&mut self) -> &mut [u64] {
        let end = self.0.len() - AROUND;
        &mut self.0[AROUND..end]
    }

    /// The words, if the guards stand.
    fn words(&self) -> &[u64] {
        let end = self.0.len() - AROUND;
        let whole = self.0[..AROUND].iter().chain(&self.0[end..]).all(|&w| w == GUARD);
        assert!(whole, "a word outside the slice was written");
        &self.0[AROUND..end]
    }
}

/// A lent memory.
#[derive(Clone, Debug)]
pub struct Lent([Guarded; 11]);

/// A slice as the library takes it.
type Slice = (*mut u64, usize);

fn lent(words: &mut [u64]) -> Slice {
    (words.as_mut_ptr(), words.len())
}

/// Lends the eleven slices, then others, then a word.
macro_rules! lend {
    ($name:ident($all:expr, $($slice:expr),* $(; $word:expr)?)) => {{
        let a: [Slice; 11] = $all;
        // SAFETY: each slice is lent whole and none twice. `bvm_call_unchecked` is lent
        // a sound machine's words only; the others take any.
        unsafe {
            $name(
                a[0].0, a[0].1, a[1].0, a[1].1, a[2].0, a[2].1, a[3].0, a[3].1, a[4].0, a[4].1,
                a[5].0, a[5].1, a[6].0, a[6].1, a[7].0, a[7].1, a[8].0, a[8].1, a[9].0, a[9].1,
                a[10].0, a[10].1,
                $($slice.0, $slice.1,)*
                $($word)?
            )
        }
    }};
}

/// Lends the eight slices that a switch touches, then operands: whether it was
/// done. What it then answers is `GOES_ON`.
#[cfg(switch)]
macro_rules! switch {
    ($name:ident($all:expr, $($operand:expr),*)) => {{
        let a: &[Slice; 11] = &$all;
        // SAFETY: each slice is lent whole and none twice, and they are a
        // sound machine's.
        unsafe {
            $name(
                a[0].0, a[0].1, a[1].0, a[1].1, a[2].0, a[2].1, a[3].0, a[3].1, a[4].0, a[4].1,
                a[5].0, a[5].1, a[9].0, a[9].1, a[10].0, a[10].1, $($operand),*
            )
        }
    }};
}

/// The answer of a switch that was done: the frame on top goes on.
#[cfg(switch)]
const GOES_ON: AnswerWords = [0, 0, 2, 0, 3, 0, 0, 0];

/// A call in words through one of the library's functions.
#[derive(Clone, Copy, PartialEq, Eq, PartialOrd, Ord, Debug)]
pub enum Through {
    Call,
    Unchecked,
    /// Resume and Yield by the functions of their own, where they are linked
    /// and do the call; all else by `bvm_call_unchecked`.
    Switch,
}

impl Lent {
    #[must_use]
    pub fn new(words: &Words) -> Lent {
        Lent(std::array::from_fn(|i| Guarded::new(&words.0[i])))
    }

    #[must_use]
    pub fn words(&self) -> Words {
        Words(std::array::from_fn(|i| self.0[i].words().to_vec()))
    }

    /// Whether the words are those.
    #[must_use]
    pub fn is(&self, words: &Words) -> bool {
        self.0.iter().zip(&words.0).all(|(a, b)| a.words() == b)
    }

    fn all(&mut self) -> [Slice; 11] {
        self.0.each_mut().map(|s| lent(s.slice()))
    }

    pub fn set_up(&mut self, given: &[u64]) -> (u64, AnswerWords) {
        let (mut given, mut answer) = (Guarded::new(given), Guarded::new(&[GUARD; 8]));
        let (g, a) = (lent(given.slice()), lent(answer.slice()));
        let number = lend!(bvm_set_up(self.all(), g, a));
        (number, answer.words().try_into().expect("eight words"))
    }

    /// A set-up with too few words for its answer, which must stay as they are.
    pub fn set_up_short(&mut self, given: &[u64], room: usize) -> u64 {
        let (mut given, mut answer) = (Guarded::new(given), Guarded::new(&vec![GUARD; room]));
        let (g, a) = (lent(given.slice()), lent(answer.slice()));
        let number = lend!(bvm_set_up(self.all(), g, a));
        assert!(answer.words().iter().all(|&w| w == GUARD), "nothing is written");
        number
    }

    /// One call, with its words as they are.
    pub fn call(&mut self, through: Through, call: &[u64]) -> (u64, AnswerWords) {
        let (mut call, mut answer) = (Guarded::new(call), Guarded::new(&[GUARD; 8]));
        let (c, a) = (lent(call.slice()), lent(answer.slice()));
        let number = match through {
            Through::Call => lend!(bvm_call(self.all(), c, a)),
            Through::Unchecked => lend!(bvm_call_unchecked(self.all(), c, a)),
            Through::Switch if self.switched(call.words(), a) => 0,
            Through::Switch => lend!(bvm_call_unchecked(self.all(), c, a)),
        };
        (number, answer.words().try_into().expect("eight words"))
    }

    /// Whether the words are a Resume or Yield that was done; its answer is
    /// then written here. One that was not has changed no word.
    #[cfg(switch)]
    fn switched(&mut self, call: &[u64], a: Slice) -> bool {
        let before = self.words();
        match self.tried(call) {
            Some(1) => {
                // SAFETY: the answer's eight words, which nothing else holds.
                unsafe { std::slice::from_raw_parts_mut(a.0, a.1) }.copy_from_slice(&GOES_ON);
                true
            }
            told => {
                assert!(matches!(told, None | Some(0)), "a try answers 0 or 1");
                assert!(self.is(&before), "a try that answers 0 changes nothing");
                false
            }
        }
    }

    /// What the function of a switch returns, if the words are such a call.
    #[cfg(switch)]
    fn tried(&mut self, call: &[u64]) -> Option<u64> {
        let pc = u32::try_from(*call.get(1)?).ok()?;
        let reg = |i: usize| u16::try_from(call[i]).ok();
        match *call {
            [6, _, _, _, _, 0] => {
                Some(switch!(bvm_try_resume_unchecked(self.all(), pc, reg(2)?, reg(3)?, reg(4)?)))
            }
            [3, _, _, _, 0, 0] => {
                Some(switch!(bvm_try_yield_unchecked(self.all(), pc, reg(2)?, reg(3)?)))
            }
            _ => None,
        }
    }

    #[cfg(not(switch))]
    fn switched(&mut self, _: &[u64], _: Slice) -> bool {
        false
    }

    /// Whether the function of a switch does the call, which this memory does
    /// not see; none if the words are no switch, or it is not linked.
    #[must_use]
    pub fn takes(&self, call: &[u64]) -> Option<bool> {
        #[cfg(switch)]
        return self.clone().tried(call).map(|told| told == 1);
        #[cfg(not(switch))]
        return None;
    }

    /// Calls in words, one after the other; the answers have so many words,
    /// and as many more as are not to be written. Where `bvm_batch` is linked
    /// it must leave and answer the same, word for word.
    pub fn run(&mut self, calls: &[u64], answers: usize, more: usize) -> (u64, Vec<u64>) {
        #[cfg(batch)]
        let batch = self.clone().batch(calls, answers + more);
        let mut calls = Guarded::new(calls);
        let mut all = Guarded::new(&vec![GUARD; answers + more]);
        let (c, a) = (lent(calls.slice()), lent(all.slice()));
        let number = lend!(bvm_run(self.all(), c, a));
        #[cfg(batch)]
        {
            let (lent, n, told) = batch;
            assert_eq!((n, told.as_slice()), (number, all.words()), "bvm_batch beside bvm_run");
            assert!(lent.is(&self.words()), "bvm_batch leaves what bvm_run leaves");
        }
        let (told, beyond) = all.words().split_at(answers);
        assert!(beyond.iter().all(|&w| w == GUARD), "beyond the last answer nothing is written");
        (number, told.to_vec())
    }

    /// The memory that `bvm_batch` leaves, its number and its answers.
    #[cfg(batch)]
    fn batch(mut self, calls: &[u64], answers: usize) -> (Lent, u64, Vec<u64>) {
        let mut calls = Guarded::new(calls);
        let mut all = Guarded::new(&vec![GUARD; answers]);
        let (c, a) = (lent(calls.slice()), lent(all.slice()));
        let number = lend!(bvm_batch(self.all(), c, a));
        (self, number, all.words().to_vec())
    }

    pub fn look(&mut self) -> (u64, [u64; 2]) {
        let mut span = Guarded::new(&[GUARD; 2]);
        let s = lent(span.slice());
        let number = lend!(bvm_look(self.all(), s));
        (number, span.words().try_into().expect("two words"))
    }

    pub fn grant(&mut self, amount: u64) -> (u64, AnswerWords) {
        let mut answer = Guarded::new(&[GUARD; 8]);
        let a = lent(answer.slice());
        let number = lend!(bvm_grant(self.all(), a; amount));
        (number, answer.words().try_into().expect("eight words"))
    }

    /// Too few words for the answer of each function, which must stay as they
    /// are: what each returns.
    pub fn short(&mut self, room: usize) -> [(&'static str, u64); 4] {
        let mut call = Guarded::new(&[26, 0, 0, 0, 0, 0]);
        let mut answer = Guarded::new(&vec![GUARD; room]);
        let (c, a) = (lent(call.slice()), lent(answer.slice()));
        let span = (a.0, a.1.min(1));
        let told = [
            ("bvm_call", lend!(bvm_call(self.all(), c, a))),
            ("bvm_run", lend!(bvm_run(self.all(), c, a))),
            ("bvm_look", lend!(bvm_look(self.all(), span))),
            ("bvm_grant", lend!(bvm_grant(self.all(), a; 1))),
        ];
        #[cfg(batch)]
        assert_eq!(lend!(bvm_batch(self.all(), c, a)), told[1].1, "bvm_batch beside bvm_run");
        assert!(answer.words().iter().all(|&w| w == GUARD), "nothing is written");
        told
    }

    pub fn sound(&mut self) -> bool {
        match lend!(bvm_sound(self.all(),)) {
            0 => false,
            1 => true,
            n => panic!("bvm_sound answers {n}"),
        }
    }
}

/// Words of a page, and how far the slices of a block begin from one another in
/// theirs: where two begin at the same place, loads wait for stores to the other.
const PAGE: usize = 512;
const APART: usize = 80;

/// A sound machine's words without guards, for the benchmark.
pub struct Bare {
    /// All words in one block, which is never moved or resized.
    block: Vec<u64>,
    slices: [Slice; 11],
    answer: AnswerWords,
}

impl Bare {
    /// A fresh machine. The set-up must be a good one.
    #[must_use]
    pub fn new(s: &Setup) -> Bare {
        let words = Words::of(&World::fresh(s.clone()));
        let mut block = vec![0; words.0.iter().map(|w| w.len() + 2 * PAGE).sum::<usize>() + PAGE];
        let skip = block.as_ptr().align_offset(8 * PAGE);
        let mut rest = &mut block[skip..];
        let mut at = 0;
        let slices = std::array::from_fn(|i| {
            let w = &words.0[i];
            let gap = (i * APART + PAGE - at % PAGE) % PAGE;
            let (here, after) = std::mem::take(&mut rest)[gap..].split_at_mut(w.len());
            here.copy_from_slice(w);
            at += gap + w.len();
            rest = after;
            lent(here)
        });
        let mut bare = Bare { block, slices, answer: [0; 8] };
        let mut given = setup_words(s);
        let (g, a) = (lent(&mut given), lent(&mut bare.answer));
        assert_eq!(lend!(bvm_set_up(bare.slices, g, a)), 0);
        bare
    }

    /// A call, without the test of soundness.
    #[inline]
    pub fn unchecked(&mut self, mut call: CallWords) -> &AnswerWords {
        let (c, a) = (lent(&mut call), lent(&mut self.answer));
        lend!(bvm_call_unchecked(self.slices, c, a));
        &self.answer
    }

    /// Calls one after the other, tested once.
    #[inline]
    pub fn run(&mut self, calls: &mut [u64], answers: &mut [u64]) -> u64 {
        let (c, a) = (lent(calls), lent(answers));
        lend!(bvm_run(self.slices, c, a))
    }

    /// The same by `bvm_batch`.
    #[cfg(batch)]
    #[inline]
    pub fn batch(&mut self, calls: &mut [u64], answers: &mut [u64]) -> u64 {
        let (c, a) = (lent(calls), lent(answers));
        lend!(bvm_batch(self.slices, c, a))
    }

    /// Resume, without the test of soundness: the answer's number.
    #[cfg(switch)]
    #[inline]
    pub fn resume(&mut self, pc: u32, dst: u16, coro: u16, src: u16) -> u64 {
        match switch!(bvm_try_resume_unchecked(self.slices, pc, dst, coro, src)) {
            1 => 0,
            _ => self.general([6, pc.into(), dst.into(), coro.into(), src.into(), 0]),
        }
    }

    /// Yield, without it.
    #[cfg(switch)]
    #[inline]
    pub fn suspend(&mut self, pc: u32, dst: u16, src: u16) -> u64 {
        match switch!(bvm_try_yield_unchecked(self.slices, pc, dst, src)) {
            1 => 0,
            _ => self.general([3, pc.into(), dst.into(), src.into(), 0, 0]),
        }
    }

    /// What a try leaves. Inlined it would keep the slices for the second call.
    #[cfg(switch)]
    #[cold]
    #[inline(never)]
    fn general(&mut self, call: CallWords) -> u64 {
        self.unchecked(call)[0]
    }

    /// A call with it.
    #[inline]
    pub fn call(&mut self, mut call: CallWords) -> &AnswerWords {
        let (c, a) = (lent(&mut call), lent(&mut self.answer));
        lend!(bvm_call(self.slices, c, a));
        &self.answer
    }

    /// A slice's words.
    fn slice(&self, i: usize) -> &[u64] {
        let start = (self.slices[i].0 as usize - self.block.as_ptr() as usize) / 8;
        &self.block[start..start + self.slices[i].1]
    }

    /// The words on the stack.
    #[must_use]
    pub fn stack(&self) -> &[u64] {
        &self.slice(STACK)[..self.slice(MACHINE)[0] as usize]
    }

    /// How many frames there are.
    #[must_use]
    pub fn depth(&self) -> usize {
        self.slice(MACHINE)[1] as usize
    }
}
