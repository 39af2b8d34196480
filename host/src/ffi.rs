//! The one module with `unsafe`: the functions of the static library
//! (docs/ABI.md), on words that this module owns.
//!
//! Why each call is safe. The library is compiled from code that is proved to
//! stay within the slices that it is lent, if what it asks for holds:
//!
//! - Every slice is passed as its pointer and its length, and no two overlap:
//!   the machine's are different parts of one block that [`Sound`] owns and
//!   neither moves nor resizes, borrowed with it for the call; the others are
//!   borrowed for the call each.
//! - `bvm_set_up` and `bvm_sound` may be lent any words whatever, and
//!   `bvm_sound` only reads.
//! - `bvm_call_unchecked` needs the words of a well-formed machine (01 says
//!   "sound") and a well-formed fuel record. [`Sound`] holds nothing else: it
//!   is made where `bvm_set_up` answered 0 or where `bvm_sound` said yes, its
//!   words are private to this module, and only `bvm_call_unchecked`, the two
//!   tries and `bvm_batch` below, and an accepted set-up change them. All leave
//!   a well-formed machine
//!   (`crates/claims_linked/specs/Library.antt`: `begun`, `called`, `kept`). The
//!   same holds of [`Record`]; and a machine that passes the test passes with
//!   the record of any other that does (`any-fuel` there, from `AnyFuel` of
//!   `crates/claims_memory/specs/Fuel.antt`), so also with those of
//!   [`Record::of`], which a grant after a set-up, and a hand over after that,
//!   leave.
//! - `bvm_try_resume_unchecked` and `bvm_try_yield_unchecked` ask for what
//!   `bvm_call_unchecked` asks for, of the slices that they are lent and some
//!   others beside. Where they answer 1 they leave what it leaves of the same
//!   call, where they answer 0 all is as it was: `Switched` of
//!   `crates/linked_switch/specs/Switch.antt`, the contract of each in
//!   `crates/linked_switch/src`. So what is said of `bvm_call_unchecked` above
//!   holds of them.
//! - `bvm_batch` may be lent any words whatever, and leaves a well-formed
//!   machine well-formed (`run_host` there; `ran` of `Library.antt`).

#![allow(unsafe_code)]

use alloc::boxed::Box;
use alloc::vec;
use alloc::vec::Vec;
use core::slice;

use crate::words::Words;
use crate::Word;

/// A call in words.
pub(crate) type CallWords = [u64; 6];
/// An answer in words.
pub(crate) type AnswerWords = [u64; 8];

/// A slice as the library takes it.
#[derive(Clone, Copy)]
#[repr(C)]
struct Lent(*mut u64, usize);

/// The words of a well-formed machine; its fuel is kept elsewhere.
pub(crate) struct Sound {
    /// All words, in one block: read and written by way of the slices only.
    _block: Vec<u64>,
    /// Its parts that the library is lent, in the order of its parameters.
    slices: [Lent; 10],
    /// Where the library writes an answer.
    answer: AnswerWords,
}

// SAFETY: the pointers lead into the block, which is the machine's own.
unsafe impl Send for Sound {}
// SAFETY: what is shared is only read.
unsafe impl Sync for Sound {}

/// The words of a machine, to be read.
#[derive(Clone, Copy, PartialEq, Eq)]
pub(crate) struct View<'a> {
    pub(crate) stack: &'a [u64],
    pub(crate) frames: &'a [u64],
    pub(crate) chain: &'a [u64],
    pub(crate) slots: &'a [u64],
    pub(crate) saved_stack: &'a [u64],
    pub(crate) saved_frames: &'a [u64],
    pub(crate) ready: &'a [u64],
    pub(crate) finalize: &'a [u64],
    pub(crate) setup: &'a [u64],
    pub(crate) machine: &'a [u64],
}

impl<'a> View<'a> {
    /// The slices, in the order of the library's parameters.
    pub(crate) fn parts(&self) -> [&'a [u64]; 10] {
        let View { stack, frames, chain, slots, saved_stack, saved_frames, .. } = *self;
        let View { ready, finalize, setup, machine, .. } = *self;
        [stack, frames, chain, slots, saved_stack, saved_frames, ready, finalize, setup, machine]
    }
}

/// A well-formed fuel record: what is left; 1 and how much is set aside, or 0
/// and 0; 1 if a cleanup is due.
#[derive(PartialEq, Eq)]
pub(crate) struct Record([u64; 4]);

/// The same words, by their type.
pub(crate) fn typed(words: &[u64]) -> &[Word] {
    // SAFETY: `Word` is `repr(transparent)` over `u64`.
    unsafe { slice::from_raw_parts(words.as_ptr().cast(), words.len()) }
}

/// Words of a page, and how far in theirs the slices begin from one another:
/// where two begin at the same place, loads wait for stores to the other.
const PAGE: usize = 512;
const APART: usize = 80;

/// The library's functions. Each is lent the machine's nine slices and its
/// numbers, as a pointer and a length each, then other slices.
macro_rules! functions {
    ($($name:ident($($slice:ident)*) $pointer:ty;)*) => {
        extern "C" {
            $(fn $name(
                stack: $pointer, _: usize,
                frames: $pointer, _: usize,
                chain: $pointer, _: usize,
                slots: $pointer, _: usize,
                saved_stack: $pointer, _: usize,
                saved_frames: $pointer, _: usize,
                ready: $pointer, _: usize,
                finalize: $pointer, _: usize,
                setup: $pointer, _: usize,
                machine: $pointer, _: usize,
                $($slice: $pointer, _: usize,)*
            ) -> u64;)*
        }
    };
}

functions! {
    bvm_set_up(fuel given answer) *mut u64;
    bvm_call_unchecked(fuel call answer) *mut u64;
    bvm_batch(fuel calls answers) *mut u64;
    bvm_sound(fuel) *const u64;
}

/// Those of a switch: they are lent the six slices that one moves words
/// between, the machine's numbers and the fuel, and told the operands.
macro_rules! switches {
    ($($name:ident($($operand:ident: $kind:ty),*);)*) => {
        extern "C" {
            $(fn $name(
                stack: *mut u64, _: usize,
                frames: *mut u64, _: usize,
                chain: *mut u64, _: usize,
                slots: *mut u64, _: usize,
                saved_stack: *mut u64, _: usize,
                saved_frames: *mut u64, _: usize,
                machine: *mut u64, _: usize,
                fuel: *mut u64, _: usize,
                $($operand: $kind,)*
            ) -> u64;)*
        }
    };
}

switches! {
    bvm_try_resume_unchecked(pc: u32, dst: u16, coro: u16, src: u16);
    bvm_try_yield_unchecked(pc: u32, dst: u16, src: u16);
}

/// Calls one of the first, with the machine's slices and the others.
macro_rules! lend {
    ($name:ident($lent:expr, $($slice:expr),*) $pointer:ident) => {{
        let w: &[Lent; 10] = &$lent;
        // SAFETY: above.
        unsafe {
            $name(
                w[0].0, w[0].1, w[1].0, w[1].1, w[2].0, w[2].1, w[3].0, w[3].1, w[4].0, w[4].1,
                w[5].0, w[5].1, w[6].0, w[6].1, w[7].0, w[7].1, w[8].0, w[8].1, w[9].0, w[9].1,
                $($slice.$pointer(), $slice.len(),)*
            )
        }
    }};
}

/// Calls one of the second: whether the switch is done.
macro_rules! switch {
    ($name:ident($lent:expr, $fuel:expr; $($operand:expr),*)) => {{
        let w: &[Lent; 10] = &$lent;
        let fuel: &mut [u64; 4] = &mut $fuel;
        // SAFETY: above.
        let done = unsafe {
            $name(
                w[0].0, w[0].1, w[1].0, w[1].1, w[2].0, w[2].1, w[3].0, w[3].1, w[4].0, w[4].1,
                w[5].0, w[5].1, w[9].0, w[9].1, fuel.as_mut_ptr(), fuel.len(), $($operand,)*
            )
        };
        done == 1
    }};
}

impl Sound {
    /// Zeros, so many in each slice.
    fn room(lengths: [usize; 10]) -> Sound {
        let mut block = vec![0u64; lengths.iter().map(|n| n + PAGE).sum::<usize>() + PAGE];
        let start = block.as_mut_ptr();
        let first = start.align_offset(8 * PAGE);
        let mut at = first;
        let slices = core::array::from_fn(|i| {
            at += (i * APART + PAGE - (at - first) % PAGE) % PAGE;
            assert!(at + lengths[i] <= block.len(), "room for the slice");
            // SAFETY: the part lies in the block.
            let lent = Lent(unsafe { start.add(at) }, lengths[i]);
            at += lengths[i];
            lent
        });
        Sound { _block: block, slices, answer: [0; 8] }
    }

    /// These words in a block of their own.
    fn hold(parts: [&[u64]; 10]) -> Sound {
        let held = Sound::room(parts.map(<[u64]>::len));
        for (to, from) in held.slices.iter().zip(parts) {
            // SAFETY: as long, in a block that is not seen elsewhere yet.
            unsafe { slice::from_raw_parts_mut(to.0, to.1) }.copy_from_slice(from);
        }
        held
    }

    /// A set-up of the words `given`, in slices of these lengths.
    pub(crate) fn set_up(lengths: [usize; 10], given: &[u64]) -> Option<(Sound, Record)> {
        let (mut made, mut given, mut fuel) = (Sound::room(lengths), given.to_vec(), [0; 4]);
        let number = lend!(bvm_set_up(made.slices, fuel, given, made.answer) as_mut_ptr);
        (number == 0).then_some((made, Record(fuel)))
    }

    /// Words from elsewhere, with their fuel, tested.
    pub(crate) fn test(words: Words) -> Result<(Sound, Record), Box<Words>> {
        let (held, fuel) = (Sound::hold(words.parts()), &words.fuel);
        let sound = lend!(bvm_sound(held.slices, fuel) as_ptr) == 1;
        match <[u64; 4]>::try_from(&fuel[..]) {
            Ok(record) if sound => Ok((held, Record(record))),
            _ => Err(Box::new(words)),
        }
    }

    /// The words, to be read.
    pub(crate) fn words(&self) -> View<'_> {
        // SAFETY: the slices are parts of the block, which lives as long, and
        // nothing writes there while it is borrowed.
        let part = |i: usize| unsafe { slice::from_raw_parts(self.slices[i].0, self.slices[i].1) };
        View {
            stack: part(0),
            frames: part(1),
            chain: part(2),
            slots: part(3),
            saved_stack: part(4),
            saved_frames: part(5),
            ready: part(6),
            finalize: part(7),
            setup: part(8),
            machine: part(9),
        }
    }

    /// A call, without the test of the machine.
    pub(crate) fn call(&mut self, fuel: &mut Record, mut call: CallWords) -> &AnswerWords {
        lend!(bvm_call_unchecked(self.slices, fuel.0, call, self.answer) as_mut_ptr);
        &self.answer
    }

    /// Resume, where nothing refuses it: the frame on top goes on. Else nothing
    /// is done.
    #[inline]
    pub(crate) fn try_resume(&mut self, fuel: &mut Record, pc: u32, r: [u16; 3]) -> bool {
        let [dst, coro, src] = r;
        switch!(bvm_try_resume_unchecked(self.slices, fuel.0; pc, dst, coro, src))
    }

    /// Yield to a Resume, where nothing refuses it, in the same way.
    #[inline]
    pub(crate) fn try_yield(&mut self, fuel: &mut Record, pc: u32, r: [u16; 2]) -> bool {
        let [dst, src] = r;
        switch!(bvm_try_yield_unchecked(self.slices, fuel.0; pc, dst, src))
    }

    /// Calls one after the other, after one test of the machine.
    pub(crate) fn batch(
        &mut self,
        fuel: &mut Record,
        calls: &mut [CallWords],
        answers: &mut [AnswerWords],
    ) {
        let (calls, answers) = (calls.as_flattened_mut(), answers.as_flattened_mut());
        lend!(bvm_batch(self.slices, fuel.0, calls, answers) as_mut_ptr);
    }

    /// The test: whether the machine is well-formed.
    pub(crate) fn is_sound(&self, fuel: &Record) -> bool {
        lend!(bvm_sound(self.slices, fuel.0) as_ptr) == 1
    }
}

impl Clone for Sound {
    fn clone(&self) -> Sound {
        Sound::hold(self.words().parts())
    }
}

impl PartialEq for Sound {
    fn eq(&self, other: &Sound) -> bool {
        self.words() == other.words()
    }
}

impl Eq for Sound {}

impl Record {
    /// One with an amount: set aside, and a cleanup marked, where one is due.
    pub(crate) fn of(amount: u64, due: bool) -> Record {
        Record(if due { [0, 1, amount, 1] } else { [amount, 0, 0, 0] })
    }

    /// The words, to be read.
    pub(crate) fn words(&self) -> &[u64; 4] {
        &self.0
    }
}
