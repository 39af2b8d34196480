//! The coding of a 64-bit word.

use core::fmt;

use crate::FunctionId;

/// A word: nil, a reference to an object, an inline integer, or a number of
/// the host's own. `Word(5)` has these bits; five is [`Word::int`]`(5)`. No
/// number becomes a word by itself:
///
/// ```compile_fail,E0277
/// let five: humdelzi::Word = 5.into();
/// ```
#[derive(Clone, Copy, PartialEq, Eq, Hash, PartialOrd, Ord, Default)]
#[repr(transparent)]
pub struct Word(pub u64);

impl Word {
    /// Nil is word 0.
    pub const NIL: Word = Word(0);
    /// References run from 2^48 up to 2^49 - 1.
    pub const REFERENCE_BASE: u64 = 1 << 48;
    /// The top sixteen bits of an inline integer are FFFE (hex).
    pub const INTEGER_TAG: u64 = 0xFFFE << 48;

    /// The word of an integer from -2^47 to 2^47 - 1; others need an object.
    ///
    /// ```
    /// use humdelzi::Word;
    /// assert_eq!(Word::int(-1), Some(Word(0xFFFE_FFFF_FFFF_FFFF)));
    /// assert_eq!(Word::int(1 << 47), None);
    /// ```
    #[must_use]
    pub const fn int(n: i64) -> Option<Word> {
        if n < -(1 << 47) || n >= 1 << 47 {
            return None;
        }
        Some(Word(Word::INTEGER_TAG | (n as u64 & ((1 << 48) - 1))))
    }

    /// The word of a function's object, which CoroNewIndirect and Spawn take:
    /// a set-up makes one for each function, in slots from 0.
    ///
    /// ```
    /// # use humdelzi::{Function, FunctionId, Object, Setup, Word};
    /// let (m, _) = Setup::new().function(Function::new(1)).machine()?;
    /// let word = Word::function(FunctionId(0));
    /// assert_eq!(m.object(word), Some(Object::Function(FunctionId(0))));
    /// # Ok::<(), humdelzi::SetupError>(())
    /// ```
    #[must_use]
    pub const fn function(id: FunctionId) -> Word {
        Word::reference(id.0, 0)
    }

    /// The word of the object in a slot. Today every object's tag is 0.
    #[must_use]
    pub const fn slot(slot: u32) -> Word {
        Word::reference(slot, 0)
    }

    /// A reference, of its slot and its tag.
    #[must_use]
    pub const fn reference(slot: u32, tag: u16) -> Word {
        Word(Word::REFERENCE_BASE | (tag as u64) << 32 | slot as u64)
    }

    /// The integer that an inline word holds.
    #[must_use]
    pub const fn as_int(self) -> Option<i64> {
        if self.0 >> 48 != Word::INTEGER_TAG >> 48 {
            return None;
        }
        Some((self.0 << 16) as i64 >> 16)
    }

    /// A reference's slot and tag.
    #[must_use]
    pub const fn as_reference(self) -> Option<(u32, u16)> {
        if self.0 >> 48 != 1 {
            return None;
        }
        Some((self.0 as u32, (self.0 >> 32) as u16))
    }

    /// Whether it is nil.
    #[must_use]
    pub const fn is_nil(self) -> bool {
        self.0 == 0
    }
}

/// An integer as its number, a reference as `@` and its slot, nil as `nil`,
/// any other as its bits.
impl fmt::Display for Word {
    fn fmt(&self, f: &mut fmt::Formatter<'_>) -> fmt::Result {
        match (self.as_int(), self.as_reference()) {
            (Some(n), _) => n.fmt(f),
            (_, Some((slot, 0))) => write!(f, "@{slot}"),
            (_, Some((slot, tag))) => write!(f, "@{slot}.{tag}"),
            _ if self.is_nil() => f.pad("nil"),
            _ => write!(f, "#{:x}", self.0),
        }
    }
}

impl fmt::Debug for Word {
    fn fmt(&self, f: &mut fmt::Formatter<'_>) -> fmt::Result {
        match (self.as_int(), self.as_reference()) {
            (Some(n), _) => write!(f, "Word(int {n})"),
            (_, Some((slot, tag))) => write!(f, "Word(slot {slot}, tag {tag})"),
            _ => write!(f, "Word({})", self.0),
        }
    }
}
