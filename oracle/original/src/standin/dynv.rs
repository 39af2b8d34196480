//! Stand-in: the coding of a dynamic word, after 01's section "Leaves
//! the listed files lack". Inlined, so that the original pays for no call that
//! its own would not make.

use oracle::word;

pub(crate) const NIL: u64 = word::NIL;
/// Bit 47 of a reference: bit 15 of its tag. Boxes are left out.
pub(crate) const BOX_FLAG: u64 = 1 << 47;

#[inline]
pub(crate) fn is_ref(v: u64) -> bool {
    word::is_ref(v)
}

#[inline]
pub(crate) fn is_box(_v: u64) -> bool {
    false
}

#[inline]
pub(crate) fn ref_parts(v: u64) -> (u32, u16) {
    word::ref_parts(v)
}

#[inline]
pub(crate) fn from_ref(index: u32, tag: u16) -> u64 {
    word::from_ref(index, tag)
}

#[inline]
pub(crate) fn inline_int(i: i64) -> Option<u64> {
    word::inline_int(i)
}

/// Constants only; the set-up has none.
#[inline]
pub(crate) fn from_bool(b: bool) -> u64 {
    u64::from(b)
}

/// Constants only; the set-up has none.
#[inline]
pub(crate) fn from_f64(x: f64) -> u64 {
    x.to_bits()
}

/// Constants only; the set-up has none.
#[inline]
pub(crate) fn from_char(c: u32) -> u64 {
    u64::from(c)
}

/// A word by its class. Words of no class read as floats.
pub(crate) enum Raw {
    Nil,
    Bool(bool),
    Int(i64),
    Float(f64),
    Char(u32),
    Ref(u32, u16),
}

#[inline]
pub(crate) fn decode(v: u64) -> Raw {
    if v == NIL {
        return Raw::Nil;
    }
    if is_ref(v) {
        let (index, tag) = ref_parts(v);
        return Raw::Ref(index, tag);
    }
    match word::inline_value(v) {
        Some(i) => Raw::Int(i),
        None => Raw::Float(f64::from_bits(v)),
    }
}
