//! The coding of a 64-bit word: nil, references, inline integers. Inlined: the
//! original runs on it too, and is timed.

/// Nil is word 0.
pub const NIL: u64 = 0;
/// References run from here up to `2 * REF_BASE - 1`.
pub const REF_BASE: u64 = 1 << 48;
/// The top sixteen bits of an inline integer.
pub const INT_TAG: u64 = 0xFFFE << 48;
/// One more than the largest inline integer.
pub const INLINE_END: i64 = 1 << 47;

const LOW: u64 = (1 << 48) - 1;

#[inline]
#[must_use]
pub fn is_ref(w: u64) -> bool {
    w >> 48 == 1
}

/// Slot (bits 0-31) and tag (bits 32-47) of a reference.
#[inline]
#[must_use]
pub fn ref_parts(w: u64) -> (u32, u16) {
    (w as u32, (w >> 32) as u16)
}

#[inline]
#[must_use]
pub fn from_ref(slot: u32, tag: u16) -> u64 {
    REF_BASE | u64::from(tag) << 32 | u64::from(slot)
}

/// The word of an integer from -2^47 to 2^47 - 1; others need an object.
#[inline]
#[must_use]
pub fn inline_int(i: i64) -> Option<u64> {
    (-INLINE_END..INLINE_END).contains(&i).then_some(INT_TAG | (i as u64 & LOW))
}

/// The integer that an inline word holds.
#[inline]
#[must_use]
pub fn inline_value(w: u64) -> Option<i64> {
    (w >> 48 == INT_TAG >> 48).then_some((w << 16) as i64 >> 16)
}

#[cfg(test)]
mod tests {
    use super::*;

    #[test]
    fn minus_one_is_the_papers_word() {
        assert_eq!(inline_int(-1), Some(0xFFFE_FFFF_FFFF_FFFF));
    }

    #[test]
    fn inline_range_ends_at_two_to_the_47() {
        assert_eq!(inline_int(INLINE_END), None);
        assert_eq!(inline_int(-INLINE_END - 1), None);
        for i in [-INLINE_END, -1, 0, 1, INLINE_END - 1] {
            assert_eq!(inline_int(i).and_then(inline_value), Some(i));
        }
    }

    #[test]
    fn references_keep_slot_and_tag() {
        let w = from_ref(7, 0x8001);
        assert!(is_ref(w) && !is_ref(w + (1 << 48)));
        assert_eq!(ref_parts(w), (7, 0x8001));
    }
}
