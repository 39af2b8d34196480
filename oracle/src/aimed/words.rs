//! Words at the edges of each class: what is nil, a reference, an integer, or
//! none of these, and which slot and tag a reference names.

use super::{from_host, new, next, put, resume, status, C, D};
use crate::call::Call;
use crate::generate::Sequence;
use crate::word::{from_ref, inline_int, INT_TAG, NIL, REF_BASE};
use crate::world::Costs;

/// Beside the coroutine's own word `C`: one above nil; one bit above the
/// references; bit 31 of the slot; bit 15 of the tag; one above the integers'
/// top; the largest slot and tag.
const STRANGE: [u64; 6] =
    [1, 2 * REF_BASE + 6, C + (1 << 31), C + (1 << 47), INT_TAG + REF_BASE + 5, 2 * REF_BASE - 1];

/// Each call that takes a word, given one that names nothing.
fn named(costs: Costs, word: u64) -> Sequence {
    let asks = [
        status(2, 5),
        Call::CoroKey { pc: 6, dst: 2, coro: 5 },
        Call::CoroResult { pc: 7, dst: 2, coro: 5 },
        resume(2, 5),
        Call::ResumeThrow { pc: 10, dst: 2, coro: 5, src: 3 },
        Call::CoroClose { pc: 11, dst: 2, coro: 5, src: 3 },
        next(2, 5, 3, 0),
        next(2, 1, 3, 5),
        Call::CoroNewIndirect { pc: 12, dst: 2, callee: 5, argc: 0 },
        Call::MakeIterator { src: word },
        Call::SpawnTask { word },
        Call::HandOver { coro: word },
        Call::Look,
        Call::StopRun,
        Call::HostEntry { coro: word, word: 9 },
    ];
    let begin = [new(0, 0), Call::MakeIterator { src: C }, put(1, D), put(5, word)];
    from_host(costs, 3, begin.into_iter().chain(asks))
}

/// A word as the key of a yield, then a yield with the key after the largest.
fn keyed(costs: Costs, key: u64) -> Sequence {
    let asked = Call::CoroKey { pc: 6, dst: 2, coro: 0 };
    let inside = [put(4, 8), put(5, key), Call::YieldKv { pc: 9, dst: 0, src: 4, key: 5 }];
    let after = [asked.clone(), Call::Look, resume(1, 0), super::YIELD, asked, Call::Look];
    from_host(costs, 3, [new(0, 3), resume(1, 0)].into_iter().chain(inside).chain(after))
}

/// All of them. Keys: nil, strange words, integers at the ends of their range.
pub(super) fn all(costs: Costs) -> Vec<Sequence> {
    let ends = [7, -1, (1 << 47) - 1, -(1 << 47)].map(|i| inline_int(i).expect("inline"));
    let keys = [NIL, from_ref(3, 0)].into_iter().chain(STRANGE).chain(ends);
    let named = STRANGE.into_iter().map(|w| named(costs, w));
    named.chain(keys.map(|k| keyed(costs, k))).collect()
}
