//! The library beside the original: the same answers, stacks and numbers of
//! frames in the round trips that are measured.

use original::Bench;

use super::library::Unchecked;
use super::{Switch, MEASURES};

fn agree(original: &Bench, ours: &Unchecked) {
    assert_eq!(ours.0.stack(), original.stack());
    assert_eq!(ours.0.depth(), original.depth());
}

fn both(mut call: impl FnMut(&mut dyn Switch), original: &mut Bench, ours: &mut Unchecked) {
    call(original);
    call(ours);
    agree(original, ours);
}

#[test]
fn round_trips_agree() {
    let costs = original::costs();
    for (func, frames) in [(0, 0), (1, 3)] {
        let (mut a, mut b) = (Bench::new(costs), Unchecked::new(costs));
        both(|e| e.create(func), &mut a, &mut b);
        both(|e| e.resume(), &mut a, &mut b);
        for _ in 0..frames {
            both(|e| e.push(1), &mut a, &mut b);
        }
        for sent in 0..50 {
            for r in 0..4 {
                let word = 1000 * sent + r;
                a.put(r, word);
                b.put(r, word);
            }
            agree(&a, &b);
            both(|e| e.suspend(), &mut a, &mut b);
            a.put(2, 7 + sent);
            b.put(2, 7 + sent);
            both(|e| e.resume(), &mut a, &mut b);
        }
    }
}

/// Every measure leaves the same stack and as many frames.
#[test]
fn measures_agree() {
    let costs = original::costs();
    for (_, m) in MEASURES {
        let (mut a, mut b) = (Bench::new(costs), Unchecked::new(costs));
        m.ready(&mut a);
        m.ready(&mut b);
        for _ in 0..5 {
            m.batch(&mut a, 2);
            m.batch(&mut b, 2);
            agree(&a, &b);
        }
    }
}
