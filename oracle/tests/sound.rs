//! Every rule of soundness refuses a state that breaks it, and a state at its
//! edge passes.

use oracle::broken::{changed, BROKEN, KEPT};
use oracle::generate::{machine, Profile, Rng};
use oracle::lent::{read, Words, MACHINE};
use oracle::sound::sound;
use oracle::world::Costs;

#[test]
fn each_rule_refuses_what_breaks_it() {
    for &(name, change) in BROKEN {
        assert_eq!(sound(&changed((name, change))), Err(name));
    }
}

#[test]
fn what_is_no_rule_is_sound() {
    for &(name, change) in KEPT {
        assert_eq!(sound(&changed((name, change))), Ok(()), "{name}");
    }
}

/// The words of a state are read back, and those of a state that breaks a rule
/// are refused.
#[test]
fn words_stand_for_the_state_they_are_written_from() {
    let costs = Costs { frame: 32, coro: 104, coro_object: 160, int: 56, error: 56, iter: 112 };
    for seed in 0..2_000 {
        let w = machine(&mut Rng::new(seed), costs, Profile::Small);
        let words = Words::of(&w);
        assert_eq!(read(&words), Ok(w), "seed {seed}");
        let mut longer = words;
        longer.0[..MACHINE].iter_mut().for_each(|ws| ws.push(0));
        assert!(read(&longer).is_ok());
    }
    for &(name, change) in KEPT {
        let w = changed((name, change));
        assert_eq!(read(&Words::of(&w)), Ok(w), "{name}");
    }
    let mut refused = 0;
    for &(name, change) in BROKEN {
        let w = changed((name, change));
        // some have no words at all
        let Ok(words) = std::panic::catch_unwind(|| Words::of(&w)) else { continue };
        assert!(read(&words).is_err(), "{name}");
        refused += 1;
    }
    assert!(refused > 30, "{refused}");
}
