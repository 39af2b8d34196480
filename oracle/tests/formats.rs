//! Text and numbers carry every state, call and answer.

use oracle::call::{Answer, Call};
use oracle::codec::NumReader;
use oracle::engine::Engine;
use oracle::generate::{machine, sequence, Profile, Rng};
use oracle::layout;
use oracle::plain::Plain;
use oracle::recorded;
use oracle::sound::sound;
use oracle::world::{Costs, World};

const COSTS: Costs =
    Costs { frame: 32, coro: 104, coro_object: 160, int: 56, error: 56, iter: 112 };

#[test]
fn states_come_back() {
    let mut rng = Rng::new(11);
    for i in 0..300 {
        let profile = if i % 10 == 0 { Profile::Wide } else { Profile::Small };
        let w = machine(&mut rng, COSTS, profile);
        assert_eq!(sound(&w), Ok(()));
        let line = layout::text(&w, layout::world);
        assert_eq!(layout::from_text(&line, World::default(), layout::world).as_ref(), Ok(&w));
        let numbers = layout::numbers(&w, layout::world);
        let mut c = NumReader(&numbers);
        assert_eq!(layout::from_numbers(&mut c, World::default(), layout::world).as_ref(), Ok(&w));
        assert!(c.0.is_empty());
    }
}

#[test]
fn calls_and_answers_come_back() {
    let mut rng = Rng::new(12);
    let mut engine = Plain::default();
    let mut met = [false; Call::NAMES.len()];
    for _ in 0..200 {
        let s = sequence(&mut rng, COSTS, 20);
        engine.load(&s.start);
        for call in &s.calls {
            met[call.number()] = true;
            let line = layout::text(call, layout::call);
            assert_eq!(layout::from_text(&line, Call::Look, layout::call).as_ref(), Ok(call));
            let answer = engine.call(call);
            let line = layout::text(&answer, layout::answer);
            let back = layout::from_text(&line, Answer::plain(0), layout::answer);
            assert_eq!(back, Ok(answer));
        }
    }
    assert_eq!(met, [true; Call::NAMES.len()]);
}

#[test]
fn only_the_canonical_line_is_read() {
    for line in ["look 1", "grant", "grant -1", "grant 18446744073709551616", "Resume 1 2 3 65536"]
    {
        assert!(layout::from_text(line, Call::Look, layout::call).is_err(), "{line}");
    }
    // A continuation without a register has register 0, none has value 0.
    for line in ["function_call 1 0 discard 5", "unwind 3 0 0 7"] {
        assert!(layout::from_text(line, Call::Look, layout::call).is_err(), "{line}");
    }
}

#[test]
fn recorded_answers_come_back() {
    let file = concat!(env!("CARGO_MANIFEST_DIR"), "/recorded/answers.txt");
    let text = std::fs::read_to_string(file).expect("the recorded answers");
    let all = recorded::read(&text).expect("readable");
    assert_eq!(recorded::write(&all), text);
    let broken = text.replacen('1', "2", 1);
    assert!(recorded::read(&broken).is_err());
}
