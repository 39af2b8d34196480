//! The compiled library beside the recorded answers and the second engine, and
//! bad input on it, where it is linked.

#[cfg(not(library))]
#[test]
fn the_library_is_compared() {
    println!("skipped: the library is not linked (BVM_LIB is unset)");
}

#[cfg(library)]
mod linked {
    use std::time::Instant;

    use oracle::bad::{carried, memories, set_ups, Carried, Tried};
    use oracle::beside::{Count, Library};
    use oracle::generate::{sequence, setup, wild, Profile, Rng, Sequence};
    use oracle::lent::{refused, Words, MACHINE};
    use oracle::library::{Lent, Through};
    use oracle::plain::Plain;
    use oracle::recorded::{digest, read};
    use oracle::world::{Costs, World};

    const COSTS: Costs =
        Costs { frame: 32, coro: 104, coro_object: 160, int: 56, error: 56, iter: 112 };

    fn tell(name: &str, count: &Count, start: Instant) {
        println!(
            "{name}: {} sequences, {} calls four ways, {} words that are no call, {} words of state, {:.1} s, no difference",
            count.sequences,
            count.calls,
            count.none,
            count.words,
            start.elapsed().as_secs_f64()
        );
        // exactly those that must be: `due`
        println!(
            "{name}: done by the functions of their own: {} Resumes, {} Yields",
            count.resumes, count.yields
        );
        let done = count.resumes.min(count.yields);
        assert!(cfg!(not(switch)) || name == "wild" || done >= 100, "{name}: so few are done");
    }

    #[test]
    fn recorded_answers() {
        let all = read(include_str!("../recorded/answers.txt")).expect("the recorded answers");
        let (start, mut count) = (Instant::now(), Count::default());
        for (i, r) in all.iter().enumerate() {
            let calls = r.lines.iter().map(|l| l.call.clone()).collect();
            let mut lines = r.lines.iter();
            let sequence = Sequence { start: r.start.clone(), calls };
            Library::beside(&mut Plain::default(), &sequence, &mut count, |_, answer, after| {
                let line = lines.next().expect("a line for each call");
                (line.answer == *answer && line.digest == digest(after))
                    .then_some(())
                    .ok_or("not what was recorded".into())
            })
            .unwrap_or_else(|why| panic!("sequence {i}: {why}"));
        }
        assert_eq!(count.sequences, all.len() as u64);
        tell("recorded", &count, start);
    }

    fn beside(name: &str, n: u64, next: impl Fn(&mut Rng) -> Sequence) {
        let (start, mut count) = (Instant::now(), Count::default());
        for i in 0..n {
            let s = next(&mut Rng::new(0x1_0000_0001 + i));
            Library::beside(&mut Plain::default(), &s, &mut count, |_, _, _| Ok(()))
                .unwrap_or_else(|why| panic!("sequence {i}: {why}"));
        }
        tell(name, &count, start);
    }

    #[test]
    fn random_sequences() {
        beside("random", 2_000, |rng| sequence(rng, COSTS, 20));
    }

    #[test]
    fn operands_beyond_the_limits() {
        beside("wild", 1_000, |rng| wild(rng, COSTS, 20));
    }

    #[test]
    fn memories_that_hold_anything() {
        let (start, mut tried) = (Instant::now(), Tried::default());
        let done = memories(&mut Rng::new(3), COSTS, 20_000, &mut tried);
        done.unwrap_or_else(|why| panic!("{why}"));
        let [sound, unsound] = tried.totals();
        println!(
            "bad: {} memories, {sound} sound, {unsound} not, {} with a running coroutine past slot 63, {:.1} s",
            tried.count(),
            tried.far,
            start.elapsed().as_secs_f64()
        );
        assert!(sound > 1_000 && unsound > 10_000 && tried.far > 500);
    }

    /// 01's order: 11, then 12 or 15, then 13 or 16; without room for the answer 11, then 14.
    #[test]
    fn numbers_in_their_order() {
        let sound = Words::of(&World::fresh(setup(&mut Rng::new(1), COSTS, Profile::Small)));
        let refuses = |lent: &mut Lent, call: &[u64], number: u64| {
            let before = lent.words();
            for through in [Through::Call, Through::Unchecked, Through::Switch] {
                assert_eq!(lent.call(through, call), (number, refused(number)), "{call:?}");
            }
            assert_eq!(lent.run(call, 8, 0), (0, refused(number).to_vec()), "{call:?}");
            assert!(lent.is(&before), "{call:?}");
        };
        let mut lent = Lent::new(&sound);
        for call in [
            [20, 1 << 16, 0, 0, 0, 0],
            [3, 1 << 32, 0, 0, 0, 0],
            [19, 0, 0, 1, 1 << 16, 0],
        ] {
            refuses(&mut lent, &call, 12);
        }
        refuses(&mut lent, &[17, 1 << 32, 0, 0, 0, 0], 13);
        assert!(lent.short(7).iter().all(|&(_, n)| n == 14));
        assert_eq!(lent.call(Through::Call, &[17, 0, 0, 0, 0, 0]).0, 0, "a host call");
        for call in [
            [20, 1 << 16, 0, 0, 0, 0],
            [3, 1 << 32, 0, 0, 0, 0],
            [19, 0, 0, 1, 1 << 16, 0],
            [14, 4, 0, 0, 0, 0],
        ] {
            refuses(&mut lent, &call, 13);
        }
        refuses(&mut lent, &[17, 1 << 32, 0, 0, 0, 0], 15);
        refuses(&mut lent, &[15, 11, 7, 0, 0, 0], 11);
        refuses(&mut lent, &[15, 0, 7, 0, 0, 0], 11);
        // a machine that is not sound: a flag of 2
        let mut words = lent.words();
        words.0[MACHINE][6] = 2;
        let mut lent = Lent::new(&words);
        for room in [7, 1] {
            assert!(lent.short(room).iter().all(|&(_, n)| n == 11));
        }
        assert!(lent.is(&words));
    }

    #[test]
    fn set_ups_good_and_bad() {
        let mut tried = Tried::default();
        let done = set_ups(&mut Rng::new(5), COSTS, 3_000, &mut tried);
        done.unwrap_or_else(|why| panic!("{why}"));
        println!("set-ups: by answer {:?}", tried.answers);
    }

    #[test]
    fn damaged_on_the_way() {
        let mut count = Carried::default();
        for i in 0..1_000 {
            let mut rng = Rng::new(0x7_0000_0001 + i);
            let s = sequence(&mut rng, COSTS, 20);
            carried(&mut rng, &s, &mut Plain::default(), &mut count)
                .unwrap_or_else(|why| panic!("run {i}: {why}"));
        }
        println!("carried: {count:?}");
        assert!(count.refused > 100 && count.sound > 100);
    }
}
