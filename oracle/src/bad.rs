//! Bad input on the compiled library: lent memories that hold anything, calls
//! on them, set-ups, and machines of real runs with one word changed.

use std::collections::BTreeMap;

use crate::call::Call;
use crate::engine::Engine;
use crate::generate::{bad_setup, machine, next_calls, sequence, setup, Profile, Rng, Sequence};
use crate::layout;
use crate::lent::{
    answer_words, call_words, damaged, random, read, read_setup, refused, setup_words, Damage,
    Words, SETUP,
};
use crate::library::{Lent, Through};
use crate::plain::Plain;
use crate::sound::Broken;
use crate::word::ref_parts;
use crate::world::{Costs, Setup, World};

/// What was tried: memories by damage, sound or not; functions by number;
/// rules that were broken.
#[derive(Clone, Debug, Default)]
pub struct Tried {
    pub memories: BTreeMap<Damage, [u64; 2]>,
    pub answers: BTreeMap<(&'static str, u64), u64>,
    pub rules: BTreeMap<Broken, u64>,
    pub words: u64,
    /// Memories with a running coroutine past slot 63.
    pub far: u64,
}

impl Tried {
    fn see(&mut self, function: &'static str, number: u64) {
        *self.answers.entry((function, number)).or_default() += 1;
    }

    #[must_use]
    pub fn count(&self) -> u64 {
        self.memories.values().flatten().sum()
    }

    /// Sound and unsound memories.
    #[must_use]
    pub fn totals(&self) -> [u64; 2] {
        self.memories.values().fold([0, 0], |[a, b], [x, y]| [a + x, b + y])
    }
}

fn expect<T: PartialEq + std::fmt::Debug>(what: &str, found: T, wanted: T) -> Result<(), String> {
    (found == wanted).then_some(()).ok_or_else(|| format!("{what}: {found:?}, not {wanted:?}"))
}

fn same(lent: &Lent, words: &Words) -> Result<(), String> {
    match lent.is(words) {
        true => Ok(()),
        false => Err(words.differs(&lent.words()).unwrap_or_default()),
    }
}

/// A sound machine: a random one, or what a run leaves.
fn sound_machine(rng: &mut Rng, costs: Costs) -> World {
    match rng.below(100) {
        0..=4 => return machine(rng, costs, Profile::Many),
        5..=73 => return machine(rng, costs, Profile::Small),
        _ => {}
    }
    let s = sequence(rng, costs, 12);
    let mut engine = Plain::default();
    engine.load(&s.start);
    s.calls.iter().for_each(|c| {
        engine.call(c);
    });
    engine.world()
}

/// `n` memories, each through the boundary: 11 exactly where `read` refuses,
/// nothing changed on a refusal, and what the second engine does where it
/// accepts.
pub fn memories(rng: &mut Rng, costs: Costs, n: u64, tried: &mut Tried) -> Result<(), String> {
    let mut left = n;
    while left > 0 {
        let world = sound_machine(rng, costs);
        let sound = Words::of(&world);
        let far = world.chain.iter().any(|a| ref_parts(a.coro).0 > 63);
        for _ in 0..left.min(8) {
            tried.far += u64::from(far);
            let (words, damage) =
                if rng.chance(12) { random(rng, &sound) } else { damaged(rng, &sound) };
            memory(rng, costs, &words, damage, tried)
                .map_err(|why| format!("{damage:?}: {why}\n{words:?}"))?;
            left -= 1;
        }
    }
    Ok(())
}

fn memory(
    rng: &mut Rng,
    costs: Costs,
    words: &Words,
    damage: Damage,
    tried: &mut Tried,
) -> Result<(), String> {
    let told = read(words);
    let mut lent = Lent::new(words);
    tried.memories.entry(damage).or_default()[usize::from(told.is_err())] += 1;
    tried.words += words.count() as u64;
    if lent.sound() != told.is_ok() {
        return Err(format!("bvm_sound says otherwise than the rules: {:?}", told.err()));
    }
    same(&lent, words)?;
    match told {
        Ok(world) => accepted(rng, costs, words, &world, &mut lent, tried),
        Err(rule) => {
            *tried.rules.entry(rule).or_default() += 1;
            refuses(rng, words, &mut lent, tried)
        }
    }
}

/// Any call at all, in words.
fn any_call(rng: &mut Rng) -> Vec<u64> {
    let mut call: Vec<u64> = (0..6).map(|_| rng.below(4) as u64).collect();
    call[0] = rng.below(28) as u64;
    if rng.chance(10) {
        call.truncate(rng.below(6));
    }
    call
}

fn refuses(rng: &mut Rng, words: &Words, lent: &mut Lent, tried: &mut Tried) -> Result<(), String> {
    let function = match rng.below(10) {
        0..=4 => {
            expect("call", lent.call(Through::Call, &any_call(rng)), (11, refused(11)))?;
            ("bvm_call", 11)
        }
        5..=6 => {
            let mut calls = [26, 0, 0, 0, 0, 0].repeat(rng.range(1, 3));
            calls.truncate(calls.len() - rng.below(6));
            let n = calls.len().div_ceil(6);
            let found = lent.run(&calls, n * 8, rng.below(9));
            expect("run", found, (11, refused(11).repeat(n)))?;
            ("bvm_run", 11)
        }
        7 => {
            expect("look", lent.look(), (11, [0, 0]))?;
            ("bvm_look", 11)
        }
        8 => {
            expect("grant", lent.grant(rng.word()), (11, refused(11)))?;
            ("bvm_grant", 11)
        }
        _ => {
            short(rng, lent, 11, tried)?;
            return same(lent, words);
        }
    };
    tried.see(function.0, function.1);
    same(lent, words)
}

/// Too few words for an answer: 11 of a machine that is not sound, else 14.
fn short(rng: &mut Rng, lent: &mut Lent, wanted: u64, tried: &mut Tried) -> Result<(), String> {
    for (function, number) in lent.short(rng.below(8)) {
        expect(function, number, wanted)?;
        tried.see(function, wanted);
    }
    Ok(())
}

/// A call that the state invites, but no set-up.
fn some_call(rng: &mut Rng, w: &World, costs: Costs) -> Call {
    loop {
        let call = next_calls(rng, w, costs).pop();
        if let Some(call) = call.filter(|c| call_words(c).is_some()) {
            return call;
        }
    }
}

fn accepted(
    rng: &mut Rng,
    costs: Costs,
    words: &Words,
    world: &World,
    lent: &mut Lent,
    tried: &mut Tried,
) -> Result<(), String> {
    let mut engine = Plain::default();
    engine.load(world);
    let function = match rng.below(10) {
        0..=4 => {
            let call = some_call(rng, world, costs);
            let wanted = answer_words(&call, &engine.call(&call));
            let found = lent.call(Through::Call, &call_words(&call).expect("no set-up"));
            expect(&layout::text(&call, layout::call), found, (wanted[0], wanted))?;
            ("bvm_call", wanted[0])
        }
        5..=6 => {
            let (mut calls, mut wanted) = (Vec::new(), Vec::new());
            for _ in 0..rng.range(1, 4) {
                let call = some_call(rng, &engine.world(), costs);
                wanted.extend(answer_words(&call, &engine.call(&call)));
                calls.extend(call_words(&call).expect("no set-up"));
            }
            // a last part that is no call
            if rng.chance(20) {
                calls.extend([26, 0, 0, 0, 0, 0].iter().take(rng.range(1, 5)));
                wanted.extend(refused(13));
            }
            expect("run", lent.run(&calls, wanted.len(), rng.below(9)), (0, wanted))?;
            ("bvm_run", 0)
        }
        7 => {
            let base = world.frames.last().map(|f| f.base as u64);
            let span = base.map_or([0, 0], |b| [b, world.stack.len() as u64]);
            expect("look", lent.look(), (0, span))?;
            ("bvm_look", 0)
        }
        8 => {
            let fuel = rng.pick(&[0, 1, 1000, u64::MAX, u64::MAX - world.available()]);
            let wanted = answer_words(&Call::Grant { fuel }, &engine.call(&Call::Grant { fuel }));
            expect("grant", lent.grant(fuel), (wanted[0], wanted))?;
            ("bvm_grant", wanted[0])
        }
        _ => {
            short(rng, lent, 14, tried)?;
            return same(lent, words);
        }
    };
    tried.see(function.0, function.1);
    same(lent, &Words::of(&engine.world()).within(words))
}

/// `n` set-ups, good and bad, in slices that are long enough, too short by one
/// or longer: 0 exactly where the rules allow it, and then a fresh machine
/// whatever the words were; else 11, and nothing changed.
pub fn set_ups(rng: &mut Rng, costs: Costs, n: u64, tried: &mut Tried) -> Result<(), String> {
    for _ in 0..n {
        let s: Setup =
            if rng.chance(30) { bad_setup(rng, costs) } else { setup(rng, costs, Profile::Small) };
        let mut given = setup_words(&s);
        match rng.below(8) {
            0 => {
                let at = rng.below(given.len());
                given[at] = rng.pick(&[0, 1, 2, 9, 257, 1 << 16, 1 << 32, u64::MAX]);
            }
            1 => {
                given.pop();
            }
            2 => given.push(rng.pick(&[0, 1])),
            3 => given.extend([0; 40]),
            _ => {}
        }
        let told = read_setup(&given);
        let mut before = match &told {
            Ok(s) => Words::of(&World::fresh(s.clone())),
            Err(_) => Words::of(&machine(rng, costs, Profile::Small)),
        };
        let longer = if rng.chance(30) { 3 } else { 0 };
        for ws in &mut before.0 {
            ws.resize(ws.len() + longer, 0);
            ws.iter_mut().for_each(|w| *w = rng.word());
        }
        let mut enough = true;
        if longer == 0 && rng.chance(20) {
            let slice = rng.below(before.0.len());
            before.0[slice].pop();
            enough = false;
        }
        let mut lent = Lent::new(&before);
        let good = told.is_ok() && enough;
        let why = || format!("{told:?}, enough words: {enough}");
        let number = lent.set_up_short(&given, rng.below(8));
        expect("set-up without room for its answer", number, if good { 14 } else { 11 })
            .and_then(|()| same(&lent, &before))
            .map_err(|e| format!("{e}; {}", why()))?;
        let (number, answer) = lent.set_up(&given);
        let wanted = if good { [0; 8] } else { refused(11) };
        expect("set-up", (number, answer), (wanted[0], wanted))
            .map_err(|e| format!("{e}; {}", why()))?;
        let expected = match &told {
            Ok(s) if enough => Words::of(&World::fresh(s.clone())).within(&before),
            _ => before,
        };
        same(&lent, &expected).map_err(|e| format!("{e}; {}", why()))?;
        tried.see("bvm_set_up", number);
        tried.words += expected.0[SETUP].len() as u64;
    }
    Ok(())
}

/// What became of machines that were damaged in the middle of a run.
#[derive(Clone, Copy, Debug, Default)]
pub struct Carried {
    pub runs: u64,
    /// 11 at the load, put right, and carried on to the end.
    pub refused: u64,
    /// Sound still, and carried on.
    pub sound: u64,
    pub calls: u64,
}

/// A run in the middle of which one word is changed. The host checks at load
/// and makes its calls without a test: what is refused is put right and loses
/// nothing; what is sound still goes on as another engine does from there.
pub fn carried(
    rng: &mut Rng,
    run: &Sequence,
    engine: &mut dyn Engine,
    count: &mut Carried,
) -> Result<(), String> {
    engine.load(&run.start);
    let mut lent = Lent::new(&Words::of(&run.start));
    let at = rng.below(run.calls.len());
    count.runs += 1;
    for (i, call) in run.calls.iter().enumerate() {
        if i == at {
            let words = lent.words();
            let mut changed = words.clone();
            while changed == words {
                crate::lent::change(rng, &mut changed);
            }
            let told = read(&changed);
            let mut loaded = Lent::new(&changed);
            expect("bvm_sound at load", loaded.sound(), told.is_ok())?;
            match told {
                Err(_) => {
                    let refusal = loaded.call(Through::Call, &[26, 0, 0, 0, 0, 0]);
                    expect("a call on it", refusal, (11, refused(11)))?;
                    same(&loaded, &changed)?;
                    // the word is put right
                    lent = Lent::new(&words);
                    expect("bvm_sound again", lent.sound(), true)?;
                    count.refused += 1;
                }
                Ok(world) => {
                    engine.load(&world);
                    lent = loaded;
                    count.sound += 1;
                }
            }
        }
        let told = engine.call(call);
        let Some(words) = call_words(call) else {
            lent = Lent::new(&Words::of(&engine.world()));
            continue;
        };
        let wanted = answer_words(call, &told);
        let found = lent.call(Through::Unchecked, &words);
        expect(&layout::text(call, layout::call), found, (wanted[0], wanted))?;
        // a changed set-up may need fewer words than are lent
        same(&lent, &Words::of(&engine.world()).within(&lent.words()))?;
        count.calls += 1;
    }
    Ok(())
}
