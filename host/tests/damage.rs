//! Machines taken from real runs, one word changed, loaded by a host that checks
//! at load and nowhere else. What is no well-formed machine is refused (11) and
//! nothing is lost: put right, the run ends as it would have. What is still
//! well-formed takes any call, and stays well-formed.

#[path = "pep342/compile.rs"]
mod compile;
#[allow(dead_code)]
#[path = "pep342/program.rs"]
mod program;
#[allow(dead_code)]
#[path = "pep342/run.rs"]
mod run;

use humdelzi::{Call, Cont, Fault, Fuel, FunctionId, Machine, Pc, Reg, Value, Word, Words};

use crate::compile::{compile, setup, Code};
use crate::program::{Program, Rng};
use crate::run::{End, Run};

fn started<'a>(program: &Program, codes: &'a [Code]) -> Run<'a> {
    let (mut machine, mut fuel) = setup(program, codes).machine().expect("a good set-up");
    machine.grant(&mut fuel, program.fuel).expect("a grant");
    machine.host_call(&mut fuel, FunctionId(0)).expect("a frame");
    Run::new(machine, fuel, codes)
}

fn slices(words: &mut Words) -> [&mut Vec<u64>; 11] {
    [
        &mut words.stack,
        &mut words.frames,
        &mut words.chain,
        &mut words.slots,
        &mut words.saved_stack,
        &mut words.saved_frames,
        &mut words.ready,
        &mut words.finalize,
        &mut words.setup,
        &mut words.machine,
        &mut words.fuel,
    ]
}

/// One word changed.
fn changed(rng: &mut Rng, words: &Words) -> Words {
    let mut words = words.clone();
    let all = slices(&mut words);
    let slice = rng.below(all.len());
    let ws = all.into_iter().nth(slice).expect("one of them");
    // words in use are hit more often
    let end = ws.iter().rposition(|&w| w != 0).map_or(ws.len(), |i| i + 1);
    let at = if rng.chance(80) { rng.below(end) } else { rng.below(ws.len()) };
    let old = ws[at];
    while ws[at] == old {
        let other = ws[rng.below(ws.len())];
        ws[at] = match rng.below(6) {
            0 => 0,
            1 => old.wrapping_add(1),
            2 => old.wrapping_sub(1),
            3 => other,
            4 => rng.below(9) as u64,
            _ => rng.word(),
        };
    }
    words
}

/// Any call.
fn any(rng: &mut Rng, m: &Machine) -> Call {
    let n = m.look().len() as u16;
    let mut r = || Reg(rng.below(usize::from(n) + 2) as u16);
    let (a, b, c, d) = (r(), r(), r(), r());
    let (pc, func) = (Pc(rng.below(40) as u32), FunctionId(rng.below(6) as u32));
    let word = Word(rng.pick(&[0, 1, (1 << 48) + 2, (1 << 48) + 7, u64::MAX]));
    match rng.below(27) {
        0 => Call::CoroNew { pc, dst: a, func, argc: 1 },
        1 => Call::CoroNewIndirect { pc, dst: a, callee: b, argc: 1 },
        2 => Call::Spawn { pc, dst: a, callee: b, argc: 0 },
        3 => Call::Yield { pc, dst: a, src: b },
        4 => Call::YieldKv { pc, dst: a, src: b, key: c },
        5 => Call::Await { pc, dst: a, src: b },
        6 => Call::Resume { pc, dst: a, coro: b, src: c },
        7 => Call::ResumeThrow { pc, dst: a, coro: b, src: c },
        8 => Call::CoroClose { pc, dst: a, coro: b, src: c },
        9 => Call::CoroStatus { pc, dst: a, coro: b },
        10 => Call::CoroCurrent { pc, dst: a },
        11 => Call::CoroKey { pc, dst: a, coro: b },
        12 => Call::CoroResult { pc, dst: a, coro: b },
        13 => Call::IterNext { pc, has: a, iter: b, val: c, src: d },
        14 => Call::Finish { value: Value::Word(word) },
        15 => Call::Unwind { fault: Fault::Throw(word), pc: Some(pc) },
        16 => Call::SpawnTask { word },
        17 => Call::HostCall { func },
        18 => Call::HostEntry { coro: word, word },
        19 => Call::FunctionCall { pc, func, cont: Cont::Write(a) },
        20 => Call::PutWord { reg: a, word },
        21 => Call::MakeIterator { src: word },
        22 => Call::TakeOutcome,
        23 => Call::HandOver { coro: word },
        24 => Call::Grant { amount: 3 },
        25 => Call::StopRun,
        _ => Call::Look,
    }
}

/// A machine that is still well-formed takes any call.
fn carry_on(rng: &mut Rng, mut m: Machine, mut fuel: Fuel) {
    for _ in 0..20 {
        let call = any(rng, &m);
        let _any = m.call(&mut fuel, call);
        assert!(m.look().len() <= m.height());
    }
    assert!(m.check(&fuel), "sound after every call");
}

#[test]
fn one_word_changed() {
    let (mut refused, mut sound, mut runs) = (0, 0, 0);
    for seed in 0..200 {
        let program = Program::random(seed);
        let codes = compile(&program);
        let mut whole = started(&program, &codes);
        let end = whole.go(u32::MAX);
        if end == Some(End::TooLarge) {
            continue;
        }
        let mut rng = Rng(seed);
        let mut run = started(&program, &codes);
        let stopped = run.go(rng.below(whole.steps() as usize) as u32);
        assert_eq!(stopped, None);
        let words = run.machine.clone().into_words(&run.fuel);
        for _ in 0..8 {
            let other = changed(&mut rng, &words);
            match Machine::from_words(other.clone()) {
                Err(unsound) => {
                    assert!(*unsound.0 == other, "the words come back");
                    refused += 1;
                }
                Ok((m, fuel)) => {
                    assert!(m.clone().into_words(&fuel) == other);
                    carry_on(&mut rng, m, fuel);
                    sound += 1;
                }
            }
        }
        // put right, it goes on
        let (machine, fuel) = Machine::from_words(words).expect("sound");
        (run.machine, run.fuel) = (machine, fuel);
        assert_eq!(run.go(u32::MAX), end, "seed {seed}");
        assert_eq!(run.events, whole.events, "seed {seed}");
        runs += 1;
    }
    println!("damage: {runs} runs; one word changed: {refused} times refused at load (11), {sound} times sound still");
    assert!(refused > 500 && sound > 100);
}
