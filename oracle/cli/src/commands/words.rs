//! Recorded runs in lent words as antt: for each call a theorem, by computation, that its words are the call, that `step_words`
//! gives every lent word after it, and that the answer has its eight words; and of lent words at a rule's edge that `sound_words`
//! tells them apart. The words are those of `lent`, which the library's are compared with.

use std::fmt::Write as _;
use std::path::Path;

use oracle::broken::base;
use oracle::call::{Answer, Call};
use oracle::engine::Engine;
use oracle::generate::Sequence;
use oracle::lent::{
    answer_words, call_words, read, setup_words, Words, CHAIN, FINALIZE, FRAMES, FUEL, MACHINE,
    READY, SAVED_FRAMES, SAVED_STACK, SETUP, SLOTS, STACK,
};
use oracle::word::from_ref;
use oracle::world::{Object, Setup, Slot, Stop, World};

use super::antt::{answer, finish, operation, replayed, save, HEAD};

/// Sequences in one file, and memories.
const EACH: usize = 2;
const MEMORIES: usize = 20;

const MORE: &str = "use Rattle.std.specs.Prelude.{replicate, Ok}
use Rattle.memory_world.specs.Memory.{Lent}
use Rattle.memory_sound.specs.Words.{sound_words}
use Rattle.memory_calls.specs.Call.{op_of}
use Rattle.memory_calls.specs.Answer.{answer_words, answer_in}
use Rattle.memory_world.specs.Words.{lengths_of}
use Rattle.memory_step.specs.Step.{MemoryState, left, state_in, decoded, step_words, set_up_words, looked}
";

/// The fields of `Lent`, in the order of the slices.
const FIELDS: [&str; 9] = [
    "stack",
    "frames",
    "chain",
    "slots",
    "saved_stack",
    "saved_frames",
    "ready",
    "finalize",
    "setup",
];

/// Words, the zeros at their end counted.
fn words(ws: &[u64]) -> String {
    let used = ws.iter().rposition(|&w| w != 0).map_or(0, |i| i + 1);
    let mut s = String::from("(");
    for w in &ws[..used] {
        let _ = write!(s, "{w} ∷ ");
    }
    match ws.len() - used {
        0 => s + "[])",
        n => s + &format!("replicate {n} 0)"),
    }
}

/// The nine slices; those that did not change are those of the state before them.
fn slices(now: &Words, old: Option<(&str, &Words)>) -> String {
    let field = |i: usize| match old {
        Some((name, was)) if was.0[i] == now.0[i] => format!("{name}.words.{}", FIELDS[i]),
        _ => words(&now.0[i]),
    };
    let fields: Vec<String> = (0..9).map(|i| format!("{} = {}", FIELDS[i], field(i))).collect();
    format!("record {{ {} }}", fields.join("; "))
}

fn state(now: &Words, old: Option<(&str, &Words)>) -> String {
    let (m, f) = (&now.0[MACHINE], &now.0[FUEL]);
    let bank = if f[1] == 0 { "None".into() } else { format!("Some {}", f[2]) };
    format!(
        "record {{ words = {}; machine = record {{ height = {}; depth = {}; active = {}; count = {}; ready = {}; finalize = {}; \
         finalizing = {}; outcome = record {{ 0 = {}; 1 = {}; 2 = {}; 3 = {} }}; used = {}; seq = {} }}; fuel = record {{ fuel = {}; \
         bank = {bank}; ready = {} }} }}",
        slices(now, old), m[0], m[1], m[2], m[3], m[4], m[5], m[6] == 1, m[9], m[10], m[11], m[12], m[7], m[8], f[0], f[3] == 1
    )
}

/// What is claimed of a call in words, and how many claims that is.
fn claim(k: &Call, a: &Answer, told: &str, name: &str, next: &str) -> (String, usize) {
    let shown = words(&answer_words(k, a));
    let read = format!("(answer_words ({told}) ≡ {shown}) × (answer_in {shown} ≡ {told})");
    match (k, operation(k), call_words(k)) {
        (Call::Look, Some(_), Some(_)) => {
            let seen = words(&a.words);
            (format!("(looked {name} ≡ {seen}) × {read}"), 3)
        }
        (_, Some(op), Some(ws)) => {
            let is = format!("op_of {} ≡ Ok ({op})", words(&ws));
            (format!("({is}) × (step_words {name} ({op}) ≡ left {next} ({told})) × {read}"), 4)
        }
        (Call::SetUp(s), ..) => {
            let given = words(&setup_words(s));
            (format!("(set_up_words {name} {given} ≡ left {next} ({told})) × {read}"), 3)
        }
        _ => unreachable!("a call has words"),
    }
}

/// The calls of sequence `i`, as theorems `wI-J` from states `hI-J`; a machine that a set-up replaces has other slices, and the
/// sequence ends there.
fn theorems(text: &mut String, engine: &mut dyn Engine, i: usize, s: &Sequence) -> usize {
    engine.load(&s.start);
    let mut was = Words::of(&s.start);
    let mut name = format!("h{i}-0");
    let _ = writeln!(text, "\nabbrev {name} : MemoryState\n{name} = {}", state(&was, None));
    for (j, k) in s.calls.iter().enumerate() {
        let a = engine.call(k);
        if matches!(k, Call::SetUp(_)) && a.number == 0 {
            return j;
        }
        let now = Words::of(&engine.world());
        let next = format!("h{i}-{}", j + 1);
        let _ = writeln!(
            text,
            "\nabbrev {next} : MemoryState\n{next} = {}",
            state(&now, Some((&name, &was)))
        );
        let (statement, n) = claim(k, &a, &answer(k, &a), &name, &next);
        let proof = vec!["refl"; n].join(", ");
        let _ = writeln!(
            text,
            "w{i}-{j} : {statement}\nunfolding computed sound_words step_words set_up_words\nw{i}-{j} = ({proof})"
        );
        (was, name) = (now, next);
    }
    s.calls.len()
}

/// The recorded sequences `from` up to `to`; the engine must give what is recorded.
pub(crate) fn recorded(
    engine: &mut dyn Engine,
    from: usize,
    to: usize,
    dir: &Path,
) -> Result<(), String> {
    let (mut root, mut calls) = (String::new(), 0);
    let all = replayed(engine, from, to)?;
    for (file, part) in all.chunks(EACH).enumerate() {
        let mut text = String::from(HEAD) + MORE;
        for (i, s) in part.iter().enumerate() {
            calls += theorems(&mut text, engine, from + EACH * file + i, s);
        }
        save(dir, &format!("Words{file}"), &text, &mut root)?;
    }
    println!("antt: {} sequences, {calls} calls", all.len());
    finish(dir, &root)
}

/// `base` with an object of each other kind, an empty slot after them, an outcome, and other words in each field and queue.
fn every_kind() -> World {
    let mut w = base();
    let objects = [
        Object::Int(-1),
        Object::Iter { src: from_ref(2, 0), done: false, key: Some(7) },
        Object::Error { number: 8, func: 1, pc: 3, payload: 9 },
    ];
    w.slots.extend(objects.map(|object| Slot { tag: 0, object }));
    w.setup.slots = 10;
    w.outcome = Some(Stop::Failed(5, 1, 2));
    w.ready.push(from_ref(5, 0));
    let sleeper = w.coro_mut(from_ref(2, 0)).expect("a sleeper");
    (sleeper.payload, sleeper.key, sleeper.result, sleeper.signal) = (6, 7, 8, 9);
    sleeper.row = 3;
    let fresh = w.coro_mut(from_ref(5, 0)).expect("one not yet begun");
    (fresh.regs[1], fresh.task) = (5, true);
    w
}

type Change = (bool, fn(&mut Words));

/// Lent words at the edges of a rule: whether they are a sound machine's, and what is changed.
const CHANGES: &[Change] = &[
    (true, |_| ()),
    (true, |w| w.0[..9].iter_mut().for_each(|ws| ws.push(0))),
    // one word beyond what is in use
    (false, |w| w.0[STACK][39] = 1),
    (false, |w| w.0[STACK].push(1)),
    (false, |w| w.0[FRAMES][47] = 1),
    (false, |w| w.0[CHAIN][6] = 1),
    (false, |w| w.0[SLOTS].push(1)),
    (false, |w| w.0[SAVED_STACK][39] = 1),
    (false, |w| w.0[SAVED_STACK].push(1)),
    (false, |w| w.0[SAVED_FRAMES][47] = 1),
    (false, |w| w.0[SAVED_FRAMES].push(1)),
    (false, |w| w.0[READY][2] = 1),
    (false, |w| w.0[FINALIZE][1] = 1),
    (false, |w| w.0[SETUP].push(1)),
    // one word too few
    (false, |w| _ = w.0[STACK].pop()),
    (false, |w| _ = w.0[FRAMES].pop()),
    (false, |w| _ = w.0[CHAIN].pop()),
    (false, |w| _ = w.0[SLOTS].pop()),
    (false, |w| _ = w.0[SAVED_STACK].pop()),
    (false, |w| _ = w.0[SAVED_FRAMES].pop()),
    (false, |w| _ = w.0[READY].pop()),
    (false, |w| _ = w.0[FINALIZE].pop()),
    (false, |w| _ = w.0[SETUP].pop()),
    // codes, flags and fields that a record has not: frames, the chain, saved frames
    (false, |w| w.0[FRAMES][4] = 6),
    (false, |w| w.0[FRAMES][5] = 1),
    (false, |w| w.0[CHAIN][2] = 4),
    (false, |w| w.0[CHAIN][4] = 1),
    (false, |w| w.0[SAVED_FRAMES][148] = 6),
    // slots: kind, state, flags, what a record has not, a tag
    (false, |w| w.0[SLOTS][1] = 7),
    (false, |w| w.0[SLOTS][42] = 6),
    (false, |w| w.0[SLOTS][43] = 2),
    (false, |w| w.0[SLOTS][44] = 2),
    (false, |w| w.0[SLOTS][45] = 2),
    (false, |w| w.0[SLOTS][58] = 1),
    (false, |w| w.0[SLOTS][3] = 1),
    (false, |w| w.0[SLOTS][123] = 1),
    (false, |w| w.0[SLOTS][145] = 1),
    (false, |w| w.0[SLOTS][166] = 1),
    (false, |w| w.0[SLOTS][0] = 1 << 16),
    // a sleeper counts more registers than its row, the last one, has words
    (false, |w| w.0[SLOTS][48] = 1000),
    // counts beyond the slices
    (false, |w| w.0[MACHINE][0] = 41),
    (false, |w| w.0[MACHINE][1] = 9),
    (false, |w| w.0[MACHINE][2] = 9),
    (false, |w| w.0[MACHINE][3] = 11),
    (false, |w| w.0[MACHINE][4] = 11),
    (false, |w| w.0[MACHINE][5] = 11),
    // an outcome's number, and what it has not
    (false, |w| w.0[MACHINE][9] = 6),
    (false, |w| w.0[MACHINE][9] = 3),
    (false, |w| (w.0[MACHINE][9], w.0[MACHINE][11]) = (1, 0)),
    (false, |w| w.0[MACHINE][9] = 0),
    (false, |w| (w.0[MACHINE][9], w.0[MACHINE][11], w.0[MACHINE][12]) = (5, 0, 0)),
    // the set-up: the hook's flag, a handler beyond those counted, the closing list
    (false, |w| w.0[SETUP][11] = 2),
    (false, |w| w.0[SETUP][21] = 1),
    (false, |w| w.0[SETUP][0] = 129),
    // what the words decode to
    (false, |w| w.0[FRAMES][2] = 1),
    (false, |w| w.0[CHAIN][1] = 3),
    (false, |w| w.0[READY][0] = 1),
    (false, |w| w.0[FUEL][0] = 1 << 63),
    // of an outcome the function alone, and the number alone
    (false, |w| (w.0[MACHINE][9], w.0[MACHINE][12]) = (1, 0)),
    (false, |w| w.0[MACHINE][9..13].copy_from_slice(&[6, 0, 0, 0])),
];

type Given = (bool, fn(&mut Setup));

/// Set-ups of the same machine: whether each is accepted; one beyond the closing list, one for which the slices have no room, one
/// for which the set-up's own slice has none.
const GIVEN: &[Given] = &[
    (true, |_| ()),
    (false, |s| s.costs.int = 65_537),
    (false, |s| s.slots = 11),
    (false, |s| s.funcs.push(s.funcs[1].clone())),
];

/// Of lent words: that `sound_words` tells them apart (`mN`); that they are the words of what they decode to (`bN`), or that a call
/// on them is refused and changes nothing (`xN`). Of set-ups on them, what `set_up_words` leaves (`gN`).
pub(crate) fn memories(dir: &Path) -> Result<(), String> {
    let (mut root, mut text, mut files) = (String::new(), String::new(), 0);
    let world = every_kind();
    let whole = Words::of(&world);
    let begin = String::from(HEAD)
        + MORE
        + &format!("\nabbrev whole : MemoryState\nwhole = {}\n", state(&whole, None));
    for (n, (good, change)) in CHANGES.iter().enumerate() {
        if n % MEMORIES == 0 {
            text.clone_from(&begin);
        }
        let mut w = whole.clone();
        change(&mut w);
        if read(&w).is_ok() != *good {
            return Err(format!("memory {n}: the oracle's own test says {:?}", read(&w).err()));
        }
        let _ =
            writeln!(text, "\nabbrev h{n} : MemoryState\nh{n} = {}", state(&w, Some(("whole", &whole))));
        let tested = format!("sound_words h{n}.words h{n}.machine h{n}.fuel ≡ {good}");
        let _ = writeln!(text, "m{n} : {tested}\nunfolding computed sound_words\nm{n} = refl");
        let _ = if *good {
            writeln!(text, "b{n} : state_in (lengths_of h{n}.words) (decoded h{n}) ≡ h{n}\nunfolding computed\nb{n} = refl")
        } else {
            let refused =
                format!("step_words h{n} (Op.Grant 5) ≡ left h{n} (Answer.Refused Fault.Unsound)");
            writeln!(text, "x{n} : ({refused}) × (looked h{n} ≡ [])\nunfolding computed sound_words step_words\nx{n} = (refl, refl)")
        };
        if (n + 1) % MEMORIES == 0 || n + 1 == CHANGES.len() {
            save(dir, &format!("Memories{files}"), &text, &mut root)?;
            files += 1;
        }
    }
    text.clone_from(&begin);
    for (n, (good, change)) in GIVEN.iter().enumerate() {
        let mut s = world.setup.clone();
        change(&mut s);
        let (after, told) = match good {
            true => (Words::of(&World::fresh(s.clone())), "Answer.Accepted"),
            false => (whole.clone(), "Answer.Refused Fault.Unsound"),
        };
        let given = words(&setup_words(&s));
        let _ = writeln!(
            text,
            "\nabbrev f{n} : MemoryState\nf{n} = {}",
            state(&after, Some(("whole", &whole)))
        );
        let _ = writeln!(
            text,
            "g{n} : set_up_words whole {given} ≡ left f{n} ({told})\nunfolding computed set_up_words\ng{n} = refl"
        );
    }
    save(dir, "Given", &text, &mut root)?;
    println!("antt: {} memories, {} set-ups", CHANGES.len(), GIVEN.len());
    finish(dir, &root)
}
