//! A small interpreter over the machine: bytecode of a handful of instructions,
//! a dispatch loop over [`Step`], unwinding with handlers, a cleanup, and fuel
//! that the host grants in slices. Three programs: a batch of scripts that runs to
//! its end, one that catches a fault of the interpreter's own instruction, and one
//! that runs away and is stopped.
//!
//! The machine keeps frames, registers and coroutines; the interpreter keeps the
//! code and the pc of the frame on top.

use humdelzi::{
    Cont, Fault, Finished, Fuel, Function, FunctionId, Handler, Machine, Object, Pc, Reg, Setup,
    Step, Unwound, Value, Word,
};

/// The bytecode. Registers are numbers; a target is an instruction's number.
#[derive(Clone, Copy)]
enum Inst {
    // the interpreter's own: they cost no fuel here
    Const(u16, i64),
    Add(u16, i64),
    Jump(u32),
    JumpIfZero(u16, u32),
    Print(&'static str, u16),
    // the machine's calls
    Call(u32, u16),
    Return(u16),
    Raise(u16),
    Loop(u16, u16),
    Drop(u16),
    // the machine's instructions: one unit of fuel each
    New(u16, u32, u8),
    Resume(u16, u16, u16),
    Yield(u16, u16),
    Close(u16, u16, u16),
    Next { has: u16, iter: u16, val: u16, src: u16 },
    Nothing(u16),
}

/// A function: what the machine has to know of it, and its code.
struct Body(Function, Vec<Inst>);

/// Where the dispatch loop goes on.
enum Flow {
    /// With the next instruction.
    Next,
    /// At this instruction of the same frame.
    Jump(u32),
    /// In the frame that is on top now, at the pc that it holds.
    Frame,
    /// Nowhere: the run is over, with this word.
    Exit(Option<Word>),
}

struct Interpreter<'a> {
    bodies: &'a [Body],
    machine: Machine,
    fuel: Fuel,
    /// The pc of the frame on top; the machine keeps those of the others.
    pc: u32,
    /// How many slices of fuel the host still grants.
    slices: u32,
    printed: Vec<String>,
}

/// Units of a slice.
const SLICE: u64 = 8;

impl<'a> Interpreter<'a> {
    fn new(bodies: &'a [Body], slices: u32) -> Result<Interpreter<'a>, Box<dyn std::error::Error>> {
        let setup = bodies.iter().fold(Setup::new(), |s, b| s.function(b.0.clone()));
        let (machine, fuel) = setup.machine()?;
        Ok(Interpreter { bodies, machine, fuel, pc: 0, slices, printed: Vec::new() })
    }

    /// Runs function 0 to its end.
    fn run(&mut self) -> Result<Option<Word>, Fault> {
        self.machine.host_call(&mut self.fuel, FunctionId(0))?;
        self.pc = 0;
        loop {
            self.pay()?;
            match self.dispatch()? {
                Flow::Next => self.pc += 1,
                Flow::Jump(to) => self.pc = to,
                Flow::Exit(word) => return Ok(word),
                Flow::Frame => match self.machine.top() {
                    Some(frame) => self.pc = frame.pc.0,
                    None => return Ok(None), // the host's coroutine: see `take_outcome`
                },
            }
        }
    }

    /// An instruction spends at most two units: its own, and that of the
    /// handler that takes what it raises. With less at hand the host grants
    /// another slice; when it grants no more, an instruction answers 10.
    fn pay(&mut self) -> Result<(), Fault> {
        let at_hand = self.fuel.banked().unwrap_or(self.fuel.left());
        if at_hand < 2 && self.slices > 0 {
            self.slices -= 1;
            self.machine.grant(&mut self.fuel, SLICE)?;
        }
        Ok(())
    }

    fn get(&self, r: u16) -> Word {
        self.machine.register(Reg(r)).unwrap_or_default()
    }

    /// One instruction.
    fn dispatch(&mut self) -> Result<Flow, Fault> {
        let (pc, function) = (Pc(self.pc), self.machine.top().ok_or(Fault::NoFrame)?.function);
        let inst = self.bodies[function.0 as usize].1[self.pc as usize];
        let (m, fuel) = (&mut self.machine, &mut self.fuel);
        let step = match inst {
            Inst::New(dst, f, argc) => m.coro_new(fuel, pc, Reg(dst), FunctionId(f), argc),
            Inst::Resume(d, c, s) => m.resume(fuel, pc, Reg(d), Reg(c), Reg(s)),
            Inst::Yield(d, s) => m.yield_(fuel, pc, Reg(d), Reg(s)),
            Inst::Close(d, c, s) => m.coro_close(fuel, pc, Reg(d), Reg(c), Reg(s)),
            Inst::Next { has, iter, val, src } => {
                m.iter_next(fuel, pc, Reg(has), Reg(iter), Reg(val), Reg(src))
            }
            Inst::Nothing(dst) => m.coro_current(fuel, pc, Reg(dst)),
            other => return self.own(pc, other).or_else(|f| self.raise_own(pc, f)),
        };
        match step {
            Ok(Step::Next) => Ok(Flow::Next),
            Ok(Step::Frame) => Ok(Flow::Frame),
            // a fault of the instruction, a thrown word, a cleanup that starts first
            Err(error) => match m.raise(fuel, error, pc)? {
                Unwound::Caught | Unwound::Stopped => Ok(Flow::Frame),
            },
        }
    }

    /// An instruction that is none of the machine's.
    fn own(&mut self, pc: Pc, inst: Inst) -> Result<Flow, Fault> {
        match inst {
            Inst::Const(r, n) => self.put(r, Word::int(n).ok_or(Fault::ArithOverflow)?)?,
            Inst::Add(r, n) => {
                let sum = self.get(r).as_int().and_then(|a| Word::int(a + n));
                self.put(r, sum.ok_or(Fault::ArithOverflow)?)?;
            }
            Inst::Jump(to) => return Ok(Flow::Jump(to)),
            // `has` of a loop is a bare 0 or 1
            Inst::JumpIfZero(r, to) if self.get(r).0 == 0 => return Ok(Flow::Jump(to)),
            Inst::Print(text, r) => {
                let value = match self.machine.object(self.get(r)) {
                    Some(Object::Error { number, .. }) => format!("error {number}"),
                    _ => self.get(r).to_string(),
                };
                self.printed.push(format!("{text} {value}"));
            }
            Inst::Call(f, dst) => {
                let cont = Cont::Dyn(Reg(dst));
                self.machine.function_call(&mut self.fuel, pc, FunctionId(f), cont)?;
                return Ok(Flow::Frame);
            }
            Inst::Return(r) => {
                let value = Value::Word(self.get(r));
                return Ok(match self.machine.finish(&mut self.fuel, value)? {
                    Finished::Exit(word) => Flow::Exit(word),
                    Finished::Resume => Flow::Frame,
                });
            }
            Inst::Raise(r) => {
                let thrown = Fault::Throw(self.get(r));
                return match self.machine.unwind(&mut self.fuel, thrown, Some(pc))? {
                    Unwound::Caught | Unwound::Stopped => Ok(Flow::Frame),
                };
            }
            Inst::Loop(iter, coro) => {
                let source = self.get(coro);
                let made = self.machine.make_iterator(&mut self.fuel, source)?;
                self.put(iter, made)?;
            }
            Inst::Drop(r) => {
                let coro = self.get(r);
                self.machine.hand_over(&mut self.fuel, coro)?;
                self.put(r, Word::NIL)?;
            }
            _ => {}
        }
        Ok(Flow::Next)
    }

    /// A fault of the program in such an instruction: raised at its pc. Any
    /// other is the host's.
    fn raise_own(&mut self, pc: Pc, fault: Fault) -> Result<Flow, Fault> {
        if fault.number() > 8 {
            return Err(fault);
        }
        match self.machine.unwind(&mut self.fuel, fault, Some(pc))? {
            Unwound::Caught | Unwound::Stopped => Ok(Flow::Frame),
        }
    }

    fn put(&mut self, r: u16, word: Word) -> Result<(), Fault> {
        self.machine.put_word(&mut self.fuel, Reg(r), word)
    }
}

fn handler(start: u32, end: u32, target: u32, catch: u16) -> Handler {
    Handler { start: Pc(start), end: Pc(end), target: Pc(target), catch: Reg(catch) }
}

/// A controller that heats along a ramp, reads from a script that it wakes, and
/// drops a script that has a valve to shut.
fn line() -> Vec<Body> {
    use Inst::*;
    // registers: 0 the ramp, 1 its start and what is yielded, 2 has, 3 the loop, 4 a word sent or caught, 5 the valve
    let main = vec![
        Const(1, 700),                            // 0
        New(0, 1, 1),                             // 1: a ramp from 700
        Loop(3, 0),                               // 2
        Next { has: 2, iter: 3, val: 1, src: 0 }, // 3: for each step of it
        JumpIfZero(2, 7),                         // 4
        Print("setpoint", 1),                     // 5
        Jump(3),                                  // 6
        Resume(1, 0, 4),                          // 7: it is over: 3, which the handler takes
        Print("caught", 4),                       // 8
        New(5, 2, 0),                             // 9: a valve
        Resume(1, 5, 4),                          // 10
        Print("open by", 1),                      // 11
        Drop(5),    // 12: its cleanup starts before the next instruction
        Nothing(2), // 13
        Call(3, 1), // 14
        Return(1),  // 15
    ];
    // registers: 0 the setpoint, 1 what is sent
    let ramp = vec![
        Yield(1, 0), // 0
        Add(0, 40),  // 1
        Yield(1, 0), // 2
        Add(0, 40),  // 3
        Return(0),   // 4
    ];
    // registers: 0 how far, 1 what is sent, 2 the signal
    let valve = vec![
        Const(0, 55),     // 0
        Yield(1, 0),      // 1
        Return(0),        // 2
        Print("shut", 2), // 3: the handler of 0 to 2
        Return(2),        // 4
    ];
    let survey = vec![Const(0, 1), Return(0)];
    vec![
        Body(Function::new(6).handler(handler(7, 8, 8, 4)), main),
        Body(Function::new(2).parameters(1), ramp),
        Body(Function::new(3).handler(handler(0, 3, 3, 2)), valve),
        Body(Function::new(1), survey),
    ]
}

/// A loop over a word that is no coroutine: 2, which its handler takes.
fn mistaken() -> Vec<Body> {
    use Inst::*;
    let main = vec![Const(1, 5), Loop(0, 1), Return(1), Print("caught", 0), Return(0)];
    vec![Body(Function::new(2).handler(handler(1, 2, 3, 0)), main)]
}

/// A script that never ends, in a controller that would close it.
fn runaway() -> Vec<Body> {
    use Inst::*;
    let main = vec![New(0, 1, 0), Resume(1, 0, 1), Close(1, 0, 1), Raise(1)];
    let body = vec![Nothing(0), Jump(0)];
    vec![Body(Function::new(2), main), Body(Function::new(1), body)]
}

fn main() -> Result<(), Box<dyn std::error::Error>> {
    let bodies = line();
    let mut line = Interpreter::new(&bodies, 9)?;
    let result = line.run()?;
    line.printed.iter().for_each(|l| println!("{l}"));
    println!("the line returned {}, {} units left", result.unwrap_or_default(), line.fuel.left());
    let lines = ["setpoint 700", "setpoint 740", "caught error 3", "open by 55", "shut nil"];
    assert_eq!(line.printed, lines);
    assert_eq!(result, Word::int(1));
    assert!(line.machine.check(&line.fuel));

    let bodies = mistaken();
    let mut mistaken = Interpreter::new(&bodies, 1)?;
    assert!(mistaken.run()?.is_some_and(|w| w.as_reference().is_some()));
    assert_eq!(mistaken.printed, ["caught error 2"]);

    let bodies = runaway();
    let mut run = Interpreter::new(&bodies, 3)?;
    let stopped = run.run();
    assert_eq!(stopped, Err(Fault::OutOfFuel));
    println!("the other was stopped after {} units: {}", 3 * SLICE, Fault::OutOfFuel);
    run.machine.stop_run(&mut run.fuel);
    assert_eq!(run.machine.depth(), 0);
    Ok(())
}
