//! A program compiled to the machine's instructions, with handlers, and to
//! the few that any host has: constants, jumps, a log.

use humdelzi::{Function, Handler, Pc, Reg, Setup, Word};

use crate::program::{Action, Exc, Expr, Pattern, Program, Stmt, Whom, CHILDREN, ROOTS, VARIABLES};

pub type R = u16;

/// What is logged.
#[derive(Clone, Copy, PartialEq, Eq, Debug)]
pub enum Tag {
    Log,
    Status,
    Item,
    For,
    Close,
    Raised,
}

#[derive(Clone, Copy, Debug)]
pub enum Inst {
    // the host's own
    Const(R, Word),
    Move(R, R),
    Add(R, R, i64),
    Jump(u32),
    /// Jumps if the register holds this word.
    JumpIs(R, Word, u32),
    JumpOdd(R, u32),
    JumpMatch(R, Pattern, u32),
    JumpReg(R),
    Log(Tag, R),
    /// A result and a state's code.
    LogResult(R, R),
    /// Ends the program.
    Stop,
    // calls that are no instructions
    Raise(R),
    Return(R),
    Iterator(R, R),
    HandOver(R),
    /// A hand over when no fuel is left; the first register is written.
    HandOverSpent(R, R),
    /// A hand over, then a charge on a stack as deep as it can be.
    HandOverDeep(R),
    // the machine's instructions
    New(R, u32, u8),
    Resume(R, R, R),
    Throw(R, R, R),
    Close(R, R, R),
    Yield(R, R),
    Await(R, R),
    Status(R, R),
    Current(R),
    IterNext {
        has: R,
        iter: R,
        val: R,
        src: R,
    },
}

/// A function's code, registers and handlers.
#[derive(Clone, Debug, Default)]
pub struct Code {
    pub insts: Vec<Inst>,
    pub registers: R,
    pub handlers: Vec<Handler>,
}

pub fn int(n: i64) -> Word {
    Word::int(n).expect("a small integer")
}

pub fn signal(e: Exc) -> Word {
    match e {
        Exc::Own(n) => int(n),
        Exc::Exit => Word::NIL,
    }
}

/// Where a break, a continue or a return leads.
#[derive(Clone, Copy)]
enum Around {
    Loop { end: usize, next: usize },
    Finally { kind: R, value: R, label: usize },
}

/// How a finally block was come to: through its end, by a word raised, by a
/// return, a break or a continue.
const RAISED: i64 = 1;
const RETURNED: i64 = 2;
const BROKEN: i64 = 3;
const CONTINUED: i64 = 4;

// registers of a generator's function
const PARENT: R = 0;
const VARIABLE: R = 1;
const CHILD: R = VARIABLE + VARIABLES as R;
const SCRATCH: R = CHILD + CHILDREN as R;
/// Two scratch registers and an argument's.
const FIRST: R = SCRATCH + 3;

#[derive(Default)]
struct Maker {
    code: Code,
    /// Where each label stands, and the jumps to it by instruction.
    labels: Vec<u32>,
    around: Vec<Around>,
    caught: Vec<R>,
    free: R,
}

impl Maker {
    fn at(&self) -> u32 {
        self.code.insts.len() as u32
    }

    fn push(&mut self, i: Inst) {
        self.code.insts.push(i);
    }

    fn register(&mut self) -> R {
        self.free += 1;
        self.code.registers = self.code.registers.max(self.free);
        self.free - 1
    }

    /// A label not placed yet. Jumps name labels until the end.
    fn label(&mut self) -> usize {
        self.labels.push(u32::MAX);
        self.labels.len() - 1
    }

    fn place(&mut self, label: usize) {
        self.labels[label] = self.at();
    }

    fn done(mut self) -> Code {
        for i in &mut self.code.insts {
            if let Inst::Jump(to)
            | Inst::JumpIs(_, _, to)
            | Inst::JumpOdd(_, to)
            | Inst::JumpMatch(_, _, to) = i
            {
                *to = self.labels[*to as usize];
            }
        }
        self.code
    }

    fn jump(&mut self, label: usize) {
        self.push(Inst::Jump(label as u32));
    }

    fn expr(&mut self, to: R, e: Expr) {
        match e {
            Expr::None => self.push(Inst::Const(to, Word::NIL)),
            Expr::Int(n) => self.push(Inst::Const(to, int(n))),
            Expr::Var(v) => self.push(Inst::Move(to, VARIABLE + v as R)),
            Expr::Add(v, n) => self.push(Inst::Add(to, VARIABLE + v as R, n)),
        }
    }

    /// The register of an operand; the running one comes to a scratch register.
    fn whom(&mut self, w: Whom) -> R {
        match w {
            Whom::Child(i) => CHILD + i as R,
            Whom::Parent => PARENT,
            Whom::Own => {
                self.push(Inst::Current(SCRATCH + 1));
                SCRATCH + 1
            }
        }
    }

    /// Code under a handler: a word raised in it comes to `catch`, and the
    /// code goes on after it.
    fn guarded(&mut self, catch: R, body: impl FnOnce(&mut Maker)) -> usize {
        let start = self.at();
        body(self);
        let end = self.at();
        self.code.handlers.push(Handler {
            start: Pc(start),
            end: Pc(end),
            target: Pc(0),
            catch: Reg(catch),
        });
        self.code.handlers.len() - 1
    }

    fn target(&mut self, handler: usize) {
        self.code.handlers[handler].target = Pc(self.at());
    }

    fn block(&mut self, stmts: &[Stmt]) {
        let free = self.free;
        stmts.iter().for_each(|s| self.stmt(s));
        self.free = free;
    }

    fn stmt(&mut self, s: &Stmt) {
        match s {
            Stmt::For(_, Whom::Parent, _)
            | Stmt::Send(_, Whom::Parent, _)
            | Stmt::Throw(_, Whom::Parent, _)
            | Stmt::Close(Whom::Parent, _)
            | Stmt::Status(Whom::Parent) => {
                let end = self.label();
                self.push(Inst::JumpIs(PARENT, Word::NIL, end as u32));
                self.plain(s);
                self.place(end);
            }
            _ => self.plain(s),
        }
    }

    fn plain(&mut self, s: &Stmt) {
        let v = |v: usize| VARIABLE + v as R;
        match s {
            Stmt::Assign(x, e) => self.expr(v(*x), *e),
            Stmt::Log(e) => {
                self.expr(SCRATCH, *e);
                self.push(Inst::Log(Tag::Log, SCRATCH));
            }
            Stmt::Yield(x, e) => {
                self.expr(SCRATCH, *e);
                self.push(Inst::Yield(v(*x), SCRATCH));
            }
            Stmt::Await(x, e) => {
                self.expr(SCRATCH, *e);
                self.push(Inst::Await(v(*x), SCRATCH));
            }
            Stmt::If(x, a, b) => {
                let (yes, end) = (self.label(), self.label());
                self.push(Inst::JumpOdd(v(*x), yes as u32));
                self.block(b);
                self.jump(end);
                self.place(yes);
                self.block(a);
                self.place(end);
            }
            Stmt::Repeat(n, body) => {
                let counter = self.register();
                let (next, end) = (self.label(), self.label());
                self.push(Inst::Const(counter, int(*n as i64)));
                self.place(next);
                self.push(Inst::JumpIs(counter, int(0), end as u32));
                self.push(Inst::Add(counter, counter, -1));
                self.around.push(Around::Loop { end, next });
                self.block(body);
                self.around.pop();
                self.jump(next);
                self.place(end);
            }
            Stmt::For(x, w, body) => {
                let (iter, has, source) = (self.register(), self.register(), self.register());
                let (next, end) = (self.label(), self.label());
                let from = self.whom(*w);
                self.push(Inst::Move(source, from));
                self.push(Inst::Iterator(iter, source));
                self.place(next);
                self.push(Inst::IterNext { has, iter, val: v(*x), src: source });
                self.push(Inst::JumpIs(has, Word(0), end as u32));
                self.around.push(Around::Loop { end, next });
                self.block(body);
                self.around.pop();
                self.jump(next);
                self.place(end);
            }
            Stmt::Send(x, w, e) => {
                self.expr(SCRATCH, *e);
                let on = self.whom(*w);
                self.push(Inst::Resume(v(*x), on, SCRATCH));
            }
            Stmt::Throw(x, w, e) => {
                self.push(Inst::Const(SCRATCH, signal(*e)));
                let on = self.whom(*w);
                self.push(Inst::Throw(v(*x), on, SCRATCH));
            }
            Stmt::Close(w, e) => {
                self.push(Inst::Const(SCRATCH, signal(*e)));
                let on = self.whom(*w);
                self.push(Inst::Close(SCRATCH + 2, on, SCRATCH));
            }
            Stmt::Status(w) => {
                let on = self.whom(*w);
                self.push(Inst::Status(SCRATCH, on));
                self.push(Inst::Log(Tag::Status, SCRATCH));
            }
            Stmt::Try { body, clauses, finally: None } => self.excepts(body, clauses),
            Stmt::Try { body, clauses, finally: Some(finally) } => {
                let (kind, value, catch) = (self.register(), self.register(), self.register());
                let label = self.label();
                self.around.push(Around::Finally { kind, value, label });
                let h = self.guarded(catch, |m| {
                    if clauses.is_empty() {
                        m.block(body);
                    } else {
                        m.excepts(body, clauses);
                    }
                });
                self.around.pop();
                self.push(Inst::Const(kind, int(0)));
                self.jump(label);
                self.target(h);
                self.push(Inst::Const(kind, int(RAISED)));
                self.push(Inst::Move(value, catch));
                self.place(label);
                self.block(finally);
                self.after(kind, value);
            }
            Stmt::Raise(e) => {
                self.push(Inst::Const(SCRATCH, signal(*e)));
                self.push(Inst::Raise(SCRATCH));
            }
            Stmt::Again => {
                let caught = *self.caught.last().expect("inside an except clause");
                self.push(Inst::Raise(caught));
            }
            Stmt::Return(e) => {
                self.expr(SCRATCH, *e);
                self.leave(RETURNED, SCRATCH);
            }
            Stmt::Break => self.leave(BROKEN, SCRATCH),
            Stmt::Continue => self.leave(CONTINUED, SCRATCH),
        }
    }

    fn excepts(&mut self, body: &[Stmt], clauses: &[(Pattern, Vec<Stmt>)]) {
        let catch = self.register();
        let end = self.label();
        let h = self.guarded(catch, |m| m.block(body));
        self.jump(end);
        self.target(h);
        let labels: Vec<usize> = clauses.iter().map(|_| self.label()).collect();
        for ((pattern, _), label) in clauses.iter().zip(&labels) {
            self.push(Inst::JumpMatch(catch, *pattern, *label as u32));
        }
        self.push(Inst::Raise(catch));
        for ((_, clause), label) in clauses.iter().zip(&labels) {
            self.place(*label);
            self.caught.push(catch);
            self.block(clause);
            self.caught.pop();
            self.jump(end);
        }
        self.place(end);
    }

    /// A return, a break or a continue: through the innermost finally block,
    /// if there is one before the loop's end.
    fn leave(&mut self, how: i64, word: R) {
        for around in self.around.clone().iter().rev() {
            match *around {
                Around::Finally { kind, value, label } => {
                    self.push(Inst::Const(kind, int(how)));
                    self.push(Inst::Move(value, word));
                    self.jump(label);
                    return;
                }
                Around::Loop { end, .. } if how == BROKEN => {
                    self.jump(end);
                    return;
                }
                Around::Loop { next, .. } if how == CONTINUED => {
                    self.jump(next);
                    return;
                }
                Around::Loop { .. } => {}
            }
        }
        self.push(Inst::Return(word));
    }

    /// After a finally block: on as it was come to.
    fn after(&mut self, kind: R, value: R) {
        let end = self.label();
        let ways = [RETURNED, BROKEN, CONTINUED];
        let labels: Vec<usize> = ways.iter().map(|_| self.label()).collect();
        self.push(Inst::JumpIs(kind, int(0), end as u32));
        let inside = self.around.iter().any(|a| matches!(a, Around::Loop { .. }));
        for (way, label) in ways.iter().zip(&labels).filter(|(w, _)| **w == RETURNED || inside) {
            self.push(Inst::JumpIs(kind, int(*way), *label as u32));
        }
        self.push(Inst::Raise(value));
        for (way, label) in ways.iter().zip(&labels).filter(|(w, _)| **w == RETURNED || inside) {
            self.place(*label);
            self.leave(*way, value);
        }
        self.place(end);
    }
}

fn generator(p: &Program, f: usize) -> Code {
    let mut m = Maker { free: FIRST, ..Maker::default() };
    m.code.registers = FIRST;
    for v in 0..VARIABLES {
        m.push(Inst::Const(VARIABLE + v as R, int(0)));
    }
    for (h, child) in p.functions[f].children.iter().enumerate() {
        m.push(Inst::Current(SCRATCH + 1));
        m.push(Inst::New(SCRATCH, 1 + *child as u32, 1));
        m.push(Inst::Move(CHILD + h as R, SCRATCH));
    }
    m.block(&p.functions[f].body);
    m.push(Inst::Const(SCRATCH, Word::NIL));
    m.push(Inst::Return(SCRATCH));
    m.done()
}

/// The main program: one handler over all actions; each sets where the next
/// one begins, and the handler logs what was raised and goes on there.
fn main_code(p: &Program) -> Code {
    const NEXT: R = ROOTS as R;
    const A: R = NEXT + 1;
    const B: R = NEXT + 2;
    const C: R = NEXT + 3;
    const CATCH: R = NEXT + 4;
    let mut m = Maker { free: CATCH + 1, ..Maker::default() };
    m.code.registers = CATCH + 1;
    let h = m.guarded(CATCH, |m| {
        for action in &p.actions {
            let set = m.at() as usize;
            m.push(Inst::Stop);
            action_code(m, *action, [A, B, C]);
            m.code.insts[set] = Inst::Const(NEXT, Word(m.at().into()));
        }
        m.push(Inst::Stop);
    });
    m.target(h);
    m.push(Inst::Log(Tag::Raised, CATCH));
    m.push(Inst::JumpReg(NEXT));
    m.done()
}

fn action_code(m: &mut Maker, action: Action, [a, b, c]: [R; 3]) {
    let result = |m: &mut Maker, r: R| {
        m.push(Inst::Status(b, r));
        m.push(Inst::LogResult(a, b));
    };
    let if_asleep = |m: &mut Maker, r: usize, insts: &[Inst]| {
        let (asleep, end) = (m.label(), m.label());
        m.push(Inst::Status(a, r as R));
        m.push(Inst::JumpIs(a, Word(2), asleep as u32));
        m.push(Inst::JumpIs(a, Word(3), asleep as u32));
        m.jump(end);
        m.place(asleep);
        insts.iter().for_each(|i| m.push(*i));
        m.place(end);
    };
    let make = |m: &mut Maker, r: usize, f: usize| {
        m.push(Inst::Const(b, Word::NIL));
        m.push(Inst::New(a, 1 + f as u32, 1));
        m.push(Inst::Move(r as R, a));
    };
    match action {
        Action::Make(r, f) => make(m, r, f),
        Action::Send(r, e) => {
            m.expr(a, e);
            m.push(Inst::Resume(a, r as R, a));
            result(m, r as R);
        }
        Action::Throw(r, e) => {
            m.push(Inst::Const(a, signal(e)));
            m.push(Inst::Throw(a, r as R, a));
            result(m, r as R);
        }
        Action::ThrowNone(r) => {
            m.push(Inst::Const(a, Word::NIL));
            m.push(Inst::Throw(a, r as R, a));
            result(m, r as R);
        }
        Action::Close(r, e) => {
            m.push(Inst::Const(a, signal(e)));
            m.push(Inst::Close(a, r as R, a));
            m.push(Inst::Log(Tag::Close, a));
        }
        Action::For(r, n) => {
            let (next, end) = (m.label(), m.label());
            let (iter, val, count) = (m.register(), m.register(), m.register());
            m.push(Inst::Const(count, int(0)));
            m.push(Inst::Iterator(iter, r as R));
            m.place(next);
            m.push(Inst::IterNext { has: c, iter, val, src: r as R });
            m.push(Inst::JumpIs(c, Word(0), end as u32));
            m.push(Inst::Log(Tag::Item, val));
            m.push(Inst::Add(count, count, 1));
            m.push(Inst::JumpIs(count, int(n as i64), end as u32));
            m.jump(next);
            m.place(end);
            m.push(Inst::Log(Tag::For, count));
            m.free -= 3;
        }
        Action::Status(r) => {
            m.push(Inst::Status(a, r as R));
            m.push(Inst::Log(Tag::Status, a));
        }
        Action::Drop(r, f) => {
            // the cleanup starts at this instruction's charge
            if_asleep(m, r, &[Inst::HandOver(r as R), Inst::Current(a)]);
            make(m, r, f);
        }
        Action::DropSpent(r, f) => {
            // no cleanup starts at this instruction's charge
            if_asleep(m, r, &[Inst::HandOverSpent(a, r as R), Inst::Current(a)]);
            make(m, r, f);
        }
        Action::DropDeep(r) => if_asleep(m, r, &[Inst::HandOverDeep(r as R)]),
    }
}

/// The codes of all functions, the main program's first. The last one has no
/// code: its frames fill the stack.
pub fn compile(p: &Program) -> Vec<Code> {
    let mut all = vec![main_code(p)];
    all.extend((0..p.functions.len()).map(|f| generator(p, f)));
    all.push(Code { registers: 1, ..Code::default() });
    all
}

pub fn setup(p: &Program, codes: &[Code]) -> Setup {
    let all = Setup::new().depth(p.depth).stack(p.stack).rows(64).slots(400);
    codes.iter().enumerate().fold(all, |s, (i, code)| {
        let f = Function::new(code.registers).parameters(u16::from(i > 0));
        s.function(code.handlers.iter().fold(f, |f, h| f.handler(*h)))
    })
}
