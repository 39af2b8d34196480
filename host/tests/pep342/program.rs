//! Random generator programs.

/// A small random source (splitmix64): a seed fixes every program.
#[derive(Clone, Debug)]
pub struct Rng(pub u64);

impl Rng {
    pub fn word(&mut self) -> u64 {
        self.0 = self.0.wrapping_add(0x9E37_79B9_7F4A_7C15);
        let mut z = self.0;
        z = (z ^ (z >> 30)).wrapping_mul(0xBF58_476D_1CE4_E5B9);
        z = (z ^ (z >> 27)).wrapping_mul(0x94D0_49BB_1331_11EB);
        z ^ (z >> 31)
    }

    pub fn below(&mut self, n: usize) -> usize {
        (self.word() % n as u64) as usize
    }

    pub fn chance(&mut self, percent: usize) -> bool {
        self.below(100) < percent
    }

    pub fn pick<T: Copy>(&mut self, xs: &[T]) -> T {
        xs[self.below(xs.len())]
    }
}

/// Variables of a function.
pub const VARIABLES: usize = 3;
/// Generators that a generator makes at its start and drives.
pub const CHILDREN: usize = 2;
/// Generators that the main program holds.
pub const ROOTS: usize = 3;

#[derive(Clone, Copy, Debug)]
pub enum Expr {
    None,
    Int(i64),
    Var(usize),
    /// A variable plus a number; None counts as 0.
    Add(usize, i64),
}

/// An exception: one of three of the program's own, or the close signal.
#[derive(Clone, Copy, PartialEq, Eq, Debug)]
pub enum Exc {
    Own(i64),
    Exit,
}

/// What an except clause catches.
#[derive(Clone, Copy, PartialEq, Eq, Debug)]
pub enum Pattern {
    Own(i64),
    /// The first two of the program's own.
    Two,
    Exit,
    /// A fault 3, 4 or 6.
    Fault(u64),
    /// All but the close signal.
    Ordinary,
    Any,
}

/// Whom an operation is on.
#[derive(Clone, Copy, Debug)]
pub enum Whom {
    /// A generator made here.
    Child(usize),
    /// The running one.
    Own,
    /// The one that made this one, if a generator did.
    Parent,
}

#[derive(Clone, Debug)]
pub enum Stmt {
    Assign(usize, Expr),
    Log(Expr),
    Yield(usize, Expr),
    Await(usize, Expr),
    If(usize, Vec<Stmt>, Vec<Stmt>),
    Repeat(usize, Vec<Stmt>),
    /// Iteration over another generator.
    For(usize, Whom, Vec<Stmt>),
    Send(usize, Whom, Expr),
    Throw(usize, Whom, Exc),
    Close(Whom, Exc),
    Status(Whom),
    Try {
        body: Vec<Stmt>,
        clauses: Vec<(Pattern, Vec<Stmt>)>,
        finally: Option<Vec<Stmt>>,
    },
    Raise(Exc),
    /// The caught one again.
    Again,
    Return(Expr),
    Break,
    Continue,
}

/// What the main program does with its generators.
#[derive(Clone, Copy, Debug)]
pub enum Action {
    /// A new generator of this function.
    Make(usize, usize),
    Send(usize, Expr),
    Throw(usize, Exc),
    /// A throw of None.
    ThrowNone(usize),
    Close(usize, Exc),
    /// Iteration, up to so many values.
    For(usize, usize),
    Status(usize),
    /// The last reference goes, if it is suspended; it is made again after.
    Drop(usize, usize),
    /// The same while no fuel is left: the cleanup waits for a later drop.
    DropSpent(usize, usize),
    /// The same while it does not fit: no cleanup comes, and it goes on.
    DropDeep(usize),
}

#[derive(Clone, Debug)]
pub struct Function {
    /// The functions of its children.
    pub children: Vec<usize>,
    pub body: Vec<Stmt>,
}

#[derive(Clone, Debug)]
pub struct Program {
    pub seed: u64,
    pub functions: Vec<Function>,
    pub actions: Vec<Action>,
    /// Closes by CPython's own `close`; else as the PEP defines it, by throw.
    pub real_close: bool,
    pub depth: u64,
    pub stack: u64,
    pub fuel: u64,
}

/// Where a statement stands.
#[derive(Clone, Copy)]
struct Place {
    depth: usize,
    in_loop: bool,
    in_except: bool,
    children: usize,
    awaits: bool,
}

struct Maker<'a> {
    rng: &'a mut Rng,
    /// Handlers left, and statements.
    handlers: usize,
    size: usize,
}

impl Maker<'_> {
    fn expr(&mut self) -> Expr {
        match self.rng.below(8) {
            0 => Expr::None,
            1..=3 => Expr::Int(self.rng.below(100) as i64),
            4..=5 => Expr::Var(self.rng.below(VARIABLES)),
            _ => Expr::Add(self.rng.below(VARIABLES), 1 + self.rng.below(9) as i64),
        }
    }

    fn exc(&mut self) -> Exc {
        if self.rng.chance(20) {
            Exc::Exit
        } else {
            Exc::Own(101 + self.rng.below(3) as i64)
        }
    }

    fn pattern(&mut self) -> Pattern {
        match self.rng.below(10) {
            0..=1 => Pattern::Own(101 + self.rng.below(3) as i64),
            2 => Pattern::Two,
            3..=4 => Pattern::Exit,
            5 => Pattern::Fault(6),
            6 => Pattern::Fault(self.rng.pick(&[3, 4])),
            7..=8 => Pattern::Ordinary,
            _ => Pattern::Any,
        }
    }

    fn whom(&mut self, p: Place) -> Whom {
        match self.rng.below(12) {
            0 => Whom::Own,
            1 => Whom::Parent,
            _ if p.children > 0 => Whom::Child(self.rng.below(p.children)),
            _ => Whom::Own,
        }
    }

    fn block(&mut self, p: Place, most: usize) -> Vec<Stmt> {
        let n = 1 + self.rng.below(most);
        let inner = Place { depth: p.depth + 1, ..p };
        (0..n).map(|_| self.stmt(inner)).collect()
    }

    fn stmt(&mut self, p: Place) -> Stmt {
        self.size = self.size.saturating_sub(1);
        let v = self.rng.below(VARIABLES);
        let leaf = p.depth > 4 || self.size == 0;
        loop {
            return match self.rng.below(30) {
                0..=5 => Stmt::Yield(v, self.expr()),
                6 => Stmt::Assign(v, self.expr()),
                7 => Stmt::Log(self.expr()),
                8 if p.awaits => Stmt::Await(v, self.expr()),
                12..=13 if p.awaits => Stmt::Await(v, self.expr()),
                9 if !leaf => {
                    let (a, b) = (self.block(p, 2), self.rng.chance(50));
                    Stmt::If(v, a, if b { self.block(p, 2) } else { Vec::new() })
                }
                10..=11 if !leaf => {
                    let n = 1 + self.rng.below(3);
                    Stmt::Repeat(n, self.block(Place { in_loop: true, ..p }, 3))
                }
                12..=13 if !leaf => {
                    let whom = self.whom(p);
                    Stmt::For(v, whom, self.block(Place { in_loop: true, ..p }, 2))
                }
                14..=15 if p.children > 0 || self.rng.chance(10) => {
                    Stmt::Send(v, self.whom(p), self.expr())
                }
                16 if p.children > 0 || self.rng.chance(10) => {
                    Stmt::Throw(v, self.whom(p), self.exc())
                }
                17 if p.children > 0 || self.rng.chance(10) => {
                    let signal = if self.rng.chance(70) { Exc::Exit } else { self.exc() };
                    Stmt::Close(self.whom(p), signal)
                }
                18 => Stmt::Status(self.whom(p)),
                19..=24 if !leaf && self.handlers >= 2 => self.trying(p),
                25..=26 if p.depth > 1 && self.rng.chance(60) => Stmt::Raise(self.exc()),
                27 if p.in_except => Stmt::Again,
                28 if p.depth > 1 && self.rng.chance(60) => Stmt::Return(self.expr()),
                29 if p.in_loop => {
                    if self.rng.chance(50) {
                        Stmt::Break
                    } else {
                        Stmt::Continue
                    }
                }
                _ => continue,
            };
        }
    }

    fn trying(&mut self, p: Place) -> Stmt {
        if self.rng.chance(if p.awaits { 40 } else { 10 }) {
            return self.closed(p);
        }
        let shape = self.rng.below(3);
        let (excepts, finally) = (shape != 1, shape != 0);
        self.handlers -= usize::from(excepts) + usize::from(finally);
        let body = self.block(p, 3);
        let mut clauses = Vec::new();
        if excepts {
            for _ in 0..1 + self.rng.below(2) {
                let pattern = self.pattern();
                clauses.push((pattern, self.block(Place { in_except: true, ..p }, 2)));
                if pattern == Pattern::Any {
                    break;
                }
            }
        }
        let finally = finally.then(|| self.block(Place { in_except: false, ..p }, 2));
        Stmt::Try { body, clauses, finally }
    }

    /// A yield, and what its close does: it may await; then the signal goes on,
    /// or a value is yielded or returned.
    fn closed(&mut self, p: Place) -> Stmt {
        self.handlers -= 1;
        let v = self.rng.below(VARIABLES);
        let body = vec![Stmt::Yield(v, self.expr())];
        let mut clause = Vec::new();
        if p.awaits {
            clause.push(Stmt::Await(v, self.expr()));
        }
        clause.push(match self.rng.below(3) {
            0 => Stmt::Again,
            1 => Stmt::Yield(v, self.expr()),
            _ => Stmt::Return(self.expr()),
        });
        Stmt::Try { body, clauses: vec![(Pattern::Exit, clause)], finally: None }
    }
}

impl Program {
    pub fn random(seed: u64) -> Program {
        let mut rng = Rng(seed);
        // programs with awaits have no loops over generators
        let awaits = rng.chance(25);
        let n = 2 + rng.below(3);
        let functions: Vec<Function> = (0..n)
            .map(|i| {
                let later = n - 1 - i;
                let children = rng.below(CHILDREN + 1).min(later);
                let children = (0..children).map(|_| i + 1 + rng.below(later)).collect::<Vec<_>>();
                let place = Place {
                    depth: 0,
                    in_loop: false,
                    in_except: false,
                    children: children.len(),
                    awaits,
                };
                let mut maker = Maker { rng: &mut rng, handlers: 7, size: 24 };
                let mut body = maker.block(place, 4);
                while body.len() < 3 || maker.size > 12 {
                    body.push(maker.stmt(Place { depth: 1, ..place }));
                }
                Function { children, body }
            })
            .collect();
        let mut actions = Vec::new();
        for r in 0..ROOTS {
            actions.push(Action::Make(r, rng.below(n)));
        }
        for _ in 0..4 + rng.below(10) {
            let r = rng.below(ROOTS);
            let exc = Maker { rng: &mut rng, handlers: 0, size: 0 }.exc();
            let action = match rng.below(21) {
                0..=9 => Action::Send(r, if rng.chance(70) { Expr::None } else { Expr::Int(7) }),
                10..=12 => Action::Throw(r, exc),
                13 => Action::ThrowNone(r),
                14..=15 => Action::Close(r, if rng.chance(70) { Exc::Exit } else { exc }),
                16..=17 if !awaits => Action::For(r, 1 + rng.below(4)),
                18..=19 => match rng.below(6) {
                    0 => Action::DropSpent(r, rng.below(n)),
                    1 => Action::DropDeep(r),
                    _ => Action::Drop(r, rng.below(n)),
                },
                _ => Action::Status(r),
            };
            // most are started before they are thrown into, and made anew after
            let ends = matches!(
                action,
                Action::Throw(..)
                    | Action::ThrowNone(_)
                    | Action::Close(..)
                    | Action::Drop(..)
                    | Action::DropSpent(..)
                    | Action::DropDeep(_)
            );
            if ends && rng.chance(70) {
                actions.push(Action::Send(r, Expr::None));
            }
            actions.push(action);
            if ends && rng.chance(20) {
                actions.push(Action::Send(r, Expr::None));
            }
            if ends && rng.chance(60) {
                actions.push(Action::Make(r, rng.below(n)));
            }
        }
        let tight = rng.chance(12);
        Program {
            seed,
            functions,
            actions,
            real_close: rng.chance(50),
            depth: if tight { 2 + rng.below(3) as u64 } else { 16 },
            stack: if rng.chance(5) { 60 + rng.below(80) as u64 } else { 400 },
            fuel: if rng.chance(6) { 5 + rng.below(60) as u64 } else { 1_000_000 },
        }
    }
}
