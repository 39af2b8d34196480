//! A program as Python text.

use std::fmt::Write;

use crate::program::{Action, Exc, Expr, Pattern, Program, Stmt, Whom};

fn expr(e: Expr) -> String {
    match e {
        Expr::None => "None".into(),
        Expr::Int(n) => n.to_string(),
        Expr::Var(v) => format!("v{v}"),
        Expr::Add(v, n) => format!("add(v{v}, {n})"),
    }
}

fn exc(e: Exc) -> String {
    match e {
        Exc::Own(n) => format!("E{n}"),
        Exc::Exit => "GeneratorExit".into(),
    }
}

fn pattern(p: Pattern) -> String {
    match p {
        Pattern::Own(n) => format!("E{n}"),
        Pattern::Two => "(E101, E102)".into(),
        Pattern::Exit => "GeneratorExit".into(),
        Pattern::Fault(3) => "ValueError".into(),
        Pattern::Fault(4) => "StackOverflow".into(),
        Pattern::Fault(_) => "RuntimeError".into(),
        Pattern::Ordinary => "Exception".into(),
        Pattern::Any => "BaseException".into(),
    }
}

fn whom(w: Whom) -> String {
    match w {
        Whom::Child(i) => format!("h{i}"),
        Whom::Own => "current()".into(),
        Whom::Parent => "p".into(),
    }
}

/// A suspended one is dropped; then it is made again.
fn dropped(r: usize, how: &str, f: usize) -> String {
    format!("if status(r{r}) in (2, 3):\n  {how}(r{r})\n r{r} = make({f})")
}

struct Text(String);

impl Text {
    fn line(&mut self, depth: usize, text: &str) {
        writeln!(self.0, "{}{text}", " ".repeat(depth)).expect("a string");
    }

    fn block(&mut self, depth: usize, stmts: &[Stmt]) {
        stmts.iter().for_each(|s| self.stmt(depth, s));
    }

    fn stmt(&mut self, d: usize, s: &Stmt) {
        // an operation on the parent needs one
        let parent = match s {
            Stmt::For(_, w, _)
            | Stmt::Send(_, w, _)
            | Stmt::Throw(_, w, _)
            | Stmt::Close(w, _)
            | Stmt::Status(w) => matches!(w, Whom::Parent),
            _ => false,
        };
        if parent {
            self.line(d, "if p is not None:");
        }
        let d = d + usize::from(parent);
        match s {
            Stmt::Assign(v, e) => self.line(d, &format!("v{v} = {}", expr(*e))),
            Stmt::Log(e) => self.line(d, &format!("log('log', {})", expr(*e))),
            Stmt::Yield(v, e) => self.line(d, &format!("v{v} = yield {}", expr(*e))),
            Stmt::Await(v, e) => self.line(d, &format!("v{v} = yield awaited({})", expr(*e))),
            Stmt::If(v, a, b) => {
                self.line(d, &format!("if odd(v{v}):"));
                self.block(d + 1, a);
                if !b.is_empty() {
                    self.line(d, "else:");
                    self.block(d + 1, b);
                }
            }
            Stmt::Repeat(n, body) => {
                self.line(d, &format!("for _ in range({n}):"));
                self.block(d + 1, body);
            }
            Stmt::For(v, w, body) => {
                self.line(d, &format!("for v{v} in each({}):", whom(*w)));
                self.block(d + 1, body);
            }
            Stmt::Send(v, w, e) => {
                self.line(d, &format!("v{v} = send({}, {})", whom(*w), expr(*e)));
            }
            Stmt::Throw(v, w, e) => {
                self.line(d, &format!("v{v} = throw({}, {}())", whom(*w), exc(*e)));
            }
            Stmt::Close(w, e) => self.line(d, &format!("close({}, {}())", whom(*w), exc(*e))),
            Stmt::Status(w) => self.line(d, &format!("log('status', status({}))", whom(*w))),
            Stmt::Try { body, clauses, finally } => {
                self.line(d, "try:");
                self.block(d + 1, body);
                for (p, clause) in clauses {
                    self.line(d, &format!("except {}:", pattern(*p)));
                    self.block(d + 1, clause);
                }
                if let Some(finally) = finally {
                    self.line(d, "finally:");
                    self.block(d + 1, finally);
                }
            }
            Stmt::Raise(e) => self.line(d, &format!("raise {}()", exc(*e))),
            Stmt::Again => self.line(d, "raise"),
            Stmt::Return(e) => self.line(d, &format!("return {}", expr(*e))),
            Stmt::Break => self.line(d, "break"),
            Stmt::Continue => self.line(d, "continue"),
        }
    }

    fn action(&mut self, a: Action) {
        let (text, d) = match a {
            Action::Make(r, f) => (format!("r{r} = make({f})"), 1),
            Action::Send(r, e) => (format!("result(r{r}, send(r{r}, {}))", expr(e)), 1),
            Action::Throw(r, e) => (format!("result(r{r}, throw(r{r}, {}()))", exc(e)), 1),
            Action::ThrowNone(r) => (format!("result(r{r}, throw(r{r}, None))"), 1),
            Action::Close(r, e) => (format!("log('close', close(r{r}, {}()))", exc(e)), 1),
            Action::For(r, n) => (
                format!(
                    "k = 0\n for x in each(r{r}):\n  log('item', x)\n  k += 1\n  if k == {n}:\n   break\n log('for', k)"
                ),
                1,
            ),
            Action::Status(r) => (format!("log('status', status(r{r}))"), 1),
            Action::Drop(r, f) => (dropped(r, "drop", f), 1),
            Action::DropSpent(r, f) => (dropped(r, "drop_spent", f), 1),
            Action::DropDeep(r) => (format!("if status(r{r}) in (2, 3):\n  drop_deep(r{r})"), 1),
        };
        self.line(0, "try:");
        self.line(d, &text);
        self.line(0, "except BaseException as e:");
        self.line(1, "raised(e)");
    }
}

/// The program, with the registers of its functions, the main program's first.
pub fn text(p: &Program, registers: &[usize]) -> String {
    let mut t = Text(String::new());
    t.line(
        0,
        &format!(
            "limits({}, {}, {registers:?}, {})",
            p.depth,
            p.stack,
            if p.real_close { "True" } else { "False" }
        ),
    );
    for (i, f) in p.functions.iter().enumerate() {
        t.line(0, &format!("def g{i}(p):"));
        t.line(1, "v0 = v1 = v2 = 0");
        for (h, child) in f.children.iter().enumerate() {
            t.line(1, &format!("h{h} = make({child})"));
        }
        t.block(1, &f.body);
        t.line(1, "if 0: yield");
    }
    let names: Vec<String> = (0..p.functions.len()).map(|i| format!("g{i}")).collect();
    t.line(0, &format!("functions([{}])", names.join(", ")));
    p.actions.iter().for_each(|a| t.action(*a));
    t.0
}
