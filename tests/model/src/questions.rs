//! Questions 7 to 13, 33 and 36. Each is asked over the whole tree before the next,
//! so one pass notes every no, and the first in their order is the answer.

use crate::tree::{Block, Class, Expr, Function, Group, Name, Stmt};
use crate::{names, utf8};
use std::collections::HashSet;

/// The questions in the order in which they are asked: 33 just after 7, 36
/// just after 10.
const ORDER: [u8; 9] = [7, 33, 8, 9, 10, 36, 11, 12, 13];

/// The first no among these questions.
pub fn ask(block: &Block) -> Result<(), u8> {
    let mut noes = Noes::default();
    noes.block(block, false);
    match ORDER.iter().find(|number| noes.seen.contains(number)) {
        Some(&number) => Err(number),
        None => Ok(()),
    }
}

#[derive(Default)]
struct Noes {
    seen: HashSet<u8>,
}

impl Noes {
    fn ask(&mut self, number: u8, yes: bool) {
        if !yes {
            self.seen.insert(number);
        }
    }

    fn name(&mut self, name: Name) {
        self.ask(7, names::well_formed(name));
        self.ask(33, !names::is_iterator(name));
    }

    fn params(&mut self, params: &[Name]) {
        for name in params {
            self.name(name);
        }
        let distinct: HashSet<_> = params.iter().collect();
        self.ask(11, distinct.len() == params.len());
        self.ask(13, params.len() <= 255);
    }

    fn block(&mut self, block: &Block, in_loop: bool) {
        for stmt in block {
            self.stmt(stmt, in_loop);
        }
    }

    fn stmt(&mut self, stmt: &Stmt, in_loop: bool) {
        match stmt {
            Stmt::Break | Stmt::Continue => self.ask(9, in_loop),
            Stmt::Pass => {}
            Stmt::Expr(value) | Stmt::Return(value) => self.expr(value),
            Stmt::Assign(target, value) => {
                self.ask(10, is_target(target));
                self.ask(36, !has_empty_tuple(target));
                self.expr(target);
                self.expr(value);
            }
            Stmt::If(parts) => {
                for (condition, block) in &parts.arms {
                    self.expr(condition);
                    self.block(block, in_loop);
                }
                if let Some(block) = &parts.otherwise {
                    self.block(block, in_loop);
                }
            }
            Stmt::While(condition, body) => {
                self.expr(condition);
                self.block(body, true);
            }
            Stmt::For(name, iterable, body) => {
                self.name(name);
                self.expr(iterable);
                self.block(body, true);
            }
            Stmt::Def(function) => self.function(function),
            Stmt::Class(class) => self.class(class),
        }
    }

    /// A function's body is in no loop, wherever the function stands.
    fn function(&mut self, function: &Function) {
        self.name(function.name);
        self.params(&function.params);
        self.block(&function.body, false);
    }

    fn class(&mut self, class: &Class) {
        self.name(class.name);
        for method in &class.methods {
            self.ask(12, method.name != names::INIT || !method.params.is_empty());
            self.function(method);
        }
        for (name, value) in &class.attributes {
            self.name(name);
            self.expr(value);
        }
    }

    fn exprs(&mut self, exprs: &[Expr]) {
        for expr in exprs {
            self.expr(expr);
        }
    }

    fn expr(&mut self, expr: &Expr) {
        match expr {
            Expr::None | Expr::False | Expr::True | Expr::Int(_) | Expr::Float(_) => {}
            Expr::String(bytes) => self.ask(8, utf8::well_formed(bytes)),
            Expr::Variable(name) => self.name(name),
            Expr::Unary(_, operand) => self.expr(operand),
            Expr::Binary(_, left, right) | Expr::Index(left, right) => {
                self.expr(left);
                self.expr(right);
            }
            Expr::Call(callee, args) => {
                self.expr(callee);
                self.exprs(args);
                self.ask(13, args.len() <= 255);
            }
            Expr::Attribute(object, name) => {
                self.expr(object);
                self.name(name);
            }
            Expr::Group(_, items) => self.exprs(items),
            Expr::Dict(entries) => {
                for (key, value) in entries {
                    self.expr(key);
                    self.expr(value);
                }
            }
            Expr::Lambda(params, body) => {
                self.params(params);
                self.expr(body);
            }
        }
    }
}

/// Attribute and index are targets only on their own, not inside a tuple.
fn is_target(target: &Expr) -> bool {
    matches!(target, Expr::Attribute(..) | Expr::Index(..)) || is_plain_target(target)
}

fn is_plain_target(target: &Expr) -> bool {
    match target {
        Expr::Variable(_) => true,
        Expr::Group(Group::Tuple, items) => items.iter().all(is_plain_target),
        _ => false,
    }
}

/// A target that is an empty tuple, or a tuple target with one inside.
fn has_empty_tuple(target: &Expr) -> bool {
    match target {
        Expr::Group(Group::Tuple, items) => items.is_empty() || items.iter().any(has_empty_tuple),
        _ => false,
    }
}
