//! Slots and captures, and question 14 on them.

use crate::tree::{Block, Expr, Group, Name, Stmt};
use std::collections::{BTreeSet, HashMap};

pub const MAX_SLOTS: usize = 255;

/// The slots of one function that have a name. Main has none at all.
#[derive(Default)]
pub struct Slots<'a> {
    of: HashMap<Name<'a>, usize>,
}

impl<'a> Slots<'a> {
    pub fn len(&self) -> usize {
        self.of.len()
    }

    pub fn is_empty(&self) -> bool {
        self.of.is_empty()
    }

    pub fn get(&self, name: &[u8]) -> Option<u16> {
        let slot = self.of.get(name)?;
        Some(u16::try_from(*slot).expect("question 14 was asked"))
    }

    fn has(&self, name: &[u8]) -> bool {
        self.of.contains_key(name)
    }

    fn add(&mut self, name: Name<'a>) {
        let next = self.of.len();
        self.of.entry(name).or_insert(next);
    }

    fn add_all(&mut self, names: &[Name<'a>]) {
        for name in names {
            self.add(name);
        }
    }

    /// The variables of a target, elements of tuples left to right. Attributes
    /// and indexes add no slot.
    fn add_target(&mut self, target: &Expr<'a>) {
        match target {
            Expr::Variable(name) => self.add(name),
            Expr::Group(Group::Tuple, items) => {
                for item in items {
                    self.add_target(item);
                }
            }
            _ => {}
        }
    }

    /// One pass in source order. Nothing inside a nested def or class adds a
    /// slot.
    fn add_block(&mut self, block: &Block<'a>) {
        for stmt in block {
            match stmt {
                Stmt::Assign(target, _) => self.add_target(target),
                Stmt::Def(function) => self.add(function.name),
                Stmt::Class(class) => self.add(class.name),
                Stmt::If(parts) => {
                    for (_, block) in &parts.arms {
                        self.add_block(block);
                    }
                    if let Some(block) = &parts.otherwise {
                        self.add_block(block);
                    }
                }
                Stmt::While(_, body) => self.add_block(body),
                Stmt::For(name, _, body) => {
                    self.add(name);
                    self.add_block(body);
                }
                _ => {}
            }
        }
    }
}

/// The slots of a def or method: parameters, then names by first appearance.
pub fn of_function<'a>(params: &[Name<'a>], body: &Block<'a>) -> Slots<'a> {
    let mut slots = Slots::default();
    slots.add_all(params);
    slots.add_block(body);
    slots
}

/// How many loops a def or method has: each has a slot of its own for its
/// iterator. Those inside a nested def or class are not its own.
pub fn loops(block: &Block) -> usize {
    let of_stmt = |stmt: &Stmt| match stmt {
        Stmt::For(_, _, body) => 1 + loops(body),
        Stmt::While(_, body) => loops(body),
        Stmt::If(parts) => {
            let arms: usize = parts.arms.iter().map(|(_, block)| loops(block)).sum();
            arms + parts.otherwise.as_ref().map_or(0, loops)
        }
        _ => 0,
    };
    block.iter().map(of_stmt).sum()
}

/// The slots of a lambda: parameters, then captures in byte order.
pub fn of_lambda<'a>(params: &[Name<'a>], captures: &[Name<'a>]) -> Slots<'a> {
    let mut slots = Slots::default();
    slots.add_all(params);
    slots.add_all(captures);
    slots
}

/// The names a lambda takes from its parent, in byte order.
pub fn captures<'a>(params: &[Name<'a>], body: &Expr<'a>, parent: &Slots<'a>) -> Vec<Name<'a>> {
    if parent.is_empty() {
        return Vec::new();
    }
    let mut free = Free::default();
    free.lambda(params, body);
    let captured = free.names.into_iter().filter(|name| parent.has(name));
    captured.collect()
}

/// Gathers the references that no lambda around them binds.
#[derive(Default)]
struct Free<'a> {
    /// How many of the lambdas around have the name as a parameter.
    bound: HashMap<Name<'a>, usize>,
    names: BTreeSet<Name<'a>>,
}

impl<'a> Free<'a> {
    /// Parameters are bound inside their own lambda alone.
    fn lambda(&mut self, params: &[Name<'a>], body: &Expr<'a>) {
        for name in params {
            *self.bound.entry(name).or_default() += 1;
        }
        self.expr(body);
        for name in params {
            *self.bound.entry(name).or_default() -= 1;
        }
    }

    fn expr(&mut self, expr: &Expr<'a>) {
        match expr {
            Expr::Variable(name) => {
                if self.bound.get(name).copied().unwrap_or(0) == 0 {
                    self.names.insert(name);
                }
            }
            Expr::Lambda(params, body) => self.lambda(params, body),
            _ => each_part(expr, &mut |part| self.expr(part)),
        }
    }
}

/// The expressions directly held, in the order of the record.
pub fn each_part<'t, 'a>(expr: &'t Expr<'a>, visit: &mut dyn FnMut(&'t Expr<'a>)) {
    match expr {
        Expr::Unary(_, part) | Expr::Attribute(part, _) | Expr::Lambda(_, part) => visit(part),
        Expr::Binary(_, left, right) | Expr::Index(left, right) => {
            visit(left);
            visit(right);
        }
        Expr::Call(callee, args) => {
            visit(callee);
            args.iter().for_each(visit);
        }
        Expr::Group(_, items) => items.iter().for_each(visit),
        Expr::Dict(entries) => {
            for (key, value) in entries {
                visit(key);
                visit(value);
            }
        }
        _ => {}
    }
}

/// Question 14, over every function that would be lowered.
pub fn ask(block: &Block) -> Result<(), u8> {
    ask_block(block, &Slots::default())
}

fn few_enough(count: usize) -> Result<(), u8> {
    if count <= MAX_SLOTS {
        Ok(())
    } else {
        Err(14)
    }
}

fn ask_block<'a>(block: &Block<'a>, slots: &Slots<'a>) -> Result<(), u8> {
    for stmt in block {
        ask_stmt(stmt, slots)?;
    }
    Ok(())
}

fn ask_stmt<'a>(stmt: &Stmt<'a>, slots: &Slots<'a>) -> Result<(), u8> {
    match stmt {
        Stmt::Pass | Stmt::Break | Stmt::Continue => {}
        Stmt::Expr(value) | Stmt::Return(value) => ask_expr(value, slots)?,
        Stmt::Assign(target, value) => {
            ask_expr(target, slots)?;
            ask_expr(value, slots)?;
        }
        Stmt::If(parts) => {
            for (condition, block) in &parts.arms {
                ask_expr(condition, slots)?;
                ask_block(block, slots)?;
            }
            if let Some(block) = &parts.otherwise {
                ask_block(block, slots)?;
            }
        }
        Stmt::While(value, body) | Stmt::For(_, value, body) => {
            ask_expr(value, slots)?;
            ask_block(body, slots)?;
        }
        Stmt::Def(function) => ask_function(&function.params, &function.body)?,
        // Attributes are not lowered, so their lambdas do not count.
        Stmt::Class(class) => {
            for method in &class.methods {
                ask_function(&method.params, &method.body)?;
            }
        }
    }
    Ok(())
}

fn ask_function<'a>(params: &[Name<'a>], body: &Block<'a>) -> Result<(), u8> {
    let slots = of_function(params, body);
    few_enough(slots.len() + loops(body))?;
    ask_block(body, &slots)
}

fn ask_expr<'a>(expr: &Expr<'a>, slots: &Slots<'a>) -> Result<(), u8> {
    if let Expr::Lambda(params, body) = expr {
        let inner = of_lambda(params, &captures(params, body, slots));
        few_enough(inner.len())?;
        return ask_expr(body, &inner);
    }
    let mut answer = Ok(());
    each_part(expr, &mut |part| {
        if answer.is_ok() {
            answer = ask_expr(part, slots);
        }
    });
    answer
}
