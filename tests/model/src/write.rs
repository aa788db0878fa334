//! The writer of tree records: a tree as it was read, or its rest.

use crate::tree::{Class, Expr, Function, Group, If, Name, Stmt};

/// How a tree is written.
pub struct Writer<'a> {
    /// Without Pass statements and class attributes.
    pub rest: bool,
    /// How many Pass statements each block has more, and behind how many of its own statements they stand.
    pub passes: &'a mut dyn FnMut() -> usize,
}

/// The tree record of these statements.
pub fn tree(statements: &[Stmt<'_>]) -> Vec<u8> {
    written(statements, false)
}

/// The tree record of what is left of them without Pass statements and class attributes.
pub fn rest(statements: &[Stmt<'_>]) -> Vec<u8> {
    written(statements, true)
}

fn written(statements: &[Stmt<'_>], rest: bool) -> Vec<u8> {
    let passes = &mut || 0;
    Writer { rest, passes }.tree(statements)
}

fn count(out: &mut Vec<u8>, count: usize) {
    let count = u16::try_from(count).expect("no list of a tree is longer");
    out.extend(count.to_be_bytes());
}

fn name(out: &mut Vec<u8>, name: Name<'_>) {
    out.push(u8::try_from(name.len()).expect("no name of a tree is longer"));
    out.extend(name);
}

fn names(out: &mut Vec<u8>, list: &[Name<'_>]) {
    count(out, list.len());
    list.iter().for_each(|one| name(out, one));
}

fn exprs(out: &mut Vec<u8>, list: &[Expr<'_>]) {
    count(out, list.len());
    list.iter().for_each(|one| expr(out, one));
}

fn expr(out: &mut Vec<u8>, of: &Expr<'_>) {
    match of {
        Expr::None => out.push(0),
        Expr::False => out.push(1),
        Expr::True => out.push(2),
        Expr::Int(bytes) => {
            out.push(3);
            out.extend(bytes);
        }
        Expr::Float(bytes) => {
            out.push(4);
            out.extend(bytes);
        }
        Expr::String(bytes) => {
            out.push(5);
            count(out, bytes.len());
            out.extend(*bytes);
        }
        Expr::Variable(of) => {
            out.push(6);
            name(out, of);
        }
        Expr::Unary(operator, of) => {
            out.extend([7, *operator]);
            expr(out, of);
        }
        Expr::Binary(operator, left, right) => {
            out.extend([8, *operator]);
            expr(out, left);
            expr(out, right);
        }
        Expr::Call(callee, arguments) => {
            out.push(9);
            expr(out, callee);
            exprs(out, arguments);
        }
        Expr::Attribute(object, of) => {
            out.push(10);
            expr(out, object);
            name(out, of);
        }
        Expr::Group(group, of) => {
            out.push(match group {
                Group::List => 11,
                Group::Tuple => 13,
                Group::Set => 14,
                Group::TreeSet => 15,
            });
            exprs(out, of);
        }
        Expr::Dict(pairs) => {
            out.push(12);
            count(out, pairs.len());
            for (key, value) in pairs {
                expr(out, key);
                expr(out, value);
            }
        }
        Expr::Index(object, index) => {
            out.push(16);
            expr(out, object);
            expr(out, index);
        }
        Expr::Lambda(params, body) => {
            out.push(17);
            names(out, params);
            expr(out, body);
        }
    }
}

impl Writer<'_> {
    /// The tree record of these statements.
    pub fn tree(&mut self, statements: &[Stmt<'_>]) -> Vec<u8> {
        let mut body = vec![1];
        self.block(&mut body, statements);
        let length = u32::try_from(body.len()).expect("no tree is longer");
        [length.to_be_bytes().as_slice(), &body].concat()
    }

    fn block(&mut self, out: &mut Vec<u8>, statements: &[Stmt<'_>]) {
        let kept = |one: &&Stmt<'_>| !(self.rest && matches!(one, Stmt::Pass));
        let kept: Vec<&Stmt<'_>> = statements.iter().filter(kept).collect();
        let (more, place) = ((self.passes)(), (self.passes)() % (kept.len() + 1));
        count(out, kept.len() + more);
        kept[..place].iter().for_each(|one| self.stmt(out, one));
        out.extend(vec![2; more]);
        kept[place..].iter().for_each(|one| self.stmt(out, one));
    }

    fn stmt(&mut self, out: &mut Vec<u8>, of: &Stmt<'_>) {
        match of {
            Stmt::Break => out.push(0),
            Stmt::Continue => out.push(1),
            Stmt::Pass => out.push(2),
            Stmt::Expr(value) => {
                out.push(3);
                expr(out, value);
            }
            Stmt::Return(value) => {
                out.push(4);
                expr(out, value);
            }
            Stmt::Assign(target, value) => {
                out.push(5);
                expr(out, target);
                expr(out, value);
            }
            Stmt::If(of) => {
                out.push(6);
                self.arms(out, of);
            }
            Stmt::While(condition, body) => {
                out.push(7);
                expr(out, condition);
                self.block(out, body);
            }
            Stmt::For(variable, iterable, body) => {
                out.push(8);
                name(out, variable);
                expr(out, iterable);
                self.block(out, body);
            }
            Stmt::Def(function) => {
                out.push(9);
                self.function(out, function);
            }
            Stmt::Class(class) => {
                out.push(10);
                self.class(out, class);
            }
        }
    }

    fn arms(&mut self, out: &mut Vec<u8>, of: &If<'_>) {
        for (place, (condition, body)) in of.arms.iter().enumerate() {
            if place == 1 {
                count(out, of.arms.len() - 1);
            }
            expr(out, condition);
            self.block(out, body);
        }
        if of.arms.len() == 1 {
            count(out, 0);
        }
        out.push(u8::from(of.otherwise.is_some()));
        if let Some(body) = &of.otherwise {
            self.block(out, body);
        }
    }

    fn function(&mut self, out: &mut Vec<u8>, of: &Function<'_>) {
        name(out, of.name);
        names(out, &of.params);
        self.block(out, &of.body);
    }

    fn class(&mut self, out: &mut Vec<u8>, of: &Class<'_>) {
        name(out, of.name);
        count(out, of.methods.len());
        of.methods.iter().for_each(|one| self.function(out, one));
        let attributes = if self.rest { &[] } else { &of.attributes[..] };
        count(out, attributes.len());
        for (of, value) in attributes {
            name(out, of);
            expr(out, value);
        }
    }
}
