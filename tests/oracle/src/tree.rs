//! Reads tree records into the reference's own tree. A record that does not
//! read gives `None`; callers ask the model first, so that is not expected.

use crate::parser::ast;
use ast::{BinaryOp, UnaryOp};
use ast::{Expr, ExprS, Literal};
use ast::{MethodDef, Stmt, StmtS};

/// The statements of a whole tree record.
pub fn read(tree: &[u8]) -> Option<Vec<StmtS>> {
    let mut cursor = Cursor { rest: tree };
    let length = u32::from_be_bytes(cursor.array()?) as usize;
    if cursor.rest.len() != length || cursor.byte()? != 1 {
        return None;
    }
    let block = cursor.block()?;
    cursor.rest.is_empty().then_some(block)
}

struct Cursor<'a> {
    rest: &'a [u8],
}

fn spanned<T>(value: T) -> (T, std::ops::Range<usize>) {
    (value, 0..0)
}

impl Cursor<'_> {
    fn take(&mut self, length: usize) -> Option<&[u8]> {
        let (taken, rest) = self.rest.split_at_checked(length)?;
        self.rest = rest;
        Some(taken)
    }

    fn array<const N: usize>(&mut self) -> Option<[u8; N]> {
        self.take(N)?.try_into().ok()
    }

    fn byte(&mut self) -> Option<u8> {
        Some(self.array::<1>()?[0])
    }

    fn count(&mut self) -> Option<usize> {
        Some(u16::from_be_bytes(self.array()?).into())
    }

    fn text(&mut self, length: usize) -> Option<String> {
        String::from_utf8(self.take(length)?.to_vec()).ok()
    }

    fn name(&mut self) -> Option<String> {
        let length = self.byte()?.into();
        self.text(length)
    }

    fn several<T>(&mut self, mut one: impl FnMut(&mut Self) -> Option<T>) -> Option<Vec<T>> {
        let count = self.count()?;
        (0..count).map(|_| one(self)).collect()
    }

    fn block(&mut self) -> Option<Vec<StmtS>> {
        self.several(Self::statement)
    }

    fn statement(&mut self) -> Option<StmtS> {
        let statement = match self.byte()? {
            0 => Stmt::Break,
            1 => Stmt::Continue,
            2 => Stmt::Pass,
            3 => Stmt::Expr(self.expression()?),
            4 => Stmt::Return(self.expression()?),
            5 => {
                let target = self.expression()?;
                let value = self.expression()?;
                Stmt::Assign { target, value }
            }
            6 => self.if_statement()?,
            7 => {
                let condition = self.expression()?;
                let body = self.block()?;
                Stmt::While { condition, body }
            }
            8 => self.for_statement()?,
            9 => {
                let MethodDef { name, params, body } = self.function()?;
                Stmt::Def { name, params, body }
            }
            10 => self.class()?,
            _ => return None,
        };
        Some(spanned(statement))
    }

    fn if_statement(&mut self) -> Option<Stmt> {
        let condition = self.expression()?;
        let then_block = self.block()?;
        let elif_blocks = self.several(|c| Some((c.expression()?, c.block()?)))?;
        let else_block = match self.byte()? {
            0 => None,
            _ => Some(self.block()?),
        };
        Some(Stmt::If {
            condition,
            then_block,
            elif_blocks,
            else_block,
        })
    }

    fn for_statement(&mut self) -> Option<Stmt> {
        let var = self.name()?;
        let iterable = self.expression()?;
        let body = self.block()?;
        Some(Stmt::For {
            var,
            iterable,
            body,
        })
    }

    fn function(&mut self) -> Option<MethodDef> {
        let name = self.name()?;
        let params = self.several(Self::name)?;
        let body = self.block()?;
        Some(MethodDef { name, params, body })
    }

    fn class(&mut self) -> Option<Stmt> {
        let name = self.name()?;
        let methods = self.several(Self::function)?;
        let attributes = self.several(|c| Some((c.name()?, c.expression()?)))?;
        Some(Stmt::Class {
            name,
            methods,
            attributes,
        })
    }

    fn boxed(&mut self) -> Option<Box<ExprS>> {
        Some(Box::new(self.expression()?))
    }

    fn expression(&mut self) -> Option<ExprS> {
        let kind = self.byte()?;
        let expression = match kind {
            0..=5 => Expr::Literal(self.literal(kind)?),
            6 => Expr::Variable(self.name()?),
            7 => {
                let op = unary_operator(self.byte()?)?;
                let expr = self.boxed()?;
                Expr::Unary { op, expr }
            }
            8 => {
                let op = binary_operator(self.byte()?)?;
                let left = self.boxed()?;
                let right = self.boxed()?;
                Expr::Binary { op, left, right }
            }
            9 => {
                let func_name = self.boxed()?;
                let args = self.several(Self::expression)?;
                Expr::Call { func_name, args }
            }
            10 => {
                let object = self.boxed()?;
                let attr = self.name()?;
                Expr::Attribute { object, attr }
            }
            11 => Expr::List(self.several(Self::expression)?),
            12 => Expr::Dict(self.several(|c| Some((c.expression()?, c.expression()?)))?),
            13 => Expr::Tuple(self.several(Self::expression)?),
            14 => Expr::Set(self.several(Self::expression)?),
            15 => Expr::TreeSet(self.several(Self::expression)?),
            16 => {
                let object = self.boxed()?;
                let index = self.boxed()?;
                Expr::Index { object, index }
            }
            17 => {
                let params = self.several(Self::name)?;
                let body = self.boxed()?;
                Expr::Lambda { params, body }
            }
            _ => return None,
        };
        Some(spanned(expression))
    }

    fn literal(&mut self, kind: u8) -> Option<Literal> {
        Some(match kind {
            0 => Literal::None,
            1 => Literal::Bool(false),
            2 => Literal::Bool(true),
            3 => Literal::Int(i64::from_be_bytes(self.array()?)),
            4 => Literal::Float(f64::from_bits(u64::from_be_bytes(self.array()?))),
            _ => {
                let length = self.count()?;
                Literal::String(self.text(length)?)
            }
        })
    }
}

fn unary_operator(number: u8) -> Option<UnaryOp> {
    let all = [UnaryOp::Not, UnaryOp::Negate, UnaryOp::Pos];
    all.into_iter().nth(number.into())
}

fn binary_operator(number: u8) -> Option<BinaryOp> {
    use BinaryOp as B;
    let arithmetic = [
        B::Add,
        B::Subtract,
        B::Multiply,
        B::Divide,
        B::FloorDivide,
        B::Modulo,
    ];
    let comparison = [
        B::Equal,
        B::NotEqual,
        B::Less,
        B::LessEqual,
        B::Greater,
        B::GreaterEqual,
    ];
    let logic = [B::And, B::Or];
    let all = arithmetic.into_iter().chain(comparison).chain(logic);
    all.into_iter().nth(number.into())
}
