//! The tree record and its reading: questions 2 to 6.
//!
//! Names and strings are kept as bytes of the record, well formed or not:
//! their shape is asked later, by questions 7 and 8.

pub const MAX_TREE: usize = 32_768;
pub const MAX_DEPTH: usize = 32;

pub type Name<'a> = &'a [u8];
pub type Block<'a> = Vec<Stmt<'a>>;

pub enum Stmt<'a> {
    Break,
    Continue,
    Pass,
    Expr(Expr<'a>),
    Return(Expr<'a>),
    Assign(Expr<'a>, Expr<'a>),
    If(If<'a>),
    While(Expr<'a>, Block<'a>),
    For(Name<'a>, Expr<'a>, Block<'a>),
    Def(Function<'a>),
    Class(Class<'a>),
}

/// The first arm is the `if`, the others are the elifs.
pub struct If<'a> {
    pub arms: Vec<(Expr<'a>, Block<'a>)>,
    pub otherwise: Option<Block<'a>>,
}

/// A def or a method.
pub struct Function<'a> {
    pub name: Name<'a>,
    pub params: Vec<Name<'a>>,
    pub body: Block<'a>,
}

pub struct Class<'a> {
    pub name: Name<'a>,
    pub methods: Vec<Function<'a>>,
    pub attributes: Vec<(Name<'a>, Expr<'a>)>,
}

#[derive(Clone, Copy, PartialEq, Eq)]
pub enum Group {
    List,
    Tuple,
    Set,
    TreeSet,
}

pub enum Expr<'a> {
    None,
    False,
    True,
    Int([u8; 8]),
    Float([u8; 8]),
    String(&'a [u8]),
    Variable(Name<'a>),
    Unary(u8, Box<Expr<'a>>),
    Binary(u8, Box<Expr<'a>>, Box<Expr<'a>>),
    Call(Box<Expr<'a>>, Vec<Expr<'a>>),
    Attribute(Box<Expr<'a>>, Name<'a>),
    Group(Group, Vec<Expr<'a>>),
    Dict(Vec<(Expr<'a>, Expr<'a>)>),
    Index(Box<Expr<'a>>, Box<Expr<'a>>),
    Lambda(Vec<Name<'a>>, Box<Expr<'a>>),
}

/// Questions 2 to 6: the statements of the tree, or the first no.
pub fn read(tree: &[u8]) -> Result<Block<'_>, u8> {
    if tree.len() > MAX_TREE {
        return Err(2);
    }
    let (header, rest) = tree.split_first_chunk::<4>().ok_or(3)?;
    if u32::from_be_bytes(*header) as usize != rest.len() {
        return Err(3);
    }
    let (version, rest) = rest.split_first().ok_or(4)?;
    if *version != 1 {
        return Err(4);
    }
    let mut reader = Reader { rest };
    let block = reader.block(1)?;
    if reader.rest.is_empty() {
        Ok(block)
    } else {
        Err(5)
    }
}

/// Reads from front to back, so that the earlier byte decides between 5 and 6.
struct Reader<'a> {
    rest: &'a [u8],
}

impl<'a> Reader<'a> {
    fn take(&mut self, length: usize) -> Result<&'a [u8], u8> {
        let (taken, rest) = self.rest.split_at_checked(length).ok_or(5)?;
        self.rest = rest;
        Ok(taken)
    }

    fn array<const N: usize>(&mut self) -> Result<[u8; N], u8> {
        Ok(self.take(N)?.try_into().expect("as long as asked"))
    }

    fn byte(&mut self) -> Result<u8, u8> {
        Ok(self.array::<1>()?[0])
    }

    fn byte_below(&mut self, limit: u8) -> Result<u8, u8> {
        let byte = self.byte()?;
        if byte < limit {
            Ok(byte)
        } else {
            Err(5)
        }
    }

    fn count(&mut self) -> Result<usize, u8> {
        Ok(u16::from_be_bytes(self.array()?).into())
    }

    /// A kind byte too deep is 6 whatever the byte, but it has to be there.
    fn kind(&mut self, depth: usize) -> Result<u8, u8> {
        let kind = self.byte()?;
        if depth > MAX_DEPTH {
            Err(6)
        } else {
            Ok(kind)
        }
    }

    fn several<T>(&mut self, one: impl Fn(&mut Self) -> Result<T, u8>) -> Result<Vec<T>, u8> {
        let count = self.count()?;
        (0..count).map(|_| one(self)).collect()
    }

    fn name(&mut self) -> Result<Name<'a>, u8> {
        let length = self.byte()?;
        self.take(length.into())
    }

    fn block(&mut self, depth: usize) -> Result<Block<'a>, u8> {
        self.several(|reader| reader.stmt(depth))
    }

    fn stmt(&mut self, depth: usize) -> Result<Stmt<'a>, u8> {
        let inner = depth + 1;
        Ok(match self.kind(depth)? {
            0 => Stmt::Break,
            1 => Stmt::Continue,
            2 => Stmt::Pass,
            3 => Stmt::Expr(self.expr(inner)?),
            4 => Stmt::Return(self.expr(inner)?),
            5 => Stmt::Assign(self.expr(inner)?, self.expr(inner)?),
            6 => Stmt::If(self.if_parts(inner)?),
            7 => Stmt::While(self.expr(inner)?, self.block(inner)?),
            8 => Stmt::For(self.name()?, self.expr(inner)?, self.block(inner)?),
            9 => Stmt::Def(self.function(inner)?),
            10 => Stmt::Class(self.class(inner)?),
            _ => return Err(5),
        })
    }

    fn if_parts(&mut self, inner: usize) -> Result<If<'a>, u8> {
        let mut arms = vec![(self.expr(inner)?, self.block(inner)?)];
        arms.append(&mut self.several(|r| Ok((r.expr(inner)?, r.block(inner)?)))?);
        let otherwise = match self.byte_below(2)? {
            0 => None,
            _ => Some(self.block(inner)?),
        };
        Ok(If { arms, otherwise })
    }

    fn function(&mut self, inner: usize) -> Result<Function<'a>, u8> {
        Ok(Function {
            name: self.name()?,
            params: self.several(Self::name)?,
            body: self.block(inner)?,
        })
    }

    fn class(&mut self, inner: usize) -> Result<Class<'a>, u8> {
        Ok(Class {
            name: self.name()?,
            methods: self.several(|r| r.function(inner))?,
            attributes: self.several(|r| Ok((r.name()?, r.expr(inner)?)))?,
        })
    }

    fn boxed(&mut self, depth: usize) -> Result<Box<Expr<'a>>, u8> {
        Ok(Box::new(self.expr(depth)?))
    }

    fn expr(&mut self, depth: usize) -> Result<Expr<'a>, u8> {
        let inner = depth + 1;
        Ok(match self.kind(depth)? {
            0 => Expr::None,
            1 => Expr::False,
            2 => Expr::True,
            3 => Expr::Int(self.array()?),
            4 => Expr::Float(self.array()?),
            5 => {
                let length = self.count()?;
                Expr::String(self.take(length)?)
            }
            6 => Expr::Variable(self.name()?),
            7 => Expr::Unary(self.byte_below(3)?, self.boxed(inner)?),
            8 => Expr::Binary(self.byte_below(14)?, self.boxed(inner)?, self.boxed(inner)?),
            9 => Expr::Call(self.boxed(inner)?, self.exprs(inner)?),
            10 => Expr::Attribute(self.boxed(inner)?, self.name()?),
            11 => Expr::Group(Group::List, self.exprs(inner)?),
            12 => Expr::Dict(self.several(|r| Ok((r.expr(inner)?, r.expr(inner)?)))?),
            13 => Expr::Group(Group::Tuple, self.exprs(inner)?),
            14 => Expr::Group(Group::Set, self.exprs(inner)?),
            15 => Expr::Group(Group::TreeSet, self.exprs(inner)?),
            16 => Expr::Index(self.boxed(inner)?, self.boxed(inner)?),
            17 => Expr::Lambda(self.several(Self::name)?, self.boxed(inner)?),
            _ => return Err(5),
        })
    }

    fn exprs(&mut self, depth: usize) -> Result<Vec<Expr<'a>>, u8> {
        self.several(|reader| reader.expr(depth))
    }
}
