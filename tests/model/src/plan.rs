//! The numbering: names, strings, functions, classes, constants and places,
//! and the instructions in the shape of the tree, still without jumps.
//!
//! The lowering turns this into code with jumps; the walk goes through it
//! with a list of answers. Question 15 is asked while numbering: each of its
//! counts only grows, so the first one over the limit settles it.

use crate::instruction::{self as op, Instruction};
use crate::limits::Limits;
use crate::names;
use crate::slots::{self, Slots};
use crate::tree::{Block, Class, Expr, Function, Group, If, Name, Stmt};
use std::collections::{BTreeMap, HashMap, HashSet};

pub type Parts = Vec<Part>;

/// A piece of a function's body. Jumps are left to the reader of the plan.
pub enum Part {
    Op(Instruction),
    /// Arms of condition and block; without an else the last list is empty.
    If(Vec<(Parts, Parts)>, Parts),
    While(Parts, Parts),
    For(ForParts),
    Break,
    Continue,
    /// `and`, `or`: left, question, right, and the value of the short way.
    Short(ShortParts),
}

pub struct ForParts {
    /// The expression, the iterator made and stored.
    pub before: Parts,
    /// The iterator loaded and asked whether there is more.
    pub more: Parts,
    /// The iterator loaded, asked for the next, the variable stored.
    pub next: Parts,
    pub body: Parts,
}

pub struct ShortParts {
    pub left: Parts,
    pub question: u8,
    pub right: Parts,
    pub value: Instruction,
}

pub struct FunctionPlan {
    pub name: u16,
    pub arity: u8,
    pub locals: u16,
    pub parts: Parts,
}

pub struct ClassPlan<'a> {
    pub name: Name<'a>,
    /// In byte order; of two methods with one name the later stays.
    pub methods: BTreeMap<Name<'a>, u16>,
}

pub struct Plan<'a> {
    pub symbols: Vec<Vec<u8>>,
    pub strings: Vec<&'a [u8]>,
    pub functions: Vec<FunctionPlan>,
    pub classes: Vec<ClassPlan<'a>>,
    pub constants: Vec<u16>,
    symbol_of: HashMap<Vec<u8>, u16>,
    string_of: HashMap<&'a [u8], usize>,
    first_function: HashMap<Vec<u8>, u16>,
    class_names: HashSet<Name<'a>>,
    instructions: usize,
    limits: Limits,
}

/// What the instructions of one function are made with.
struct Scope<'s, 'a> {
    slots: &'s Slots<'a>,
    /// The slot of the next loop's iterator; none in main, whose loops keep
    /// theirs in globals.
    iterator: Option<usize>,
    /// The number of instructions of this function so far, jumps included.
    place: usize,
}

/// The plan of a tree that passed questions 1 to 14, or 15.
pub fn make<'a>(program: &Block<'a>, limits: Limits) -> Result<Plan<'a>, u8> {
    let mut plan = Plan::new(limits);
    let main = plan.begin(names::MAIN, 0, 0)?;
    let none = Slots::default();
    let scope = &mut Scope::new(&none, None);
    plan.finish(main, program, scope, false)?;
    Ok(plan)
}

impl<'s, 'a> Scope<'s, 'a> {
    /// Before the first instruction.
    fn new(slots: &'s Slots<'a>, iterator: Option<usize>) -> Self {
        let place = 0;
        Self {
            slots,
            iterator,
            place,
        }
    }
}

fn at_most(count: usize, limit: usize) -> Result<(), u8> {
    if count <= limit {
        Ok(())
    } else {
        Err(15)
    }
}

fn number(index: usize) -> u16 {
    u16::try_from(index).expect("question 15 bounds it")
}

/// Question 13 bounds the argument counts, 14 the slots.
fn small(count: usize) -> u8 {
    u8::try_from(count).expect("questions 13 and 14 bound it")
}

impl<'a> Plan<'a> {
    fn new(limits: Limits) -> Self {
        Self {
            symbols: Vec::new(),
            strings: Vec::new(),
            functions: Vec::new(),
            classes: Vec::new(),
            constants: Vec::new(),
            symbol_of: HashMap::new(),
            string_of: HashMap::new(),
            first_function: HashMap::new(),
            class_names: HashSet::new(),
            instructions: 0,
            limits,
        }
    }

    fn intern(&mut self, name: &[u8]) -> Result<u16, u8> {
        if let Some(known) = self.symbol_of.get(name) {
            return Ok(*known);
        }
        let symbol = number(self.symbols.len());
        self.symbols.push(name.to_vec());
        self.symbol_of.insert(name.to_vec(), symbol);
        at_most(self.symbols.len(), self.limits.symbols)?;
        Ok(symbol)
    }

    fn string(&mut self, bytes: &'a [u8]) -> Result<usize, u8> {
        let next = self.strings.len();
        let index = *self.string_of.entry(bytes).or_insert(next);
        if index == next {
            self.strings.push(bytes);
        }
        at_most(self.strings.len(), self.limits.strings)?;
        Ok(index)
    }

    /// Counts instructions that stand in the scope's function.
    fn count(&mut self, scope: &mut Scope, more: usize) -> Result<(), u8> {
        scope.place += more;
        self.instructions += more;
        at_most(self.instructions, self.limits.instructions)
    }

    fn op(&mut self, scope: &mut Scope, out: &mut Parts, ins: Instruction) -> Result<(), u8> {
        out.push(Part::Op(ins));
        self.count(scope, 1)
    }

    /// Gives a function its number; its name precedes its body.
    fn begin(&mut self, name: &[u8], arity: usize, locals: usize) -> Result<usize, u8> {
        let symbol = self.intern(name)?;
        let function = self.functions.len();
        self.functions.push(FunctionPlan {
            name: symbol,
            arity: small(arity),
            locals: number(locals),
            parts: Vec::new(),
        });
        at_most(self.functions.len(), self.limits.functions)?;
        self.first_function
            .entry(name.to_vec())
            .or_insert(number(function));
        Ok(function)
    }

    /// Plans the body of a def, method or main.
    fn finish(
        &mut self,
        function: usize,
        body: &Block<'a>,
        scope: &mut Scope<'_, 'a>,
        load_self: bool,
    ) -> Result<(), u8> {
        let mut out = Parts::new();
        self.block(scope, &mut out, body)?;
        if load_self {
            self.op(scope, &mut out, Instruction::wide(op::LOAD_LOCAL, 0))?;
        }
        self.op(scope, &mut out, Instruction::plain(op::RETURN))?;
        self.functions[function].parts = out;
        Ok(())
    }

    /// A def, or a method, whose `__init__` gives back its first slot.
    fn function(&mut self, function: &Function<'a>, is_method: bool) -> Result<u16, u8> {
        let slots = slots::of_function(&function.params, &function.body);
        let locals = slots.len() + slots::loops(&function.body);
        let index = self.begin(function.name, function.params.len(), locals)?;
        let load_self = is_method && function.name == names::INIT;
        let scope = &mut Scope::new(&slots, Some(slots.len()));
        self.finish(index, &function.body, scope, load_self)?;
        Ok(number(index))
    }

    /// A class takes its number before its methods, its constant after them.
    fn class(
        &mut self,
        scope: &mut Scope<'_, 'a>,
        out: &mut Parts,
        class: &Class<'a>,
    ) -> Result<(), u8> {
        let index = self.classes.len();
        self.classes.push(ClassPlan {
            name: class.name,
            methods: BTreeMap::new(),
        });
        self.class_names.insert(class.name);
        at_most(self.classes.len(), self.limits.classes)?;
        for method in &class.methods {
            let function = self.function(method, true)?;
            self.classes[index].methods.insert(method.name, function);
        }
        let symbol = self.intern(class.name)?;
        let constant = self.constants.len();
        self.constants.push(number(index));
        self.op(scope, out, Instruction::long(op::LOAD_CONST, constant))?;
        self.op(scope, out, Instruction::wide(op::STORE_GLOBAL, symbol))
    }

    fn block(
        &mut self,
        scope: &mut Scope<'_, 'a>,
        out: &mut Parts,
        block: &Block<'a>,
    ) -> Result<(), u8> {
        for stmt in block {
            self.stmt(scope, out, stmt)?;
        }
        Ok(())
    }

    fn stmt(
        &mut self,
        scope: &mut Scope<'_, 'a>,
        out: &mut Parts,
        stmt: &Stmt<'a>,
    ) -> Result<(), u8> {
        match stmt {
            Stmt::Break => self.leave(scope, out, Part::Break),
            Stmt::Continue => self.leave(scope, out, Part::Continue),
            Stmt::Pass => Ok(()),
            Stmt::Expr(value) => {
                self.expr(scope, out, value)?;
                self.op(scope, out, Instruction::plain(op::POP))
            }
            Stmt::Return(value) => {
                self.expr(scope, out, value)?;
                self.op(scope, out, Instruction::plain(op::RETURN))
            }
            Stmt::Assign(target, value) => self.assign(scope, out, target, value),
            Stmt::If(parts) => self.if_stmt(scope, out, parts),
            Stmt::While(condition, body) => self.while_stmt(scope, out, condition, body),
            Stmt::For(name, iterable, body) => self.for_stmt(scope, out, name, iterable, body),
            Stmt::Def(function) => self.function(function, false).map(|_| ()),
            Stmt::Class(class) => self.class(scope, out, class),
        }
    }

    /// A break or continue is one jump.
    fn leave(&mut self, scope: &mut Scope, out: &mut Parts, part: Part) -> Result<(), u8> {
        out.push(part);
        self.count(scope, 1)
    }

    /// Each arm has a question and an end jump, also where no else follows.
    fn if_stmt(
        &mut self,
        scope: &mut Scope<'_, 'a>,
        out: &mut Parts,
        parts: &If<'a>,
    ) -> Result<(), u8> {
        let mut arms = Vec::new();
        for (condition, block) in &parts.arms {
            let (mut asked, mut taken) = (Parts::new(), Parts::new());
            self.expr(scope, &mut asked, condition)?;
            self.count(scope, 1)?;
            self.block(scope, &mut taken, block)?;
            self.count(scope, 1)?;
            arms.push((asked, taken));
        }
        let mut otherwise = Parts::new();
        if let Some(block) = &parts.otherwise {
            self.block(scope, &mut otherwise, block)?;
        }
        out.push(Part::If(arms, otherwise));
        Ok(())
    }

    fn while_stmt(
        &mut self,
        scope: &mut Scope<'_, 'a>,
        out: &mut Parts,
        condition: &Expr<'a>,
        body: &Block<'a>,
    ) -> Result<(), u8> {
        let (mut asked, mut taken) = (Parts::new(), Parts::new());
        self.expr(scope, &mut asked, condition)?;
        self.count(scope, 1)?;
        self.block(scope, &mut taken, body)?;
        self.count(scope, 1)?;
        out.push(Part::While(asked, taken));
        Ok(())
    }

    fn for_stmt(
        &mut self,
        scope: &mut Scope<'_, 'a>,
        out: &mut Parts,
        name: Name<'a>,
        iterable: &Expr<'a>,
        body: &Block<'a>,
    ) -> Result<(), u8> {
        let mut before = Parts::new();
        self.expr(scope, &mut before, iterable)?;
        self.method(scope, &mut before, names::ITER, 0)?;
        let (keep, load) = self.iterator(scope)?;
        self.op(scope, &mut before, keep)?;
        let mut more = Parts::new();
        self.op(scope, &mut more, load)?;
        self.method(scope, &mut more, names::HAS_NEXT, 0)?;
        self.count(scope, 1)?;
        let mut next = Parts::new();
        self.op(scope, &mut next, load)?;
        self.method(scope, &mut next, names::NEXT, 0)?;
        self.store(scope, &mut next, name)?;
        let mut taken = Parts::new();
        self.block(scope, &mut taken, body)?;
        self.count(scope, 1)?;
        out.push(Part::For(ForParts {
            before,
            more,
            next,
            body: taken,
        }));
        Ok(())
    }

    /// The instructions that keep a loop's iterator and load it: by a slot of
    /// its own in a def or method, in main by the global that is named by the
    /// place of its store.
    fn iterator(&mut self, scope: &mut Scope) -> Result<(Instruction, Instruction), u8> {
        let (keep, load, at) = match &mut scope.iterator {
            Some(next) => {
                let slot = number(*next);
                *next += 1;
                (op::STORE_LOCAL, op::LOAD_LOCAL, slot)
            }
            None => {
                let symbol = self.intern(&names::iterator(scope.place))?;
                (op::STORE_GLOBAL, op::LOAD_GLOBAL, symbol)
            }
        };
        Ok((Instruction::wide(keep, at), Instruction::wide(load, at)))
    }

    fn method(
        &mut self,
        scope: &mut Scope,
        out: &mut Parts,
        name: &[u8],
        args: usize,
    ) -> Result<(), u8> {
        let symbol = self.intern(name)?;
        let call = Instruction::counted(op::CALL_METHOD, symbol, small(args));
        self.op(scope, out, call)
    }

    fn store(&mut self, scope: &mut Scope, out: &mut Parts, name: &[u8]) -> Result<(), u8> {
        let ins = match scope.slots.get(name) {
            Some(slot) => Instruction::wide(op::STORE_LOCAL, slot),
            None => Instruction::wide(op::STORE_GLOBAL, self.intern(name)?),
        };
        self.op(scope, out, ins)
    }

    fn load(&mut self, scope: &mut Scope, out: &mut Parts, name: &[u8]) -> Result<(), u8> {
        let ins = match scope.slots.get(name) {
            Some(slot) => Instruction::wide(op::LOAD_LOCAL, slot),
            None => Instruction::wide(op::LOAD_GLOBAL, self.intern(name)?),
        };
        self.op(scope, out, ins)
    }

    fn assign(
        &mut self,
        scope: &mut Scope<'_, 'a>,
        out: &mut Parts,
        target: &Expr<'a>,
        value: &Expr<'a>,
    ) -> Result<(), u8> {
        match target {
            Expr::Attribute(object, name) => {
                self.expr(scope, out, object)?;
                self.expr(scope, out, value)?;
                let symbol = self.intern(name)?;
                self.op(scope, out, Instruction::wide(op::STORE_ATTR, symbol))
            }
            Expr::Index(object, index) => {
                self.expr(scope, out, object)?;
                self.expr(scope, out, index)?;
                self.expr(scope, out, value)?;
                self.op(scope, out, Instruction::plain(op::STORE_INDEX))
            }
            _ => {
                self.expr(scope, out, value)?;
                self.unpack(scope, out, target)
            }
        }
    }

    /// Stores the value on the stack: a name, or a tuple from last to first.
    fn unpack(
        &mut self,
        scope: &mut Scope<'_, 'a>,
        out: &mut Parts,
        target: &Expr<'a>,
    ) -> Result<(), u8> {
        match target {
            Expr::Variable(name) => self.store(scope, out, name),
            Expr::Group(Group::Tuple, items) => {
                for (index, item) in items.iter().enumerate().rev() {
                    if index != 0 {
                        self.op(scope, out, Instruction::plain(op::DUP))?;
                    }
                    let place = (index as u64).to_be_bytes();
                    self.op(scope, out, Instruction::new(op::CONST_I64, &place))?;
                    self.op(scope, out, Instruction::plain(op::LOAD_INDEX))?;
                    self.unpack(scope, out, item)?;
                }
                Ok(())
            }
            _ => unreachable!("question 10 was asked"),
        }
    }

    fn exprs(
        &mut self,
        scope: &mut Scope<'_, 'a>,
        out: &mut Parts,
        exprs: &[Expr<'a>],
    ) -> Result<(), u8> {
        for expr in exprs {
            self.expr(scope, out, expr)?;
        }
        Ok(())
    }

    fn expr(
        &mut self,
        scope: &mut Scope<'_, 'a>,
        out: &mut Parts,
        expr: &Expr<'a>,
    ) -> Result<(), u8> {
        let last = match expr {
            Expr::None => Instruction::plain(op::NONE),
            Expr::False => Instruction::plain(op::FALSE),
            Expr::True => Instruction::plain(op::TRUE),
            Expr::Int(bits) => Instruction::new(op::CONST_I64, bits),
            Expr::Float(bits) => Instruction::new(op::CONST_F64, bits),
            Expr::String(bytes) => Instruction::long(op::CONST_STR, self.string(bytes)?),
            Expr::Variable(name) => return self.load(scope, out, name),
            Expr::Unary(operator, operand) => {
                self.expr(scope, out, operand)?;
                Instruction::plain(op::UNARY[usize::from(*operator)])
            }
            Expr::Binary(operator, left, right) => {
                return self.binary(scope, out, *operator, left, right);
            }
            Expr::Call(callee, args) => return self.call(scope, out, callee, args),
            Expr::Attribute(object, name) => {
                self.expr(scope, out, object)?;
                Instruction::wide(op::LOAD_ATTR, self.intern(name)?)
            }
            Expr::Group(group, items) => {
                self.exprs(scope, out, items)?;
                Instruction::wide(build(*group), number(items.len()))
            }
            Expr::Dict(entries) => {
                for (key, value) in entries {
                    self.expr(scope, out, key)?;
                    self.expr(scope, out, value)?;
                }
                Instruction::wide(op::BUILD_DICT, number(entries.len()))
            }
            Expr::Index(object, index) => {
                self.expr(scope, out, object)?;
                self.expr(scope, out, index)?;
                Instruction::plain(op::LOAD_INDEX)
            }
            Expr::Lambda(params, body) => return self.lambda(scope, out, params, body),
        };
        self.op(scope, out, last)
    }

    fn binary(
        &mut self,
        scope: &mut Scope<'_, 'a>,
        out: &mut Parts,
        operator: u8,
        left: &Expr<'a>,
        right: &Expr<'a>,
    ) -> Result<(), u8> {
        if let Some(opcode) = op::BINARY.get(usize::from(operator)) {
            self.expr(scope, out, left)?;
            self.expr(scope, out, right)?;
            return self.op(scope, out, Instruction::plain(*opcode));
        }
        // The short way gives False or True, not the operand.
        let (question, value) = match operator {
            12 => (op::JUMP_IF_FALSE, op::FALSE),
            _ => (op::JUMP_IF_TRUE, op::TRUE),
        };
        let mut short = ShortParts {
            left: Parts::new(),
            question,
            right: Parts::new(),
            value: Instruction::plain(value),
        };
        self.expr(scope, &mut short.left, left)?;
        self.count(scope, 1)?;
        self.expr(scope, &mut short.right, right)?;
        self.count(scope, 2)?;
        out.push(Part::Short(short));
        Ok(())
    }

    /// By name: built-in, class so far, first function so far, loaded value.
    /// Slots do not hide the first three.
    fn call(
        &mut self,
        scope: &mut Scope<'_, 'a>,
        out: &mut Parts,
        callee: &Expr<'a>,
        args: &[Expr<'a>],
    ) -> Result<(), u8> {
        let argc = small(args.len());
        if let Expr::Attribute(object, name) = callee {
            self.expr(scope, out, object)?;
            self.exprs(scope, out, args)?;
            return self.method(scope, out, name, args.len());
        }
        if let Expr::Variable(name) = callee {
            if let Some(id) = names::builtin(name) {
                self.exprs(scope, out, args)?;
                return self.op(scope, out, Instruction::new(op::CALL_BUILTIN, &[id, argc]));
            }
            if let Some(function) = self.function_named(name) {
                self.exprs(scope, out, args)?;
                return self.op(scope, out, Instruction::counted(op::CALL, function, argc));
            }
        }
        self.expr(scope, out, callee)?;
        self.exprs(scope, out, args)?;
        self.op(scope, out, Instruction::new(op::CALL_VALUE, &[argc]))
    }

    /// The first function so far with this name, unless a class has it.
    fn function_named(&self, name: &[u8]) -> Option<u16> {
        if self.class_names.contains(name) {
            return None;
        }
        self.first_function.get(name).copied()
    }

    fn lambda(
        &mut self,
        scope: &mut Scope<'_, 'a>,
        out: &mut Parts,
        params: &[Name<'a>],
        body: &Expr<'a>,
    ) -> Result<(), u8> {
        let captures = slots::captures(params, body, scope.slots);
        let slots = slots::of_lambda(params, &captures);
        let name = names::lambda(self.functions.len());
        let function = self.begin(&name, params.len(), slots.len())?;
        let inner = &mut Scope::new(&slots, None);
        let mut parts = Parts::new();
        self.expr(inner, &mut parts, body)?;
        self.op(inner, &mut parts, Instruction::plain(op::RETURN))?;
        self.functions[function].parts = parts;
        for name in &captures {
            self.load(scope, out, name)?;
        }
        let made = Instruction::counted(op::MAKE_CLOSURE, number(function), small(captures.len()));
        self.op(scope, out, made)
    }
}

fn build(group: Group) -> u8 {
    match group {
        Group::List => op::BUILD_LIST,
        Group::Tuple => op::BUILD_TUPLE,
        Group::Set => op::BUILD_SET,
        Group::TreeSet => op::BUILD_TREE_SET,
    }
}
