//! Random programs over small pools of names, so that slots, captures, calls,
//! classes, built-ins and made names meet each other often.

use crate::make::{self, Bytes};
use crate::rng::Rng;
use crate::texts;

const POOL: [&str; 37] = [
    "a",
    "b",
    "x",
    "y",
    "f",
    "g",
    "A",
    "B",
    "self",
    "m",
    "aa",
    "_",
    "a",
    "x",
    "f",
    "x",
    "a",
    "__iter__",
    "__has_next__",
    "__next__",
    "__for_iter___",
    "__for_iter_x__",
    "__for_iter_2___",
    "__for_iter_2_",
    "_for_iter_2__",
    "__for_iter_2x__",
    "__main__",
    "__init__",
    "print",
    "len",
    "range",
    "list",
    "dict",
    "set",
    "treeset",
    "assert",
    "map",
];

/// Names of loops' iterators; 51 digits make the longest.
const ITERATORS: [&str; 5] = [
    "__for_iter_2__",
    "__for_iter_0__",
    "__for_iter_4__",
    "__for_iter_00__",
    "__for_iter_000000000000000000000000000000000000000000000000000__",
];

/// A digit more, and it is too long for a name.
const LONG_ITERATOR: &str = "__for_iter_0000000000000000000000000000000000000000000000000000__";

/// A rule that a random tree may break: questions 7 to 12, 33 and 36.
#[derive(Clone, Copy, PartialEq, Eq)]
enum Fault {
    Name,
    Iterator,
    Text,
    Loop,
    Target,
    Empty,
    Params,
    Init,
}

const FAULTS: [Fault; 9] = [
    Fault::Name,
    Fault::Iterator,
    Fault::Iterator,
    Fault::Text,
    Fault::Loop,
    Fault::Target,
    Fault::Empty,
    Fault::Params,
    Fault::Init,
];

/// One random tree. Most are accepted; some break one rule or two on purpose.
pub fn tree(rng: &mut Rng) -> Bytes {
    // How many parts, and how many top statements at the most.
    let (size, most) = match rng.below(200) {
        0..20 => (4, 4),
        20..140 => (40, 12),
        140..180 => (150, 12),
        180..198 => (600, 20),
        _ => (6_000, 400),
    };
    // Few names for lambdas, so that they often hide each other's.
    let lambdas = rng.once_in(3);
    let names = 2 + rng.below(if lambdas { 3 } else { 9 });
    let pool = (0..names).map(|_| *rng.pick(&POOL)).collect();
    let faults = match rng.below(18) {
        0 | 1 => vec![*rng.pick(&FAULTS)],
        2 => vec![*rng.pick(&FAULTS), *rng.pick(&FAULTS)],
        _ => Vec::new(),
    };
    let mut maker = Maker {
        pool,
        size,
        deepest: if rng.once_in(12) {
            32
        } else {
            4 + rng.below(9)
        },
        faults,
        lambdas,
        rng,
    };
    let stmts = maker.block(1, false, most);
    make::tree(&stmts)
}

struct Maker<'r> {
    rng: &'r mut Rng,
    pool: Vec<&'static str>,
    /// How many parts may still be made; then only small ones follow.
    size: usize,
    deepest: usize,
    /// The rules that are broken now and then, if any.
    faults: Vec<Fault>,
    /// Whether expressions are mostly lambdas, and statements defs.
    lambdas: bool,
}

impl Maker<'_> {
    fn spoil(&mut self, fault: Fault) -> bool {
        self.faults.contains(&fault) && self.rng.once_in(6)
    }

    fn name(&mut self) -> &'static str {
        if self.spoil(Fault::Name) {
            return self.rng.pick::<&str>(&["", "1a", "a-b", "a b"]);
        }
        if self.spoil(Fault::Iterator) {
            let long = self.rng.once_in(60);
            let short = self.rng.pick::<&str>(&ITERATORS);
            return if long { LONG_ITERATOR } else { short };
        }
        let at = self.rng.below(self.pool.len());
        self.pool[at]
    }

    /// Distinct names, unless a rule is broken.
    fn params(&mut self) -> Vec<&'static str> {
        let mut params: Vec<&'static str> = Vec::new();
        for _ in 0..self.rng.below(4) {
            let name = self.name();
            if !params.contains(&name) || self.spoil(Fault::Params) {
                params.push(name);
            }
        }
        params
    }

    fn block(&mut self, depth: usize, in_loop: bool, most: usize) -> Vec<Bytes> {
        if depth > self.deepest {
            return Vec::new();
        }
        let count = self.rng.below(most + 1);
        (0..count).map(|_| self.stmt(depth, in_loop)).collect()
    }

    fn stmt(&mut self, depth: usize, in_loop: bool) -> Bytes {
        let small = self.size == 0 || depth + 1 >= self.deepest;
        self.size = self.size.saturating_sub(1);
        if depth >= 32 {
            return make::pass();
        }
        let inner = depth + 1;
        if self.lambdas && depth == 1 && !small && self.rng.once_in(2) {
            let (name, params) = (self.name(), self.params());
            return make::def(name, &params, &self.block(inner, false, 6));
        }
        match self.rng.below(if small { 7 } else { 20 }) {
            0 => make::pass(),
            1 if in_loop || self.spoil(Fault::Loop) => make::break_(),
            2 if in_loop || self.spoil(Fault::Loop) => make::continue_(),
            1 | 2 => make::expr(self.expr(inner)),
            3 => make::ret(self.expr(inner)),
            4 | 5 => {
                let target = self.target(inner);
                make::assign(target, self.expr(inner))
            }
            6 | 7 => make::expr(self.expr(inner)),
            8..=10 => self.if_stmt(inner, in_loop),
            11 | 12 => {
                let condition = self.expr(inner);
                make::while_(condition, &self.block(inner, true, 4))
            }
            13..=15 => {
                let (name, iterable) = (self.name(), self.expr(inner));
                make::for_(name, iterable, &self.block(inner, true, 4))
            }
            16..=18 => {
                let (name, params) = (self.name(), self.params());
                make::def(name, &params, &self.block(inner, false, 6))
            }
            _ => self.class(inner),
        }
    }

    fn if_stmt(&mut self, inner: usize, in_loop: bool) -> Bytes {
        let arms: Vec<_> = (0..1 + self.rng.below(3))
            .map(|_| (self.expr(inner), self.block(inner, in_loop, 3)))
            .collect();
        let otherwise = self.rng.once_in(2);
        let otherwise = otherwise.then(|| self.block(inner, in_loop, 3));
        make::if_(&arms, otherwise.as_deref())
    }

    fn class(&mut self, inner: usize) -> Bytes {
        let mut methods = Vec::new();
        for _ in 0..self.rng.below(4) {
            let name = if self.rng.once_in(4) {
                "__init__"
            } else {
                self.name()
            };
            let mut params = self.params();
            if name == "__init__" && params.is_empty() && !self.spoil(Fault::Init) {
                params.push("self");
            }
            methods.push(make::method(name, &params, &self.block(inner, false, 4)));
        }
        let attributes: Vec<_> = (0..self.rng.below(3))
            .map(|_| (self.name(), self.expr(inner)))
            .collect();
        make::class(self.name(), &methods, &attributes)
    }

    fn target(&mut self, depth: usize) -> Bytes {
        let deep = depth + 1 < self.deepest.min(32);
        match self.rng.below(8) {
            0 if deep => {
                let object = self.expr(depth + 1);
                make::attr(object, self.name())
            }
            1 if deep => {
                let object = self.expr(depth + 1);
                make::index(object, self.expr(depth + 1))
            }
            2 | 3 if deep => self.tuple_target(depth, 3),
            4 if self.spoil(Fault::Target) => self.expr(depth),
            _ => make::var(self.name()),
        }
    }

    fn plain_target(&mut self, depth: usize) -> Bytes {
        if self.spoil(Fault::Target) {
            return self.target(depth);
        }
        if depth + 1 < self.deepest.min(32) && self.rng.once_in(4) {
            return self.tuple_target(depth, 2);
        }
        make::var(self.name())
    }

    /// A tuple of one to so many targets; an empty one breaks a rule.
    fn tuple_target(&mut self, depth: usize, most: usize) -> Bytes {
        if self.spoil(Fault::Empty) {
            return make::tuple(&[]);
        }
        let count = 1 + self.rng.below(most);
        let items: Vec<_> = (0..count).map(|_| self.plain_target(depth + 1)).collect();
        make::tuple(&items)
    }

    fn leaf(&mut self) -> Bytes {
        // A string that is no good where there is one at all.
        let kinds = if self.faults.contains(&Fault::Text) {
            6
        } else {
            12
        };
        match self.rng.below(kinds) {
            0 => make::none(),
            1 => make::true_(),
            2 => make::false_(),
            3 => make::int(self.rng.number() as i64 >> self.rng.below(64)),
            4 => make::float(self.rng.number()),
            5 if self.spoil(Fault::Text) => make::string(&texts::damaged_text(self.rng)),
            5 if self.rng.once_in(2) => make::string(&texts::text(self.rng)),
            5 => {
                let text = *self.rng.pick(&["", "a", "x", "ab", "\u{7f}", "\0"]);
                make::string(text.as_bytes())
            }
            _ => make::var(self.name()),
        }
    }

    fn exprs(&mut self, depth: usize) -> Vec<Bytes> {
        let count = self.rng.below(4);
        (0..count).map(|_| self.expr(depth)).collect()
    }

    fn expr(&mut self, depth: usize) -> Bytes {
        let small = self.size == 0 || depth + 2 > self.deepest.min(32);
        self.size = self.size.saturating_sub(1);
        if small || self.rng.once_in(3) {
            return self.leaf();
        }
        let inner = depth + 1;
        if self.lambdas && self.rng.once_in(3) {
            let params = self.params();
            return make::lambda(&params, self.expr(inner));
        }
        match self.rng.below(15) {
            0 => make::unary(self.rng.below(3) as u8, self.expr(inner)),
            1 => {
                let operator = self.rng.below(14) as u8;
                make::binary(operator, self.expr(inner), self.expr(inner))
            }
            2 => make::binary(make::AND, self.expr(inner), self.expr(inner)),
            3 => make::binary(make::OR, self.expr(inner), self.expr(inner)),
            4..=6 => make::call(make::var(self.name()), &self.exprs(inner)),
            7 if inner < 32 => {
                let object = self.expr(inner + 1);
                let callee = make::attr(object, self.name());
                make::call(callee, &self.exprs(inner))
            }
            7 | 8 => make::call(self.expr(inner), &self.exprs(inner)),
            9 => {
                let object = self.expr(inner);
                make::attr(object, self.name())
            }
            10 => self.group(inner),
            11 => {
                let pair = |maker: &mut Self| (maker.expr(inner), maker.expr(inner));
                let count = self.rng.below(3);
                let pairs: Vec<_> = (0..count).map(|_| pair(self)).collect();
                make::dict(&pairs)
            }
            12 => make::index(self.expr(inner), self.expr(inner)),
            _ => {
                let params = self.params();
                make::lambda(&params, self.expr(inner))
            }
        }
    }

    fn group(&mut self, inner: usize) -> Bytes {
        let items = self.exprs(inner);
        match self.rng.below(4) {
            0 => make::list(&items),
            1 => make::tuple(&items),
            2 => make::set(&items),
            _ => make::tree_set(&items),
        }
    }
}
