//! The two small modules that the published source leans on and that are not
//! published: spanned values, and two makers of values that no lowering calls.

/// A spanned value is a pair of the value and a range.
pub mod types {
    pub type Span = std::ops::Range<usize>;
    pub type Spanned<T> = (T, Span);
}

/// Named by the type table; never called by the compiler.
pub mod utils {
    pub fn make_list() {}
    pub fn make_string() {}
}
