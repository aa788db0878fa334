//! Rulketoos: trees of pyhyeon scripts lowered to stack code, modules read and listed, functions run. The work is done by the static library of the
//! repository, whose functions are proved to meet their contracts; this crate lends them safe Rust names and types.
//!
//! A tree record goes in, a module record comes out (docs/FORMAT.md has both byte by byte), or a [`Refusal`] that names the first question
//! answered no:
//!
//! ```
//! use rulketoos::Limits;
//!
//! // `a = None`
//! let tree = [0, 0, 0, 8, 1, 0, 1, 5, 6, 1, b'a', 0];
//! let module = rulketoos::lower_to_vec(&tree, Limits::Office)?;
//! rulketoos::read(&module)?;
//! // None, StoreGlobal 1, Return
//! assert_eq!(rulketoos::code(&module, 0)?, [5, 12, 0, 1, 33]);
//! # Ok::<(), rulketoos::Refusal>(())
//! ```
//!
//! [`Limits`] says how large a module may be. [`lower`] does the same without allocating, in buffers of the caller;
//! [`lower_measured`] does so too, and writes every jump as it stays; [`check`] asks a tree's own questions only;
//! [`run`] runs a function of a module on yes and no answers; [`list`] writes the listing of a module's code,
//! [`count_sheet`] its count sheet; [`reach`] gives answers that bring a run to a place; [`height`] gives the stack
//! that a function needs, and [`heights`] checks that of modules from elsewhere; [`order`] tells which of two trees
//! comes first; [`cut`] cuts a refused tree down to what is refused in it.
//!
//! No call keeps anything, and none shares anything with another, so calls may be made from several threads. They work on their thread's stack; the
//! usual 2 MB are enough (the run takes the most, about 600 KB).

#![deny(missing_docs)]
#![deny(clippy::undocumented_unsafe_blocks)]

mod cut;
mod heights;
mod library;
mod modules;
mod order;
mod reach;
mod refusal;
mod texts;
mod trees;

pub use cut::{cut, cut_to_vec};
pub use heights::{height, heights, heights_of, HEIGHTS_AREA};
pub use modules::{code, read, run, Ending, Run};
pub use order::order;
pub use reach::{reach, reach_to_vec, REACH_AREA};
pub use refusal::{NoSuchQuestion, Refusal};
pub use texts::{count_sheet, count_sheet_to_string, list, list_to_string};
pub use trees::{check, lower, lower_measured, lower_to_vec, Areas, Limits, AREA, MODULE_ROOM};
