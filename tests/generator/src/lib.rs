//! Trees, modules, answers and damaged copies for the tests.

pub mod cuts;
pub mod damage;
pub mod heights;
pub mod limits;
pub mod listings;
pub mod make;
pub mod modules;
pub mod orders;
pub mod random;
pub mod reaches;
pub mod rng;
pub mod runs;
pub mod samples;
pub mod slow;
pub mod text;
pub mod texts;
pub mod vectors;

pub use make::Bytes;
pub use rng::Rng;
