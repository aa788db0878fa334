//! The command `rulketoos`, run as a person would.

mod calls;
mod files;
mod person;
mod places;
