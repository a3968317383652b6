//! What is said in more than one place says the same: the header, the binding,
//! the proved crates.

mod header;
mod layout;
mod refusals;
