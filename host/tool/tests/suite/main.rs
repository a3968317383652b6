//! The program `ceromby` as its users meet it: what they type, in a file, a pipe
//! or at a terminal, and what they get.

mod common;
mod endings;
mod explained;
mod files;
mod json;
mod lines;
mod lists;
mod obeyed;
mod options;
mod pictures;
mod questions;
mod replay;
mod sample;
mod store;
mod terminal;
