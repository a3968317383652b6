//! The program `ceromby`: calls as lines of text, from a file, a pipe or a
//! terminal, made by the proved library through its safe binding.
//!
//! A line becomes a [`line::Command`] or says why it can't be read;
//! [`obey::Tool`] carries commands out on a [`backend::Backend`] and tells an
//! [`output::Output`] what they gave; [`run`] does so for every line of an input.
//! [`draw`] makes pictures of floors, [`figures`] document 000's Figures 7, 8 and 9.

#![deny(unsafe_code)]
#![warn(missing_docs)]

pub mod backend;
pub mod denied;
pub mod draw;
pub mod figures;
pub mod files;
pub mod forms;
pub mod help;
pub mod input;
mod interrupt;
pub mod json;
pub mod kept;
pub mod line;
mod markup;
pub mod obey;
pub mod options;
pub mod output;
pub mod past;
pub mod paths;
mod pictures;
mod plot;
pub mod replay;
pub mod rounds;
pub mod run;
pub mod say;
pub mod show;
pub mod status;
pub mod subcommands;
pub mod terminal;
mod trial;
pub mod why;
pub mod words;
