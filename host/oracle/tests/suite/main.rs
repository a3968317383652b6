//! Tests against the paper.

mod anywhere;
mod arrows;
mod barge;
mod blank;
mod book_list;
mod bound;
mod common;
mod floors;
mod full;
mod garbage;
mod hopper_images;
mod hoppers;
mod image;
mod layout_images;
mod layouts;
mod lists;
mod naive;
mod page;
mod plans;
mod reasons;
mod refusals;
mod rounds;
mod throughput;
mod trials;
