//! Drawings and figures: what is stored, byte for byte, and what holds of each.

mod draw;
mod figures;
mod floors;
mod stored;
mod xml;
