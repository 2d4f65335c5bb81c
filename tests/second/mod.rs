//! The machine of document 01 once more, written from the paper's sentences alone.
//!
//! Every public call tests everything itself, in the paper's order: the map and the grid, then 9, 13, 14 and 10 as far as each applies.

#![allow(dead_code)]

pub mod events;
mod instructions;
pub mod map;
pub mod sheet;
pub mod state;
pub mod text;
pub mod wrong;

/// A refusal's number in the paper's table, 1 to 14.
pub type Number = u8;

/// "It returns the number and the offset of that record's kind byte."
#[derive(Clone, Copy, Debug, PartialEq, Eq)]
pub struct Broken {
    pub number: Number,
    pub offset: usize,
}
