//! A second writing of the specification's register, join, board, map, session, preview, values and monthly numbers, in plain Rust, to compare with. It was made from
//! the text of the specification. The decision on a board is the Rust's own (`standing::decide`), by way of the
//! oracle.

pub mod board;
pub mod cases;
pub mod join;
pub mod map;
pub mod monthly;
pub mod register;
pub mod session;
pub mod values;

#[cfg(test)]
mod tests;
