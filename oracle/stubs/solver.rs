//! The root of the solver crate: whole files and cut ranges of the Rust stand beside it in the build folder.
#![allow(dead_code, unused_imports)]

pub mod geo;
pub mod linalg;
pub mod modes;
pub mod publish;
pub mod standing;
