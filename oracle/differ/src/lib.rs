//! What another run over lists uses too: their bytes, and how they are drawn.
#![forbid(unsafe_code)]

pub mod bytes;
pub mod draw;
