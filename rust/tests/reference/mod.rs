//! A reference of every entry point, written from the definitions and the layout alone, by value and slowly: what each call returns, and
//! what it leaves in everything that it is lent. The tests hold the library to it.
#![allow(dead_code, clippy::too_many_arguments)]

mod clock;
mod commands;
pub mod image;
mod lists;
mod lookups;
mod readings;
mod steps;

pub use commands::*;
pub use image::is_image;
pub use lists::{windows_section, zones_section, Window, Zone};
pub use readings::*;
pub use steps::*;
