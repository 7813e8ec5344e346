//! Stands for `src/dms/mod.rs` of the repository: declares the carried modules
//! and the names that they take from here, and nothing more.
#![allow(dead_code)]

pub mod config;
pub mod font;
pub mod graphic;
pub mod multi;
mod oer;
pub mod render;
pub mod sign;

pub use font::FontError;
pub use graphic::GraphicError;
