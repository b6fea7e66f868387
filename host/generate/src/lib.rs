//! A deterministic generator of images, of discs, of area tables, of texts, of mappings and of questions about
//! them: the same seed gives the same cases everywhere. `plain` walks over a table by the document,
//! `endings` says how strings end, and `tape` gathers an image.

pub mod disc;
pub mod endings;
pub mod header;
pub mod image;
pub mod layout;
pub mod mapping;
pub mod noise;
pub mod plain;
pub mod question;
mod rng;
pub mod table;
pub mod tape;
pub mod text;

pub use rng::Rng;

#[cfg(test)]
mod tests;
