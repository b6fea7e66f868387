//! Presents what the library reads of an SACD image: the dump, the JSON, the listing, and lines about
//! every sector; and writes what it gathers and scatters to a new file. Every value comes from a call of
//! the library; presentation and files alone are here.

#![deny(unsafe_code)]

pub mod arguments;
pub mod commands;
pub mod dump;
pub mod fields;
pub mod json;
pub mod listing;
#[allow(unsafe_code)]
pub mod map;
pub mod mapping;
pub mod reading;
pub mod report;
pub mod sample;
pub mod sectors;
#[allow(unsafe_code)]
pub mod signals;
pub mod tape;
