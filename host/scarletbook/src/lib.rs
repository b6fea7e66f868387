//! Reads the tables of contents of SACD images, by a library that is proved: every answer equals a
//! written definition, for every input. This crate is safe Rust over its C interface.
//!
//! ```
//! # mod small_disc { include!(concat!(env!("CARGO_MANIFEST_DIR"), "/examples/small_disc.rs")); }
//! # let image = small_disc::plain();
//! use scarletbook::{Disc, SectorFormat, TrackTextItem};
//!
//! // The bytes of an image file, read or mapped, are in `image`.
//! let disc = Disc::read(SectorFormat::detect(&image)?, &image)?;
//! for area in disc.areas() {
//!     for track in area.tracks() {
//!         match track.text(TrackTextItem::Title) {
//!             Ok(title) => println!("{}.{} {}", area.slot(), track.number, title.unwrap_or_default()),
//!             Err(refusal) => println!("{}.{} ({refusal})", area.slot(), track.number),
//!         }
//!     }
//! }
//! for warning in disc.warnings() {
//!     eprintln!("{warning}");
//! }
//! # Ok::<(), scarletbook::Refusal>(())
//! ```
//!
//! Every call takes any bytes and any numbers, and always returns. What it refuses is a [`Refusal`],
//! with a number and a word. Texts of the character sets 3 to 6 are decoded by [`Mappings`] that are lent
//! to the disc. [`raw`] has the exported functions themselves, over slices.

#![deny(unsafe_code)]

mod area;
#[allow(unsafe_code)]
mod calls;
mod disc;
mod end;
mod item;
mod mapping;
pub mod record;
mod refusal;
mod sector;
mod table;
mod tape;
mod warning;

pub use area::{Area, Track};
pub use disc::{Disc, Memory};
pub use end::TextEnd;
pub use item::{AreaTextItem, DiscTextItem, TrackTextItem};
pub use mapping::Mappings;
pub use refusal::{Refusal, Refused};
pub use sector::{Header, SectorFormat, audit, digest, fingerprint, mend};
pub use table::{Items, Table, TextItem};
pub use tape::{gather, scatter};
pub use warning::{Warning, WarningCode};

/// The exported functions of the library over slices, with its records: each takes any slices and
/// any numbers, and always returns. A refusal is a number, 0 for none; a format is a number too, so
/// that foreign ones can be asked for.
pub mod raw {
    pub use crate::calls::*;
    pub use crate::record::*;
}
