//! The customer's Rust, unchanged: what `oracle/copy` puts into `rust/`. Nothing that ships
//! depends on this crate.

mod control;
pub mod disc;
pub mod lent;
pub mod lone;
pub mod mounts;
mod read_at;

#[path = "../rust/src/error.rs"]
#[rustfmt::skip]
#[allow(dead_code, clippy::all)]
pub mod error;
#[path = "../rust/src/image.rs"]
#[rustfmt::skip]
#[allow(dead_code, clippy::all)]
pub mod image;
#[path = "../rust/src/log.rs"]
#[rustfmt::skip]
#[allow(dead_code, clippy::all)]
pub mod log;
// In front of text.rs, whose mappings this crate's callers lend at run time.
macro_rules! include_str {
    ($path:literal) => {
        crate::lent::text(0, $path)
    };
}
#[path = "../rust/src/text.rs"]
#[rustfmt::skip]
#[allow(dead_code, clippy::all)]
pub mod text;
#[path = "../rust/src/toc.rs"]
#[rustfmt::skip]
#[allow(dead_code, clippy::all)]
pub mod toc;

mod seek {
    use crate::image::SECTOR_SIZE;
    include!("../rust/src/digest.rs");
}

/// `digest` of seek.rs.
#[inline]
pub fn digest(sector: &[u8; image::SECTOR_SIZE]) -> u64 {
    seek::digest(sector)
}
