//! The plain walk over a table, and by it the texts of records: their places and how they ended.

pub use generate::plain::*;

use generate::endings::end_at;
use scarletbook::raw::{TRACK_TEXTS, TextPlace};

/// The last nonempty item of each known type.
pub fn places(table: &[u8], items: &[Item]) -> [TextPlace; TRACK_TEXTS] {
    last_nonempty(items)
        .map(|item| item.map_or(TextPlace::default(), |item| present(table, item.place)))
}

fn present(table: &[u8], place: usize) -> TextPlace {
    TextPlace { place: place as u32, end: end_at(table, place) }
}

/// The text at an offset: none is at 0, and none if the string there is empty.
fn at_offset(table: &[u8], offset: usize) -> TextPlace {
    let absent = offset == 0 || string_at(table, offset).is_empty();
    if absent { TextPlace::default() } else { present(table, offset) }
}

pub fn area_text(table: &[u8], item: usize) -> TextPlace {
    at_offset(table, number16(table, 144 + 2 * item))
}

/// A disc's text in the sector of texts, if that is one.
pub fn disc_text(sector: &[u8], item: usize) -> TextPlace {
    let signed = sector.starts_with(b"SACDText");
    let offset = if signed { number16(sector, 16 + 2 * item) } else { 0 };
    at_offset(sector, offset)
}
