//! Strings of 4,096 bytes: decoded into a lent page, and found in their table.

use crate::clock::Row;
use crate::{PLACES, room};
use generate::Rng;
use oracle::text::Charset;
use std::hint::black_box;

const BYTES: usize = 4096;

/// A table that begins with a string, and a page with room for the string's text.
struct Text {
    table: &'static [u8],
    page: &'static mut [u8],
}

/// No control: for those the Rust copies a text once more.
pub fn ascii(rng: &mut Rng) -> u8 {
    0x20 + rng.below(0x60) as u8
}

fn high(rng: &mut Rng) -> u8 {
    0xa0 + rng.below(0x60) as u8
}

/// One high byte in eight.
pub fn mixed(rng: &mut Rng) -> u8 {
    match rng.below(8) {
        0 => high(rng),
        _ => ascii(rng),
    }
}

/// The page begins 2,048 bytes from where the table does in a page of memory. Library and Rust
/// must decode the same text.
fn text(letter: fn(&mut Rng) -> u8) -> Text {
    let mut rng = Rng::new(1);
    let table = room(BYTES + 1, 0);
    table[..BYTES].fill_with(|| letter(&mut rng));
    let page = room(2 * BYTES, 2048);
    let len = scarletbook::raw::decode(&table[..BYTES], 0, &[], page).len;
    let rust = oracle::text::decode_string(&table[..BYTES], Charset::Latin1);
    assert_eq!(rust.as_deref().map(str::as_bytes), Some(&page[..len]));
    Text { table, page }
}

/// The same text in several places.
fn texts(letter: fn(&mut Rng) -> u8) -> Vec<Text> {
    std::iter::repeat_with(|| text(letter)).take(PLACES).collect()
}

fn decode(text: &mut Text) {
    let bytes = &black_box(text.table)[..BYTES];
    black_box(scarletbook::raw::decode(bytes, black_box(0), &[], black_box(&mut *text.page)));
}

fn decode_string(text: &mut Text) {
    let bytes = &black_box(text.table)[..BYTES];
    black_box(oracle::text::decode_string(bytes, black_box(Charset::Latin1)));
}

fn string_bytes(text: &mut Text) {
    black_box(scarletbook::raw::string_bytes(black_box(text.table), black_box(0)));
}

fn rust_string_bytes(text: &mut Text) {
    black_box(oracle::text::string_bytes(black_box(text.table), black_box(0)));
}

fn row(what: &str, target: Option<f64>) -> Row {
    Row { what: what.to_string(), bytes: BYTES, target }
}

pub fn decoding() {
    row("decode, ASCII, decode_string", Some(1.0)).print(&mut texts(ascii), decode, decode_string);
    row("decode, high, decode_string", Some(1.0)).print(&mut texts(high), decode, decode_string);
    row("decode, mixed, decode_string", None).print(&mut texts(mixed), decode, decode_string);
}

pub fn strings() {
    row("string_bytes, string_bytes", None).print(
        &mut texts(ascii),
        string_bytes,
        rust_string_bytes,
    );
}
