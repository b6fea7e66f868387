//! Texts of set 3 by a mapping of 7,000 and of 24,000 pairs: decoded beside the Rust, which has parsed the same
//! mapping before; and the check of the mapping that is in each decoding, by itself.

use crate::clock::{Row, best, time};
use crate::text::ascii;
use crate::{PLACES, room};
use generate::Rng;
use oracle::{lent, mounts};
use scarletbook::raw::{PAGE_BYTES, decode};
use std::fmt::Write;
use std::hint::black_box;

const SET: u8 = 3;
/// A mapping has so many pairs, and the Rust has it in this mount.
const MAPPINGS: [(usize, usize); 2] = [(7000, 1), (24_000, 2)];
/// The nanoseconds for a word of a mapping that are wanted at most.
const WORD_NS: f64 = 0.25;

/// A mapping of ASCII and so many pairs from 8140 on, as words and as data text.
fn mapping(pairs: usize) -> (Vec<u32>, String) {
    let keys =
        (0x81..=0xff).flat_map(|first| (0x40..=0xfc).map(move |second| 256 * first + second));
    let pairs: Vec<_> = keys.zip(0x4e00..).take(pairs).collect();
    let mut words = vec![128];
    let mut text = String::new();
    for byte in 0..128 {
        words.extend([byte, byte]);
        writeln!(text, "{byte:02X}\tU+{byte:04X}").expect("a String takes all");
    }
    words.push(pairs.len() as u32);
    for (key, point) in pairs {
        words.extend([key, point]);
        writeln!(text, "{key:04X}\tU+{point:04X}").expect("a String takes all");
    }
    words.push(0);
    (words, text)
}

/// Bytes of set 3, the mapping, the mount in which the Rust has it, and a page for every text.
struct Text {
    bytes: &'static [u8],
    words: &'static [u32],
    mount: usize,
    page: &'static mut [u8],
}

/// The same text in several places. Library and Rust must decode the same.
fn places(bytes: &[u8], words: &[u32], mount: usize) -> Vec<Text> {
    let text = || {
        let copy = room(bytes.len(), 0);
        copy.copy_from_slice(bytes);
        let page = room(PAGE_BYTES, 2048);
        let len = decode(copy, SET, words, page).len;
        let rust = mounts::decode_string(mount, copy, SET);
        assert_eq!(rust.as_deref().map(str::as_bytes), Some(&page[..len]));
        Text { bytes: copy, words: words.to_vec().leak(), mount, page }
    };
    std::iter::repeat_with(text).take(PLACES).collect()
}

fn library(text: &mut Text) {
    let (bytes, words) = (black_box(text.bytes), black_box(text.words));
    black_box(decode(bytes, black_box(SET), words, black_box(&mut *text.page)));
}

/// The check, and a byte decoded.
fn check(text: &mut Text) {
    let (byte, words) = (&black_box(text.bytes)[..1], black_box(text.words));
    black_box(decode(byte, black_box(SET), words, black_box(&mut *text.page)));
}

fn rust(text: &mut Text) {
    black_box(mounts::decode_string(text.mount, black_box(text.bytes), black_box(SET)));
}

/// The line of a text, and one of the same text less the time of the check.
fn decoding(what: &str, bytes: &[u8], words: &[u32], mount: usize) {
    let mut places = places(bytes, words, mount);
    let [check, ours, theirs] = best(
        &mut places,
        [
            &|calls, text| time(calls, text, check),
            &|calls, text| time(calls, text, library),
            &|calls, text| time(calls, text, rust),
        ],
    );
    let row = |what: String| Row { what, bytes: bytes.len(), target: None };
    row(format!("{what}, decode_string")).print_times(ours, theirs);
    row(format!("{what}, less check")).print_times(ours - check, theirs);
}

/// The line of the check: its words, its time, and the nanoseconds of a word.
fn checking(pairs: usize, words: &[u32], mount: usize) {
    let mut places = places(b"a", words, mount);
    let [ns] = best(&mut places, [&|calls, text| time(calls, text, check)]);
    let (what, count) = (format!("check, {pairs} pairs, words, ns each"), words.len());
    let each = ns / count as f64;
    println!("{what:<34}{count:>8}{ns:>13.0}{:>11}{each:>8.2}{:>8}", "", format!("<= {WORD_NS}"));
}

/// So many random pairs of a mapping.
fn some_pairs(count: usize, words: &[u32]) -> Vec<u8> {
    let mut rng = Rng::new(1);
    let pairs = &words[1 + 2 * 128 + 1..words.len() - 1];
    let pair = || (pairs[2 * rng.below(pairs.len() / 2)] as u16).to_be_bytes();
    std::iter::repeat_with(pair).take(count).flatten().collect()
}

fn some_ascii(count: usize) -> Vec<u8> {
    let mut rng = Rng::new(1);
    std::iter::repeat_with(|| ascii(&mut rng)).take(count).collect()
}

pub fn texts() {
    for (pairs, mount) in MAPPINGS {
        let (words, text) = mapping(pairs);
        lent::lend(mount, SET, text);
        checking(pairs, &words, mount);
        for count in [20, 2048] {
            let what = format!("{count} of {pairs} pairs");
            decoding(&what, &some_pairs(count, &words), &words, mount);
        }
        for count in [40, 4096] {
            let what = format!("ASCII, {pairs} pairs");
            decoding(&what, &some_ascii(count), &words, mount);
        }
    }
}
