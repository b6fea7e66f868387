//! Strings over a mapping: of what it has and has not, in any order.

use super::{Entry, Mapping, RESERVED};
use crate::Rng;
use crate::text::MOST;

/// Mostly of a few bytes; now and then of as many as a stored string has, or of a few more.
pub fn any_string(rng: &mut Rng, mapping: &Mapping) -> Vec<u8> {
    let length = match rng.below(128) {
        0 => MOST,
        1 => 1 + rng.below(MOST + 20),
        2..=40 => 1 + rng.below(3),
        _ => 1 + rng.below(40),
    };
    let mut string = vec![];
    while string.len() < length {
        put_any(rng, mapping, &mut string);
    }
    string.truncate(length);
    if let Some([first, _]) = any_pair(rng, &mapping.pairs).filter(|_| rng.below(4) == 0) {
        string.push(first);
    }
    string
}

/// A single or a pair that the mapping has, the first byte of one, a reserved pair, or any byte.
fn put_any(rng: &mut Rng, mapping: &Mapping, string: &mut Vec<u8>) {
    let single = any_pair(rng, &mapping.singles).map(|[_, byte]| byte);
    let pair = any_pair(rng, &mapping.pairs);
    match (rng.below(16), single, pair) {
        (0..=4, _, Some(pair)) => string.extend(pair),
        (5, _, Some([first, _])) => string.push(first),
        (6, _, Some([_, second])) => string.push(second),
        (7..=9, Some(byte), _) => string.push(byte),
        (10 | 11, ..) => string.extend(bytes(rng.pick(&RESERVED))),
        (12, ..) => string.push(b' ' + rng.below(0x5f) as u8),
        _ => string.push(rng.byte()),
    }
}

/// The two bytes of any key; none of no entries.
fn any_pair(rng: &mut Rng, entries: &[Entry]) -> Option<[u8; 2]> {
    let at = rng.below(entries.len().max(1));
    entries.get(at).map(|&(key, _)| bytes(key))
}

fn bytes(key: u32) -> [u8; 2] {
    (key as u16).to_be_bytes()
}
