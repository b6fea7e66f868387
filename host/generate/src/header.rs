//! Sector headers (ECMA-267): four bytes of ID, two of IED.
//!
//! The bytes are coefficients, the first one the highest, in the field of 256 elements of
//! x^8 + x^4 + x^3 + x^2 + 1, whose α is 2.

use crate::Rng;
use std::iter;

pub type Header = [u8; 6];

const ALPHA: u8 = 2;

/// The product of two elements, by shifting and adding.
pub fn times(a: u8, b: u8) -> u8 {
    let mut sum = 0;
    let mut shifted = a;
    for bit in 0..8 {
        if b >> bit & 1 == 1 {
            sum ^= shifted;
        }
        let carry = shifted >> 7;
        shifted = (shifted << 1) ^ (carry * 0x1d);
    }
    sum
}

/// The two lowest coefficients that are left of a header when it is divided by
/// (x + 1)(x + α) = x^2 + (1 + α)x + α.
pub fn remainder(header: Header) -> [u8; 2] {
    let mut rest = header;
    for high in 0..4 {
        let factor = rest[high];
        rest[high] ^= factor;
        rest[high + 1] ^= times(factor, 1 ^ ALPHA);
        rest[high + 2] ^= times(factor, ALPHA);
    }
    [rest[4], rest[5]]
}

/// Whether a header is a multiple of the polynomial, as six zeros are too.
pub fn is_multiple(header: Header) -> bool {
    remainder(header) == [0, 0]
}

/// What an audit must answer, by its number.
#[derive(Clone, Copy, Debug, PartialEq, Eq)]
pub enum Verdict {
    Sound = 1,
    Blank = 2,
    Unsound = 3,
}

/// Six zeros are blank; any other multiple is sound, and all else is unsound.
pub fn verdict(header: Header) -> Verdict {
    if header == [0; 6] {
        Verdict::Blank
    } else if is_multiple(header) {
        Verdict::Sound
    } else {
        Verdict::Unsound
    }
}

/// What mending must answer, by search: of a header and all that differ from it in one byte, the one that
/// is a multiple; nothing if none is. That there are never two is asserted.
pub fn mended(header: Header) -> Option<Header> {
    let near = iter::once(header).chain(single_changes(header));
    let mut multiples = near.filter(|&near| is_multiple(near));
    let found = multiples.next();
    assert_eq!(multiples.next(), None, "another multiple next to {header:?}");
    found
}

/// The header of an ID that is a multiple: its IED is the remainder of the ID with two zero bytes behind.
pub fn correct(id: [u8; 4]) -> Header {
    let [a, b, c, d] = id;
    let [e, f] = remainder([a, b, c, d, 0, 0]);
    [a, b, c, d, e, f]
}

/// A header that differs from the given one in one or two bytes.
pub fn damaged(rng: &mut Rng, header: Header) -> Header {
    let mut changed = header;
    let first = rng.below(6);
    changed[first] ^= rng.nonzero();
    if rng.below(2) == 0 {
        changed[(first + 1 + rng.below(5)) % 6] ^= rng.nonzero();
    }
    changed
}

/// A header that differs from the given one in exactly two bytes.
pub fn double_change(rng: &mut Rng, header: Header) -> Header {
    let (place, distance) = (rng.below(6), 1 + rng.below(5));
    let mut changed = header;
    for at in [place, (place + distance) % 6] {
        changed[at] ^= rng.nonzero();
    }
    changed
}

/// Every header that differs from the given one in exactly one byte.
pub fn single_changes(header: Header) -> impl Iterator<Item = Header> {
    (0..6).flat_map(move |at| {
        (1..=255).map(move |change| {
            let mut changed = header;
            changed[at] ^= change;
            changed
        })
    })
}

/// The polynomial (x + 1)(x + α) times each nonzero element, at each place of a header.
pub fn products() -> impl Iterator<Item = Header> {
    (0..4).flat_map(|at| {
        (1..=255).map(move |factor| {
            let mut header = [0; 6];
            header[at..at + 3].copy_from_slice(&[
                factor,
                times(factor, 1 ^ ALPHA),
                times(factor, ALPHA),
            ]);
            header
        })
    })
}

/// The ID of a sector at an address, or any four bytes.
pub fn any_id(rng: &mut Rng, lsn: usize) -> [u8; 4] {
    match rng.below(2) {
        0 => (0x03_0000 + lsn as u32).to_be_bytes(),
        _ => (rng.word() as u32).to_be_bytes(),
    }
}
