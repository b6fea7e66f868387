//! Images: lengths around every boundary, and four kinds of contents.

use crate::Rng;
use crate::header;
use crate::layout::{DATA, Layout, any_format, layout};

/// What the bytes of an image are.
#[derive(Clone, Copy, Debug, PartialEq, Eq)]
pub enum Contents {
    /// Any bytes.
    Random,
    /// Bytes that follow from their place alone.
    Patterned,
    /// Zeros with a few other bytes.
    Sparse,
    /// Zeros.
    Blank,
}

pub const CONTENTS: [Contents; 4] =
    [Contents::Random, Contents::Patterned, Contents::Sparse, Contents::Blank];

#[derive(Clone, Debug, PartialEq, Eq)]
pub struct Image {
    pub format: u32,
    pub contents: Contents,
    pub bytes: Vec<u8>,
}

impl Image {
    /// The whole sectors; 0 for a foreign format.
    pub fn sectors(&self) -> usize {
        layout(self.format).map_or(0, |layout| self.bytes.len() / layout.stored)
    }
}

/// An image of any format. One of a foreign format has the bytes of some other.
pub fn any_image(rng: &mut Rng) -> Image {
    let format = any_format(rng);
    let stored_as = layout(format).map_or(format % 3, |_| format);
    let form = layout(stored_as).expect("0, 1 and 2 are formats");
    let contents = rng.pick(&CONTENTS);
    let mut bytes = vec![0; any_length(rng, form)];
    fill(rng, contents, &mut bytes);
    if stored_as == 2 {
        put_headers(rng, form, &mut bytes);
    }
    Image { format, contents, bytes }
}

/// A length at, or next to, the start of a sector, of its data, or the end of its data, or
/// anywhere in it.
pub fn any_length(rng: &mut Rng, form: Layout) -> usize {
    let sector = any_sector_count(rng) * form.stored;
    let inside = rng.below(form.stored);
    let edge = sector + rng.pick(&[0, 0, form.data_at, form.data_at + DATA, inside]);
    match rng.below(3) {
        0 => edge.saturating_sub(1),
        1 => edge,
        _ => edge + 1,
    }
}

/// Mostly a few sectors; now and then more than two of the Rust's chunks of 64.
fn any_sector_count(rng: &mut Rng) -> usize {
    match rng.below(20) {
        0 => 0,
        1..=12 => 1 + rng.below(4),
        13..=17 => rng.below(20),
        _ => 60 + rng.below(81),
    }
}

fn fill(rng: &mut Rng, contents: Contents, bytes: &mut [u8]) {
    match contents {
        Contents::Random => rng.fill(bytes),
        Contents::Patterned => pattern(rng.word() as usize, bytes),
        Contents::Sparse => scatter(rng, bytes),
        Contents::Blank => bytes.fill(0),
    }
}

/// Bytes that follow from their place alone.
pub fn pattern(salt: usize, bytes: &mut [u8]) {
    for (at, byte) in bytes.iter_mut().enumerate() {
        *byte = ((at.wrapping_add(salt) as u64).wrapping_mul(0x9e37_79b9_7f4a_7c15) >> 56) as u8;
    }
}

fn scatter(rng: &mut Rng, bytes: &mut [u8]) {
    for _ in 0..rng.below(12).min(bytes.len()) {
        let at = rng.below(bytes.len());
        bytes[at] = rng.nonzero();
    }
}

/// Gives half of the whole sectors a correct header, a quarter a damaged one.
fn put_headers(rng: &mut Rng, form: Layout, bytes: &mut [u8]) {
    for (lsn, sector) in bytes.chunks_exact_mut(form.stored).enumerate() {
        let correct = header::correct(header::any_id(rng, lsn));
        match rng.below(4) {
            0 | 1 => sector[..6].copy_from_slice(&correct),
            2 => sector[..6].copy_from_slice(&header::damaged(rng, correct)),
            _ => {}
        }
    }
}
