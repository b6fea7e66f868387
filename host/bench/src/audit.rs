//! The audit of headers beside a plain one, by doubling.

use crate::clock::Row;
use crate::{PLACES, room};
use generate::Rng;
use generate::header::{Header, Verdict, correct, damaged};
use std::hint::black_box;

const STORED: usize = 2064;
pub const HEADERS: usize = 4096;
/// One header in so many is damaged, and the next one blank.
const RARE: usize = 64;

/// An image of format 2, with what is made of correct headers, which are all different.
pub fn image_of(header: impl Fn(&mut Rng, usize, Header) -> Header) -> &'static [u8] {
    let mut rng = Rng::new(1);
    let image = room(HEADERS * STORED, 0);
    rng.fill(image);
    for (lsn, sector) in image.chunks_exact_mut(STORED).enumerate() {
        let correct = correct((0x03_0000 + lsn as u32).to_be_bytes());
        sector[..6].copy_from_slice(&header(&mut rng, lsn, correct));
    }
    image
}

fn image() -> &'static [u8] {
    let image = image_of(|rng, lsn, correct| match lsn % RARE {
        1 => damaged(rng, correct),
        2 => [0; 6],
        _ => correct,
    });
    check(image);
    image
}

/// Library and plain audit must give each header the same verdict.
fn check(image: &[u8]) {
    for lsn in 0..HEADERS {
        let answer = scarletbook::raw::audit(2u32, image, lsn as u32);
        let plain = plain_audit(image, lsn).map(|verdict| verdict as u8);
        assert_eq!((answer.refusal, Some(answer.verdict)), (0, plain), "header {lsn}");
    }
}

pub const fn times_alpha(value: u8) -> u8 {
    let doubled = value << 1;
    if value & 0x80 == 0 { doubled } else { doubled ^ 0x1d }
}

/// Nothing for a sector that is not in the image.
pub fn sector(image: &[u8], lsn: usize) -> Option<&[u8]> {
    image.get(lsn * STORED..)?.get(..STORED)
}

fn plain_audit(image: &[u8], lsn: usize) -> Option<Verdict> {
    let sector = sector(image, lsn)?;
    let (mut any, mut at_one, mut at_alpha) = (0, 0, 0);
    for &byte in &sector[..6] {
        any |= byte;
        at_one ^= byte;
        at_alpha = times_alpha(at_alpha) ^ byte;
    }
    Some(match (any, at_one, at_alpha) {
        (0, _, _) => Verdict::Blank,
        (_, 0, 0) => Verdict::Sound,
        _ => Verdict::Unsound,
    })
}

fn audits(image: &mut &[u8]) {
    for lsn in 0..HEADERS as u32 {
        black_box(scarletbook::raw::audit(black_box(2u32), black_box(*image), lsn));
    }
}

fn plain_audits(image: &mut &[u8]) {
    for lsn in 0..HEADERS {
        black_box(plain_audit(black_box(*image), lsn));
    }
}

pub fn headers() {
    let mut images: Vec<_> = std::iter::repeat_with(image).take(PLACES).collect();
    let row = Row { what: "audit, by doubling".to_string(), bytes: HEADERS * 6, target: Some(1.5) };
    row.print(&mut images, audits, plain_audits);
}
