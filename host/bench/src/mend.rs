//! Mending of headers beside a plain one: two syndromes, and a table of logarithms.

use crate::audit::{HEADERS, image_of, sector, times_alpha};
use crate::{PLACES, row};
use generate::Rng;
use generate::header::{Header, double_change};
use std::hint::black_box;

/// At place x the exponent of α that gives x; 0 at place 0, which is no power.
static LOGARITHMS: [u8; 256] = logarithms();

const fn logarithms() -> [u8; 256] {
    let mut table = [0; 256];
    let (mut exponent, mut power) = (0, 1);
    while exponent < 255 {
        table[power as usize] = exponent;
        power = times_alpha(power);
        exponent += 1;
    }
    table
}

/// Nothing for a sector that is not in the image or whose header is beyond mending.
fn plain_mend(image: &[u8], lsn: usize) -> Option<Header> {
    let header: &Header = sector(image, lsn)?.first_chunk()?;
    let (mut at_one, mut at_alpha) = (0, 0);
    for &byte in header {
        at_one ^= byte;
        at_alpha = times_alpha(at_alpha) ^ byte;
    }
    if at_one == 0 && at_alpha == 0 {
        return Some(*header);
    }
    if at_one == 0 || at_alpha == 0 {
        return None;
    }
    let [one, alpha] = [at_one, at_alpha].map(|value| LOGARITHMS[usize::from(value)]);
    let exponent = (usize::from(alpha) + 255 - usize::from(one)) % 255;
    let place = 5usize.checked_sub(exponent)?;
    let mut mended = *header;
    mended[place] ^= at_one;
    Some(mended)
}

/// Library and plain mending must answer the same for each header.
fn check(image: &[u8]) {
    for lsn in 0..HEADERS {
        let answer = scarletbook::raw::mend(2u32, image, lsn as u32);
        let plain = plain_mend(image, lsn).map_or((14, [0; 6]), |header| (0, header));
        assert_eq!((answer.refusal, answer.header), plain, "header {lsn}");
    }
}

fn mends(image: &mut &[u8]) {
    for lsn in 0..HEADERS as u32 {
        black_box(scarletbook::raw::mend(black_box(2u32), black_box(*image), lsn));
    }
}

fn plain_mends(image: &mut &[u8]) {
    for lsn in 0..HEADERS {
        black_box(plain_mend(black_box(*image), lsn));
    }
}

/// A bad byte in each place in turn.
fn one_bad_byte(rng: &mut Rng, lsn: usize, correct: Header) -> Header {
    let mut changed = correct;
    changed[lsn % 6] ^= rng.nonzero();
    changed
}

pub fn headers() {
    check(image_of(|rng, _, correct| double_change(rng, correct)));
    time("mend, correct header", |_, _, correct| correct);
    time("mend, one bad byte", one_bad_byte);
}

fn time(what: &str, header: impl Fn(&mut Rng, usize, Header) -> Header) {
    let mut images: Vec<_> = std::iter::repeat_with(|| image_of(&header)).take(PLACES).collect();
    images.iter().for_each(|image| check(image));
    row(what, HEADERS * 6, 2.0).print(&mut images, mends, plain_mends);
}
