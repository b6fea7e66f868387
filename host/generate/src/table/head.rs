//! The first sector of a table: fixed fields, locales and the texts of the area.

use super::{Plan, put, put16, put32};
use crate::Rng;
use crate::text::{MOST, any_code};

/// What the tracks of a table are held to.
pub struct Range {
    pub tracks: usize,
    /// The first and last address.
    pub start: u32,
    pub end: u32,
    /// The play time, as a frame number.
    pub playtime: u32,
}

/// The frame number of three bytes.
pub fn frame_number(time: [u8; 3]) -> u32 {
    let [minutes, seconds, frames] = time.map(u32::from);
    (minutes * 60 + seconds) * 75 + frames
}

/// Fills the fixed fields and the locales.
pub fn fill(rng: &mut Rng, table: &mut [u8], plan: &Plan) -> Range {
    let mut fields = [0; 144];
    rng.fill(&mut fields);
    put(table, 0, &fields);
    put(table, 0, rng.pick(&[b"TWOCHTOC", b"MULCHTOC"]));
    let frequency = rng.byte();
    put(table, 20, &[rng.pick(&[4, 4, 4, 4, 4, 4, 3, frequency])]);
    let playtime = any_playtime(rng);
    put(table, 64, &playtime);
    put(table, 69, &[plan.tracks]);
    let (start, end) = any_addresses(rng, plan.reversed);
    put32(table, 72, start);
    put32(table, 76, end);
    let channels = rng.byte();
    put(table, 80, &[rng.pick(&[0, 1, 2, 8, 9, 10, 11, channels])]);
    for locale in 0..11 {
        put(table, 88 + 4 * locale, &any_locale(rng));
    }
    put(table, 90, &[any_code(rng)]);
    Range { tracks: plan.tracks.into(), start, end, playtime: frame_number(playtime) }
}

fn any_playtime(rng: &mut Rng) -> [u8; 3] {
    let (minutes, seconds, frames) = (rng.byte(), rng.below(60) as u8, rng.below(75) as u8);
    match rng.below(16) {
        0 => [0, 0, rng.byte()],
        1 => [rng.byte(), rng.byte(), rng.byte()],
        2 => [255, 255, 255],
        _ => [minutes, seconds, frames],
    }
}

/// The first address and the last, which is below it only if it must be.
fn any_addresses(rng: &mut Rng, reversed: bool) -> (u32, u32) {
    let any = rng.word() as u32;
    let start = rng.pick(&[any >> 12, any >> 12, any >> 8, any, 0, u32::MAX]);
    let length = rng.pick(&[0, 1, any >> 20, any >> 10, any >> 1, u32::MAX]);
    if reversed {
        let start = start.max(1);
        return (start, rng.pick(&[start - 1, start - 1, start >> 1, 0]));
    }
    (start, start.saturating_add(length))
}

/// Two characters, a character set and a last byte.
pub fn any_locale(rng: &mut Rng) -> [u8; 4] {
    let letters = [b'a' + rng.below(26) as u8, b'a' + rng.below(26) as u8];
    let [first, second] = match rng.below(4) {
        0 => [rng.pick(&[0, b' ', 0xe9, b'e']), rng.pick(&[0, b' ', 0xff, b'n'])],
        _ => letters,
    };
    [first, second, rng.byte(), rng.byte()]
}

/// Names the places of the area's texts: of strings in the first sector, none, at and next to the
/// table's end, or anywhere; where there is a long string, about 4,096 bytes before its end too.
pub fn place_texts(rng: &mut Rng, table: &mut [u8], long: Option<usize>) {
    let mut free = 160;
    for item in 0..4 {
        let end = table.len();
        let before = rng.pick(&[MOST + 1, MOST, MOST, MOST - 1, 300, 1]);
        let place = match (rng.below(16), long) {
            (0..=2, _) => 0,
            (3, _) => end - 1,
            (4, _) => end,
            (5, _) => end + 1,
            (6, _) => rng.below(end),
            (7, _) => rng.word() as usize,
            (8..=12, Some(long)) => long - before,
            _ => free,
        };
        if place == free {
            let string = super::texts::any_string(rng, false);
            put(table, free, &string);
            free += string.len() + rng.below(3);
        }
        put16(table, 144 + 2 * item, place as u16);
    }
}

/// Changes a byte of the signature, now and then.
pub fn damage(rng: &mut Rng, table: &mut [u8]) {
    if rng.below(32) == 0 {
        table[rng.below(8)] ^= rng.nonzero();
    }
}
