//! The ten sectors of a master table: fields, locales, texts, and the manufacturer's sector.

use super::slots::Pointer;
use super::{MASTER_SECTORS, MASTER_SIGNATURE};
use crate::Rng;
use crate::layout::DATA;
use crate::table::{any_locale, any_string, put, put16, put32};
use crate::text::{any_code, any_field};

/// The texts of a disc.
const TEXTS: usize = 16;
/// Where strings begin in the sector of texts.
const STRINGS: usize = 64;

/// A master table with the pointers of the two slots, mostly one that is accepted.
pub fn any_master(rng: &mut Rng, pointers: [Pointer; 2]) -> Vec<u8> {
    let mut master = vec![0; MASTER_SECTORS * DATA];
    fill_fields(rng, &mut master);
    for (slot, pointer) in pointers.into_iter().enumerate() {
        put32(&mut master, 64 + 8 * slot, pointer.toc1_lsn);
        put32(&mut master, 68 + 8 * slot, pointer.toc2_lsn);
        put16(&mut master, 84 + 2 * slot, pointer.toc_sectors);
    }
    if rng.below(2) == 0 {
        rng.fill(&mut master[2 * DATA..2 * DATA + 64]);
    }
    fill_texts(rng, &mut master[DATA..2 * DATA]);
    let manufacturer = rng.pick(&[&b"SACD_Man"[..], b"SACD_Man", b"SACD_Man", b"SACD_man", b""]);
    let sector = &mut master[9 * DATA..];
    rng.fill(&mut sector[..40]);
    put(sector, 0, manufacturer);
    master
}

fn fill_fields(rng: &mut Rng, master: &mut [u8]) {
    rng.fill(&mut master[..180]);
    put(master, 0, MASTER_SIGNATURE);
    if rng.below(48) == 0 {
        master[rng.below(8)] ^= rng.nonzero();
    }
    let newer = rng.pick(&[2, 2, 3, 128, 255]);
    master[8] = if rng.below(48) == 0 { newer } else { rng.below(2) as u8 };
    for at in [24, 88] {
        master[at..at + 16].fill(0);
        let field = any_field(rng);
        put(master, at, &field[..field.len().min(16)]);
    }
    let channels = rng.byte();
    master[128] = rng.pick(&[0, 0, 1, 2, 7, 8, 9, channels]);
    for locale in 0..9 {
        put(master, 136 + 4 * locale, &any_locale(rng));
    }
    master[138] = any_code(rng);
}

/// The sector of texts: strings, and offsets of them, of none, of one up to the sector's end, at and next
/// to that, or any.
fn fill_texts(rng: &mut Rng, sector: &mut [u8]) {
    rng.fill(&mut sector[..STRINGS]);
    put(sector, 0, rng.pick(&[&b"SACDText"[..], b"SACDText", b"SACDText", b"SACDTexT", b""]));
    let last = DATA - rng.pick(&[1, 1, 1, 3, 3, 100, 1500]);
    sector[last..].fill_with(|| b'A' + rng.below(26) as u8);
    let mut free = STRINGS;
    for item in 0..TEXTS {
        let place = match rng.below(16) {
            0 | 1 => 0,
            2 => rng.pick(&[DATA - 1, last]),
            3 => rng.pick(&[DATA, DATA + 1, DATA + 8, 65_535]),
            4 => rng.below(DATA),
            5 => rng.word() as usize,
            _ => free,
        };
        let string = any_string(rng, false);
        if place == free && free + string.len() < last {
            put(sector, free, &string);
            free += string.len() + rng.below(3);
        }
        put16(sector, 16 + 2 * item, place as u16);
    }
}
