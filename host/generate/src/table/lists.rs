//! Track lists, ISRCs and genres.

use super::head::{Range, frame_number};
use super::plan::Structure;
use super::{put, put32};
use crate::Rng;
use crate::text::any_field;

/// Fills a sub-structure that stands at a place, but for track texts.
pub fn fill(rng: &mut Rng, table: &mut [u8], at: (Structure, usize), range: &Range) {
    let (structure, at) = at;
    for i in 0..range.tracks {
        match structure {
            Structure::TrackList1 => {
                put32(table, at + 8 + 4 * i, any_address(rng, range));
                put32(table, at + 1028 + 4 * i, rng.word() as u32 >> rng.pick(&[0, 8, 16]));
            }
            Structure::TrackList2 => {
                let [start, duration] = any_times(rng, range.playtime);
                put(table, at + 8 + 4 * i, &[&start[..], &[rng.byte()]].concat());
                put(table, at + 1028 + 4 * i, &[&duration[..], &[rng.byte()]].concat());
            }
            Structure::IsrcGenre => {
                put(table, at + 8 + 12 * i, &any_isrc(rng));
                put(table, at + 3072 + 4 * i, &rng.word().to_be_bytes()[..4]);
            }
            _ => {}
        }
    }
}

/// An address of the area, mostly; at, next to and between its ends.
fn any_address(rng: &mut Rng, range: &Range) -> u32 {
    let Range { start, end, .. } = *range;
    let span = end.saturating_sub(start) as usize;
    match rng.below(64) {
        0 => start.wrapping_sub(1),
        1 => end.wrapping_add(1),
        2 => rng.word() as u32,
        3..=8 => start,
        9..=14 => end,
        _ => start + rng.below(span + 1) as u32,
    }
}

/// Start and duration, mostly within the play time; at and next to its end.
fn any_times(rng: &mut Rng, playtime: u32) -> [[u8; 3]; 2] {
    let start = rng.below(playtime as usize + 1) as u32;
    let rest = playtime - start;
    let (start, duration) = match rng.below(64) {
        0 => return [(); 2].map(|()| [rng.byte(), rng.byte(), rng.byte()]),
        1 => (start, rest + 1),
        2 => (playtime, 0),
        3 => (playtime, 1),
        4 => (playtime + 1, 0),
        5 => (playtime + 100, rest),
        6 => (0, playtime),
        7 => (0, playtime + 1),
        8..=20 => (start, rest),
        _ => (start, rng.below(rest as usize + 1) as u32),
    };
    [start, duration].map(|frames| timecode(rng, frames))
}

/// Three bytes of a frame number, or of the largest below it; minutes are now and then left to the
/// seconds.
fn timecode(rng: &mut Rng, frames: u32) -> [u8; 3] {
    let minutes = (frames / 4500).min(255);
    let minutes = minutes.saturating_sub(rng.below(20) as u32 / 18);
    let seconds = ((frames - minutes * 4500) / 75).min(255);
    let rest = (frames - minutes * 4500 - seconds * 75).min(255);
    let time = [minutes as u8, seconds as u8, rest as u8];
    debug_assert!(frame_number(time) <= frames);
    time
}

/// Twelve letters, a field with white space in it, or nothing.
fn any_isrc(rng: &mut Rng) -> [u8; 12] {
    let mut isrc = [0; 12];
    match rng.below(4) {
        0 => isrc.fill_with(|| b'A' + rng.below(26) as u8),
        1 => {}
        _ => put(&mut isrc, 0, &any_field(rng)),
    }
    isrc
}
