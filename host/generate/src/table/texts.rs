//! The texts of tracks: items of every sort, in the rest of their block's sector and behind the
//! last sub-structure.

use super::plan::{Plan, Structure};
use super::{put, put16};
use crate::Rng;
use crate::layout::DATA;
use crate::text::MOST;
use std::ops::Range;

/// Types that no text has. A type 0 is met only in the first item: others begin at a nonzero byte.
const UNKNOWN: [u8; 6] = [8, 127, 128, 136, 255, 0];

/// Puts texts into the table, and their offsets into each block. Where a long string ends, if there is
/// one.
pub fn fill(rng: &mut Rng, table: &mut [u8], plan: &Plan, end: usize) -> Option<usize> {
    let blocks: Vec<_> =
        plan.structures().filter(|block| block.0 == Structure::TrackText).collect();
    let &(_, first) = blocks.first()?;
    let tracks = usize::from(plan.tracks);
    let mut rooms = [first + 518..(first + DATA).min(table.len()), end..table.len()];
    let long = if rng.below(3) == 0 { put_long(rng, table, &mut rooms[1]) } else { None };
    let mut texts: Vec<_> = long.iter().map(|long| long.text).collect();
    put_texts(rng, table, tracks, &mut rooms, &mut texts);
    for &(_, block) in &blocks {
        for track in 0..tracks {
            let text = texts.iter().copied().cycle().nth(track);
            let offset = any_offset(rng, table.len(), block, text);
            put16(table, block + 8 + 2 * track, offset);
        }
    }
    long.map(|long| long.end)
}

/// Puts a text for each track into the table, as long as there is room: tracks without one share
/// those of others. Adds their places, not all in order.
fn put_texts(
    rng: &mut Rng,
    table: &mut [u8],
    tracks: usize,
    rooms: &mut [Range<usize>; 2],
    texts: &mut Vec<usize>,
) {
    if rng.below(3) == 0
        && let Some(place) = put_last(rng, table, rooms)
    {
        texts.push(place);
    }
    let long = rooms[1].len() > 3 * MOST && rng.below(2) == 0;
    for _ in texts.len()..tracks {
        let text = any_track_text(rng, long);
        if let Some(room) = rooms.iter_mut().find(|room| text.len() <= room.len()) {
            put(table, room.start, &text);
            texts.push(room.start);
            room.start += text.len();
        }
    }
    if !texts.is_empty() {
        let by = rng.below(texts.len());
        texts.rotate_left(by);
    }
}

/// A text with a string of about 4,096 bytes: where it begins, and where that string ends.
struct Long {
    text: usize,
    end: usize,
}

/// Puts such a text at the room's end or its start.
fn put_long(rng: &mut Rng, table: &mut [u8], room: &mut Range<usize>) -> Option<Long> {
    let (bytes, end) = any_long_text(rng);
    if bytes.len() > room.len() {
        return None;
    }
    let text = if rng.below(2) == 0 { room.start } else { room.end - bytes.len() };
    *room = if text == room.start { text + bytes.len()..room.end } else { room.start..text };
    put(table, text, &bytes);
    Some(Long { text, end: text + end })
}

/// A few items, one of them with a string of about 4,096 bytes, and where that ends; with zeros behind
/// each string, or with none. Types come again.
fn any_long_text(rng: &mut Rng) -> (Vec<u8>, usize) {
    let items = rng.pick(&[1, 2, 2, 3]);
    let long = rng.below(items);
    let mut text = vec![rng.pick(&[items as u8, items as u8, 255]), rng.byte(), rng.byte(), 0];
    let (mut kind, mut end) = (0, 0);
    for item in 0..items {
        kind = if item > 0 && rng.below(3) == 0 { kind } else { any_kind(rng, kind) };
        text.extend([kind, rng.pick(&[0, 1, 255])]);
        let about_most = rng.pick(&[MOST - 1, MOST, MOST, MOST + 1, MOST + 2, MOST + 40]);
        let length = if item == long { about_most } else { rng.below(8) };
        text.extend(std::iter::repeat_with(|| any_letter(rng, false)).take(length));
        end = if item == long { text.len() } else { end };
        text.extend([0; 2].iter().take(rng.pick(&[0, 0, 1, 2])));
    }
    (text, end)
}

/// Puts a text that goes to the table's end: its last string has no zero behind it, or its last
/// item has no string, or no second byte.
fn put_last(rng: &mut Rng, table: &mut [u8], rooms: &mut [Range<usize>; 2]) -> Option<usize> {
    let mut text = any_track_text(rng, false);
    text[0] = rng.pick(&[text[0].saturating_add(1), 255]);
    match rng.below(6) {
        0 => text.extend([rng.pick(&[1, 9])]),
        1 => text.extend([rng.pick(&[1, 9]), 1]),
        2 => text.extend([rng.pick(&[1, 9]), 0]),
        _ => text.extend([any_kind(rng, 2), 0, b'E', b'n', b'd']),
    }
    let room = rooms.iter_mut().find(|room| room.end == table.len() && text.len() <= room.len())?;
    room.end -= text.len();
    put(table, room.end, &text);
    Some(room.end)
}

/// Items behind their count and three ignored bytes. The count is mostly theirs.
pub fn any_track_text(rng: &mut Rng, long: bool) -> Vec<u8> {
    let items = rng.pick(&[0, 1, 2, 2, 3, 5, 14]);
    let count = match rng.below(16) {
        0 => 0,
        1 => 255,
        2 => items + 1 + rng.below(3) as u8,
        3 => items.saturating_sub(1),
        _ => items,
    };
    let mut text = vec![count, rng.byte(), rng.byte(), rng.byte()];
    let mut kind = 0;
    for _ in 0..items {
        kind = any_kind(rng, kind);
        text.extend([kind, rng.pick(&[0, 0, 1, 255])]);
        text.extend(any_string(rng, long));
        text.extend([0; 3].iter().take(rng.below(4)));
    }
    text
}

/// Mostly a known type, now and then that of the item before.
fn any_kind(rng: &mut Rng, before: u8) -> u8 {
    let known = 1 + rng.below(7) as u8 + rng.pick(&[0, 128]);
    match rng.below(16) {
        0 => rng.pick(&UNKNOWN),
        1 => rng.byte(),
        2 | 3 => before,
        _ => known,
    }
}

/// A string and the zero behind it: mostly short, now and then empty; if it may be long, at or next
/// to the longest.
pub fn any_string(rng: &mut Rng, long: bool) -> Vec<u8> {
    let length = match rng.below(16) {
        0 | 1 => 0,
        2 if long => rng.pick(&[MOST - 1, MOST, MOST + 1, MOST + 7, MOST + 300]),
        3 => rng.below(200),
        _ => 1 + rng.below(12),
    };
    let high = rng.below(4) == 0;
    let mut string: Vec<_> =
        std::iter::repeat_with(|| any_letter(rng, high)).take(length).collect();
    string.push(0);
    string
}

fn any_letter(rng: &mut Rng, high: bool) -> u8 {
    match rng.below(16) {
        0 if high => rng.nonzero(),
        1 if high => 1 + rng.below(0x1f) as u8,
        _ => b' ' + rng.below(0x5f) as u8,
    }
}

/// The offset of a text from its block: mostly that of a text in the table; else none, at or next
/// to the last that fits, or any.
fn any_offset(rng: &mut Rng, end: usize, block: usize, text: Option<usize>) -> u16 {
    let rest = end.saturating_sub(block);
    let offset = match rng.below(32) {
        0..=2 => 0,
        3 => rest.saturating_sub(5),
        4 => rest.saturating_sub(4),
        5 => rest.saturating_sub(3),
        6 => rng.pick(&[rest, rest + 1, 65_535, 1]),
        7 => rng.word() as u16 as usize,
        _ => text.and_then(|place| place.checked_sub(block)).unwrap_or(0),
    };
    u16::try_from(offset).unwrap_or(0)
}
