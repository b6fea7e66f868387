//! Tables for how strings end: next to 4,096 bytes, before a zero byte, before other bytes and at the
//! table's end; and the table with the most warnings.

use super::{put, put16, put32};
use crate::layout::DATA;
use crate::text::MOST;

/// Where the lists of the tracks and the block of their texts stand, and the first text in that.
const LIST_1: usize = DATA;
const LIST_2: usize = 2 * DATA;
const BLOCK: usize = 3 * DATA;
const FIRST_TEXT: usize = BLOCK + 518;

/// The first bytes of a text of up to three items: the first is of unknown type.
const UNKNOWN_FIRST: [u8; 8] = [3, 0, 0, 0, 8, 0, b'u', 0];

/// What stands behind the bytes of a string.
#[derive(Clone, Copy, Debug, PartialEq, Eq)]
enum Behind {
    Zero,
    /// More bytes, and a zero behind them.
    Bytes,
    /// The table's end.
    End,
}

/// A string of a track's text.
struct Ending {
    /// The type of its item: 8 is unknown.
    kind: u8,
    length: usize,
    behind: Behind,
    /// Whether another item of its type stands behind it, unless the table ends there.
    replaced: bool,
}

/// All tables for how strings end.
pub fn endings() -> Vec<Vec<u8>> {
    (0..).map_while(ending).collect()
}

/// The same by a number from 0: a string of each length, before all that may stand behind it, of each type,
/// alone and replaced; then two strings without a zero in one text.
pub fn ending(number: usize) -> Option<Vec<u8>> {
    match number {
        0..72 => Some(with_ending(&Ending {
            kind: [1, 135, 8][number / 2 % 3],
            length: [1, MOST - 1, MOST, MOST + 1][number / 18],
            behind: [Behind::Zero, Behind::Bytes, Behind::End][number / 6 % 3],
            replaced: !number.is_multiple_of(2),
        })),
        72 => Some(with_two(2)),
        73 => Some(with_two(8)),
        _ => None,
    }
}

/// A table of two tracks: the first has the string alone, the second an item of unknown type before it.
/// The area's texts begin next to 4,096 bytes before the string's end.
fn with_ending(ending: &Ending) -> Vec<u8> {
    let Ending { kind, length, behind, replaced } = *ending;
    let string = vec![b's'; if behind == Behind::Bytes { length + 40 } else { length }];
    let item = [&UNKNOWN_FIRST[..], &[kind, 0], &string].concat();
    let last = [0, kind, 0, b'L', 0];
    let rest = match behind {
        Behind::End => &[][..],
        _ => &last[..if replaced { last.len() } else { 1 }],
    };
    let (mut table, text) = with_text(2, &[&item, rest].concat(), behind == Behind::End);
    put16(&mut table, BLOCK + 8, (text + 4 - BLOCK) as u16);
    let end = text + item.len();
    for (item, bytes) in [string.len(), MOST - 1, MOST, MOST + 1].into_iter().enumerate() {
        put16(&mut table, 144 + 2 * item, (end - bytes) as u16);
    }
    table
}

/// A table of two tracks with the same text: a string of 4,096 bytes, and one of this type to the end.
fn with_two(kind: u8) -> Vec<u8> {
    let text = [b"\x02\0\0\0\x01\0", &[b's'; MOST][..], &[kind], b"\0End"].concat();
    with_text(2, &text, true).0
}

/// A table with as many warnings as there are at most, 1,021: 18, and of each of 255 tracks 14, 15, 13
/// and 19. All tracks have the same text, whose last string reaches the table's end.
pub fn most_warnings() -> Vec<u8> {
    let (mut table, _) = with_text(255, &[&UNKNOWN_FIRST[..], b"\x01\0End"].concat(), true);
    put(&mut table, 20, &[5]);
    for track in 0..255 {
        put32(&mut table, LIST_1 + 8 + 4 * track, 999);
        put(&mut table, LIST_2 + 8 + 4 * track, &[2, 0, 0]);
    }
    table
}

/// A table of tracks that all have one text, at the start of its room or at the table's end, and where
/// that begins.
fn with_text(tracks: u8, text: &[u8], at_the_end: bool) -> (Vec<u8>, usize) {
    let mut table = vec![0; (FIRST_TEXT + text.len()).next_multiple_of(DATA)];
    put(&mut table, 0, b"TWOCHTOC");
    put(&mut table, 20, &[4]);
    put(&mut table, 64, &[1]);
    put(&mut table, 69, &[tracks]);
    put32(&mut table, 72, 1000);
    put32(&mut table, 76, 2000);
    let structures = [(LIST_1, b"SACDTRL1"), (LIST_2, b"SACDTRL2"), (BLOCK, b"SACDTTxt")];
    for (at, signature) in structures {
        put(&mut table, at, signature);
    }
    let place = if at_the_end { table.len() - text.len() } else { FIRST_TEXT };
    put(&mut table, place, text);
    for track in 0..tracks.into() {
        put32(&mut table, LIST_1 + 8 + 4 * track, 1000);
        put16(&mut table, BLOCK + 8 + 2 * track, (place - BLOCK) as u16);
    }
    (table, place)
}
