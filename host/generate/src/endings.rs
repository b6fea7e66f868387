//! How stored strings end, and the tracks that are warned of it, written once more from the documents
//! (02, item 5): the Rust knows nothing of either.

use crate::layout::DATA;
use crate::plain::{first_of, last_nonempty, met, number16, string_at, text_at, track_items};
use crate::table::Structure;
use crate::text::MOST;

/// How a string ended. An absent text has `NONE`.
pub const NONE: u8 = 0;
pub const ZERO_BYTE: u8 = 1;
pub const MOST_BYTES: u8 = 2;
pub const TABLE_END: u8 = 3;

/// The code of the warning of a track that has a text without a zero byte.
pub const UNTERMINATED: u8 = 19;

/// The texts of an area, of a track and of a disc.
const AREA_TEXTS: usize = 4;
const TRACK_TEXTS: usize = 14;
const DISC_TEXTS: usize = 16;

/// A warning's code, slot and track.
pub type Warning = [u8; 3];

/// How the string at a place ended. What stands behind 4,096 bytes is not asked.
pub fn end_at(table: &[u8], place: usize) -> u8 {
    let mut bytes = table.iter().skip(place);
    for _ in 0..MOST {
        match bytes.next() {
            Some(0) => return ZERO_BYTE,
            Some(_) => {}
            None => return TABLE_END,
        }
    }
    MOST_BYTES
}

/// How the text at an offset ended, if one is there: none is at 0, and an empty string is none.
fn end_by_offset(table: &[u8], offset: usize) -> u8 {
    let absent = offset == 0 || string_at(table, offset).is_empty();
    if absent { NONE } else { end_at(table, offset) }
}

/// How the texts of a table's area ended.
pub fn area_ends(table: &[u8]) -> [u8; AREA_TEXTS] {
    std::array::from_fn(|item| end_by_offset(table, number16(table, 144 + 2 * item)))
}

/// How the texts of a disc ended, by its master table: they stand in sector 1, and end there.
pub fn disc_ends(master: &[u8]) -> [u8; DISC_TEXTS] {
    let sector = &master[DATA..2 * DATA];
    if !sector.starts_with(b"SACDText") {
        return [NONE; DISC_TEXTS];
    }
    std::array::from_fn(|item| end_by_offset(sector, number16(sector, 16 + 2 * item)))
}

/// How the texts of a track of a table ended, those that its record has: of each known type the last
/// nonempty item.
pub fn track_ends(table: &[u8], track: usize) -> [u8; TRACK_TEXTS] {
    let block = first_of(&met(table), Structure::TrackText);
    let items = track_items(table, text_at(table, block, track));
    last_nonempty(&items).map(|item| item.map_or(NONE, |item| end_at(table, item.place)))
}

/// Whether one of these texts is there and did not end by a zero byte.
pub fn is_unterminated(ends: &[u8]) -> bool {
    ends.iter().any(|&end| end == MOST_BYTES || end == TABLE_END)
}

/// The warnings 19 of a table's first tracks, one for each that has such a text.
pub fn unterminated(table: &[u8], slot: u8, tracks: usize) -> Vec<Warning> {
    let warned = (0..tracks).filter(|&track| is_unterminated(&track_ends(table, track)));
    warned.map(|track| [UNTERMINATED, slot, track as u8 + 1]).collect()
}

/// The Rust's warnings with those of 19 put in, each as the last of its track.
pub fn put_in(rust: &[Warning], unterminated: &[Warning]) -> Vec<Warning> {
    let mut all = rust.to_vec();
    for &warning in unterminated {
        let before = all.iter().rposition(|other| other[1..] <= warning[1..]);
        all.insert(before.map_or(0, |at| at + 1), warning);
    }
    all
}

#[cfg(test)]
mod tests {
    use super::*;
    use crate::table::{endings, most_warnings};

    /// How a string of so many bytes ends, before a zero, before another byte and at the table's end.
    fn ends(length: usize) -> [u8; 3] {
        let string = [vec![0], vec![b's'; length]].concat();
        [&b"\0s"[..], b"s\0", b""].map(|behind| end_at(&[&string[..], behind].concat(), 1))
    }

    #[test]
    fn what_stands_behind_4096_bytes_is_not_asked() {
        assert_eq!(ends(0), [ZERO_BYTE, ZERO_BYTE, TABLE_END]);
        assert_eq!(ends(MOST - 1), [ZERO_BYTE, MOST_BYTES, TABLE_END]);
        assert_eq!(ends(MOST), [MOST_BYTES; 3]);
        assert_eq!(ends(MOST + 1), [MOST_BYTES; 3]);
        assert_eq!([3, 4, usize::MAX].map(|place| end_at(b"abc", place)), [TABLE_END; 3]);
    }

    #[test]
    fn an_area_and_its_tracks_have_every_end() {
        let tables = endings();
        let track = |end| tables.iter().any(|table| track_ends(table, 0).contains(&end));
        let area = |end| tables.iter().any(|table| area_ends(table).contains(&end));
        assert!((NONE..=TABLE_END).all(|end| track(end) && area(end)));
    }

    #[test]
    fn disc_texts_end_with_their_sector() {
        let mut master = vec![0; 10 * DATA];
        master[DATA..DATA + 8].copy_from_slice(b"SACDText");
        master[DATA + 16..DATA + 20].copy_from_slice(&[7, 255, 0, 4]);
        master[2 * DATA - 1..2 * DATA + 3].copy_from_slice(b"zzz\0");
        assert_eq!(disc_ends(&master)[..3], [TABLE_END, ZERO_BYTE, NONE]);
        master[DATA] = b's';
        assert_eq!(disc_ends(&master), [NONE; DISC_TEXTS]);
    }

    #[test]
    fn neither_an_unknown_nor_a_replaced_text_is_warned_of() {
        let warned = |table: &[u8]| unterminated(table, 2, 2);
        // 4,096 bytes before a zero: of type 1, with another of its type behind it, and of type 8.
        let tables = endings();
        let [known, replaced, unknown] = [36, 37, 40].map(|at| warned(&tables[at]));
        assert_eq!(known, [[19, 2, 1], [19, 2, 2]]);
        assert!(replaced.is_empty() && unknown.is_empty());
        assert_eq!(warned(&most_warnings()).len(), 2);
        assert_eq!(unterminated(&most_warnings(), 1, 255).last(), Some(&[19, 1, 255]));
    }

    #[test]
    fn each_19_is_the_last_of_its_track() {
        let rust = [[17, 0, 0], [18, 1, 0], [14, 1, 2], [13, 1, 2], [4, 2, 0], [12, 2, 1]];
        let all = put_in(&rust, &[[19, 1, 1], [19, 1, 2], [19, 2, 3]]);
        let [disc, head, past, unknown, copy, offset] = rust;
        let nineteen = |slot, track| [19, slot, track];
        let first = [disc, head, nineteen(1, 1), past, unknown, nineteen(1, 2)];
        assert_eq!(all, [&first[..], &[copy, offset, nineteen(2, 3)]].concat());
        assert_eq!(put_in(&[], &[[19, 2, 1]]), [[19, 2, 1]]);
    }
}
