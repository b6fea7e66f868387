//! The document's rules that the Rust does not answer by themselves, written once more: where a
//! table's sub-structures stand, and the items of a track's text.

use crate::layout::DATA;
use crate::table::Structure;
use crate::text::MOST;

/// The known types of items.
const TYPES: usize = 14;

/// Where the walk meets sub-structures, in its order.
pub fn met(table: &[u8]) -> Vec<(Structure, usize)> {
    let mut met = vec![];
    let mut at = DATA;
    while let Some(structure) = table.get(at..at + 8).and_then(structure) {
        met.push((structure, at));
        at += structure.sectors() * DATA;
    }
    met
}

/// The sub-structure of a signature.
pub fn structure(signature: &[u8]) -> Option<Structure> {
    match signature {
        b"SACDTTxt" => Some(Structure::TrackText),
        b"SACD_IGL" => Some(Structure::IsrcGenre),
        b"SACD_ACC" => Some(Structure::Access),
        b"SACDTRL1" => Some(Structure::TrackList1),
        b"SACDTRL2" => Some(Structure::TrackList2),
        _ => None,
    }
}

/// Where the first of a kind stands.
pub fn first_of(met: &[(Structure, usize)], structure: Structure) -> Option<usize> {
    met.iter().find(|found| found.0 == structure).map(|found| found.1)
}

/// Where the last of a kind stands.
pub fn last_of(met: &[(Structure, usize)], structure: Structure) -> Option<usize> {
    met.iter().rfind(|found| found.0 == structure).map(|found| found.1)
}

pub fn number16(table: &[u8], at: usize) -> usize {
    match table.get(at..at + 2) {
        Some(bytes) => usize::from(bytes[0]) << 8 | usize::from(bytes[1]),
        None => 0,
    }
}

pub fn number32(table: &[u8], at: usize) -> u64 {
    (number16(table, at) as u64) << 16 | number16(table, at + 2) as u64
}

/// A string ends before the first zero byte, after 4,096 bytes, or at the end of its table.
pub fn string_at(table: &[u8], place: usize) -> &[u8] {
    let rest = table.get(place..).unwrap_or_default();
    let most = &rest[..rest.len().min(MOST)];
    most.split(|&byte| byte == 0).next().unwrap_or_default()
}

/// An item: its type byte, and where its string stands.
#[derive(Clone, Copy, Debug, PartialEq, Eq)]
pub struct Item {
    pub kind: u8,
    pub place: usize,
    pub len: usize,
}

/// Where a track's text begins by a block of offsets; nothing for offset 0 or one past the end.
pub fn text_at(table: &[u8], block: Option<usize>, track: usize) -> Option<usize> {
    let block = block?;
    let offset = number16(table, block + 8 + 2 * track);
    (offset != 0 && block + offset + 4 <= table.len()).then_some(block + offset)
}

/// The items from a place on, at most so many, and where each following one begins.
pub fn items(table: &[u8], place: usize, count: usize) -> Vec<(Item, usize)> {
    let mut items = vec![];
    let mut next = place;
    while items.len() < count && next < table.len() && next + 2 <= table.len() {
        let len = string_at(table, next + 2).len();
        let item = Item { kind: table[next], place: next + 2, len };
        let behind = next + 2 + len;
        let zeros = table[behind..].iter().take_while(|&&byte| byte == 0).count();
        next = behind + zeros;
        items.push((item, next));
    }
    items
}

/// The items of a track's text.
pub fn track_items(table: &[u8], text: Option<usize>) -> Vec<Item> {
    let Some(at) = text else { return vec![] };
    let items = items(table, at + 4, usize::from(table[at]));
    items.into_iter().map(|(item, _)| item).collect()
}

/// The item index of a type byte.
pub fn index(kind: u8) -> Option<usize> {
    match kind {
        1..=7 => Some(usize::from(kind) - 1),
        129..=135 => Some(usize::from(kind) - 129 + 7),
        _ => None,
    }
}

/// The last nonempty item of each known type.
pub fn last_nonempty(items: &[Item]) -> [Option<Item>; TYPES] {
    let mut last = [None; TYPES];
    for item in items.iter().filter(|item| item.len > 0) {
        if let Some(index) = index(item.kind) {
            last[index] = Some(*item);
        }
    }
    last
}

/// The frame number of the timecode at a place; each byte past the end reads as 0.
pub fn frame_number(table: &[u8], at: usize) -> u32 {
    let byte = |k| table.get(at + k).map_or(0, |&byte| u32::from(byte));
    (byte(0) * 60 + byte(1)) * 75 + byte(2)
}
