//! What stands at each place of a string, by 02 and the Rust's `decode`, written once more: for the classes of strings, and
//! for the texts of mappings that the Rust is not asked about.

use super::{Entry, Mapping, RESERVED};

/// What gives the code points of an element.
#[derive(Clone, Copy, Debug, PartialEq, Eq)]
pub enum Source {
    Pair,
    /// A pair that the mapping has not, reserved in set 3.
    Reserved,
    Single,
    /// A byte that the mapping has not.
    Unmapped,
}

#[derive(Clone, Copy, Debug, PartialEq, Eq)]
pub struct Element {
    /// Where its first byte stands.
    pub at: usize,
    pub source: Source,
    /// Its value, if the mapping has one: else it is U+FFFD.
    pub value: Option<u32>,
}

impl Mapping {
    /// The elements of a string of a set.
    pub fn elements(&self, set: u8, bytes: &[u8]) -> Vec<Element> {
        let mut elements = vec![];
        let mut at = 0;
        while at < bytes.len() {
            let element = self.element(set, bytes, at);
            elements.push(element);
            at += if matches!(element.source, Source::Pair | Source::Reserved) { 2 } else { 1 };
        }
        elements
    }

    fn element(&self, set: u8, bytes: &[u8], at: usize) -> Element {
        let byte = u32::from(bytes[at]);
        let pair = bytes.get(at + 1).map(|&next| 256 * byte + u32::from(next));
        let held = pair.and_then(|key| value_of(&self.pairs, key));
        let reserved = set == 3 && pair.is_some_and(|key| RESERVED.contains(&key));
        let single = value_of(&self.singles, byte);
        let (source, value) = match (held, single) {
            (Some(_), _) => (Source::Pair, held),
            _ if reserved => (Source::Reserved, None),
            (None, Some(_)) => (Source::Single, single),
            (None, None) => (Source::Unmapped, None),
        };
        Element { at, source, value }
    }

    /// The text of a string of a set.
    pub fn decoded(&self, set: u8, bytes: &[u8]) -> String {
        let elements = self.elements(set, bytes);
        elements.iter().flat_map(|element| self.shown(element)).collect()
    }

    /// The characters of an element: controls are blanks.
    fn shown(&self, element: &Element) -> impl Iterator<Item = char> + use<> {
        let points = self.points(element.value.unwrap_or(0xfffd));
        points.filter_map(|point| char::from_u32(point.max(0x20)))
    }

    /// Whether a byte is the first of a pair.
    pub fn begins_pair(&self, byte: u8) -> bool {
        let at = self.pairs.partition_point(|&(key, _)| key >> 8 < u32::from(byte));
        self.pairs.get(at).is_some_and(|&(key, _)| key >> 8 == u32::from(byte))
    }

    pub fn single(&self, byte: u8) -> Option<u32> {
        value_of(&self.singles, byte.into())
    }

    pub fn pair(&self, key: u32) -> Option<u32> {
        value_of(&self.pairs, key)
    }
}

fn value_of(entries: &[Entry], key: u32) -> Option<u32> {
    let at = entries.binary_search_by_key(&key, |entry| entry.0).ok()?;
    Some(entries[at].1)
}
