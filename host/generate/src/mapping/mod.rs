//! Mappings of sets 3 to 6: made at random and at the edges, as the words that the library is lent and as the data text
//! that the Rust reads; strings over them; and lists of words that are one or are none.

mod lists;
mod made;
mod strings;
mod valid;
mod walk;

pub use lists::any_list;
pub use made::{EDGES, held, mapping_of_case};
pub use strings::any_string;
pub use valid::{Cause, Fault, List, mapping_of};
pub use walk::{Element, Source};

use crate::Rng;

/// A key and its value, or the two code points of a double.
pub type Entry = (u32, u32);

/// A value from here on names a double by its index.
pub const DOUBLE: u32 = 0x8000_0000;

/// The pairs that are one U+FFFD in set 3, unless the mapping has them.
pub const RESERVED: [u32; 10] =
    [0x879f, 0x889e, 0x9873, 0x989e, 0xeaa5, 0xeff8, 0xeff9, 0xeffa, 0xeffb, 0xeffc];

#[derive(Clone, Debug, Default, PartialEq, Eq)]
pub struct Mapping {
    /// By a byte.
    pub singles: Vec<Entry>,
    /// By two bytes, the first the higher.
    pub pairs: Vec<Entry>,
    pub doubles: Vec<Entry>,
}

impl Mapping {
    /// The words that are lent: each list behind its count.
    pub fn words(&self) -> Vec<u32> {
        let lists = [&self.singles, &self.pairs, &self.doubles];
        let entries = lists.iter().map(|list| list.len()).sum::<usize>();
        let mut words = Vec::with_capacity(3 + 2 * entries);
        for list in lists {
            words.push(list.len() as u32);
            words.extend(list.iter().flat_map(|&(first, second)| [first, second]));
        }
        words
    }

    /// The data text: a line for each entry, in any order, with much between that says nothing.
    pub fn text(&self, rng: &mut Rng) -> String {
        let singles = self.singles.iter().map(|&(byte, value)| (format!("{byte:02X}"), value));
        let pairs = self.pairs.iter().map(|&(key, value)| (format!("{key:04X}"), value));
        let mut entries: Vec<_> = singles.chain(pairs).collect();
        for at in 1..entries.len() {
            entries.swap(at, rng.below(at + 1));
        }
        let mut text = "# byte or pair, code points\n\n".to_string();
        for (key, value) in entries {
            let points = self.points(value).map(|point| format!("U+{point:04X}"));
            text += &format!("{key}\t{}", points.collect::<Vec<_>>().join(" "));
            text +=
                rng.pick(&["\n", "\n", "\n", "\n", "\r\n", " and more\n", "\n\n", "\n#41\tU+41\n"]);
        }
        text
    }

    /// The code points of a value; none of a double that is not there.
    pub fn points(&self, value: u32) -> impl Iterator<Item = u32> + use<> {
        let double = value.checked_sub(DOUBLE).map(|index| self.doubles.get(index as usize));
        let points = match double {
            None => [Some(value), None],
            Some(double) => [double.map(|double| double.0), double.map(|double| double.1)],
        };
        points.into_iter().flatten()
    }
}

#[cfg(test)]
mod tests;
