//! Mappings made from the seed.

use super::{DOUBLE, Entry, Mapping, RESERVED};
use crate::Rng;
use std::collections::BTreeSet;

/// Code points at the edges: of controls, of one to four bytes in UTF-8, of the surrogates, and of all.
pub const EDGES: [u32; 14] = [
    0, 0x1f, 0x20, 0x7f, 0x80, 0x7ff, 0x800, 0xd7ff, 0xe000, 0xfffd, 0xfffe, 0xffff, 0x1_0000,
    0x10_ffff,
];

/// The pairs of the largest mapping.
const MOST_PAIRS: usize = 24_000;

/// The mapping of a case of a run: in every 16 some at the edges, the others at random.
pub fn mapping_of_case(seed: u64, case: u64) -> Mapping {
    let rng = &mut Rng::of_case(seed, case);
    let mut mapping = Mapping { doubles: any_doubles(rng), ..Mapping::default() };
    match case % 16 {
        0 => return Mapping::default(),
        1 => mapping.put_singles(rng, 1),
        2 => mapping.put_pairs(rng, 1),
        3 => mapping.put_singles(rng, 256),
        4 => return longest(rng),
        5 => mapping.put_edges(rng),
        6 => mapping.put_pairs(rng, MOST_PAIRS),
        _ => {
            mapping.put_any(rng);
            mapping.put_reserved(rng);
        }
    }
    mapping
}

/// A mapping for the texts of discs, most of which are ASCII: it has most of these bytes, many pairs of them, and all
/// else that there is.
pub fn held(rng: &mut Rng) -> Mapping {
    let doubles = vec![(0x1f, 0x41), (0x1_f600, 0x20), (any_point(rng), any_point(rng))];
    let mut mapping = Mapping { doubles, ..Mapping::default() };
    mapping.put_singles(rng, 200);
    let keys = keys(rng, 1_200, |rng| {
        let [first, second] = [(); 2].map(|()| 0x20 + rng.below(0x5f) as u32);
        let any = rng.below(0x1_0000) as u32;
        if rng.below(4) == 0 { any } else { 256 * first + second }
    });
    mapping.pairs = mapping.with_values(rng, keys);
    mapping.put_reserved(rng);
    mapping
}

/// Every byte gives two code points of four bytes in UTF-8.
fn longest(rng: &mut Rng) -> Mapping {
    let point = |rng: &mut Rng| 0x1_0000 + rng.below(0x10_0000) as u32;
    let doubles: Vec<_> = (0..4).map(|_| (point(rng), point(rng))).collect();
    let singles = (0..256).map(|byte| (byte, DOUBLE + rng.below(4) as u32)).collect();
    Mapping { singles, pairs: vec![], doubles }
}

impl Mapping {
    fn put_singles(&mut self, rng: &mut Rng, count: usize) {
        let keys = keys(rng, count, |rng| rng.below(256) as u32);
        self.singles = self.with_values(rng, keys);
    }

    fn put_pairs(&mut self, rng: &mut Rng, count: usize) {
        let keys = keys(rng, count, |rng| rng.below(0x1_0000) as u32);
        self.pairs = self.with_values(rng, keys);
    }

    /// Any singles and pairs: all, many or few of these of some first bytes, or of all.
    fn put_any(&mut self, rng: &mut Rng) {
        let few = rng.below(40);
        let singles = rng.pick(&[0, few, 128, 250, 256]);
        self.put_singles(rng, singles);
        let (first, rows) = (rng.below(256) as u32, 1 + rng.below(256));
        let pairs = match rng.below(16) {
            0 => 0,
            1 => MOST_PAIRS - rng.below(8_000),
            2 => 7_000,
            _ => rng.below(600),
        };
        let key = |rng: &mut Rng| {
            let first = (first + rng.below(rows) as u32) % 256;
            256 * first + rng.below(256) as u32
        };
        let keys = keys(rng, pairs.min(200 * rows), key);
        self.pairs = self.with_values(rng, keys);
    }

    /// Every edge as a value of a single and of a pair, and as each part of a double; the first and the last keys.
    fn put_edges(&mut self, rng: &mut Rng) {
        let mixed = EDGES.iter().zip(EDGES.iter().rev());
        self.doubles = mixed.map(|(&first, &second)| (first, second)).collect();
        let doubles = (0..self.doubles.len() as u32).map(|index| DOUBLE + index);
        let values: Vec<_> = EDGES.into_iter().chain(doubles).collect();
        let byte = |at: usize| if at == 0 { 0 } else { 256 - at as u32 };
        let mut singles: Vec<_> =
            values.iter().enumerate().map(|(at, &value)| (byte(at), value)).collect();
        singles.sort();
        self.singles = singles;
        let mut keys = keys(rng, values.len() - 2, |rng| rng.below(0x1_0000) as u32);
        keys.extend([0, 0xffff]);
        self.pairs = keys.into_iter().zip(values.into_iter().cycle()).collect();
    }

    /// All reserved pairs, none or some.
    fn put_reserved(&mut self, rng: &mut Rng) {
        let of_8 = rng.pick(&[0, 0, 4, 8]);
        self.pairs.retain(|(key, _)| !RESERVED.contains(key));
        let keys = RESERVED.into_iter().filter(|_| rng.below(8) < of_8).collect();
        let reserved = self.with_values(rng, keys);
        self.pairs.extend(reserved);
        self.pairs.sort();
    }

    fn with_values(&self, rng: &mut Rng, keys: BTreeSet<u32>) -> Vec<Entry> {
        keys.into_iter().map(|key| (key, self.any_value(rng))).collect()
    }

    /// A code point, or now and then a double.
    fn any_value(&self, rng: &mut Rng) -> u32 {
        match self.doubles.len() {
            0 => any_point(rng),
            count if rng.below(4) == 0 => DOUBLE + rng.below(count) as u32,
            _ => any_point(rng),
        }
    }
}

/// So many keys, no more than there are.
fn keys(rng: &mut Rng, count: usize, key: impl Fn(&mut Rng) -> u32) -> BTreeSet<u32> {
    let mut keys = BTreeSet::new();
    while keys.len() < count {
        keys.insert(key(rng));
    }
    keys
}

fn any_doubles(rng: &mut Rng) -> Vec<Entry> {
    let count = rng.pick(&[0, 1, 2, 5, 300]);
    (0..count).map(|_| (any_point(rng), any_point(rng))).collect()
}

/// A code point of any length in UTF-8, at an edge or a control.
pub fn any_point(rng: &mut Rng) -> u32 {
    let below = rng.pick(&[0x20, 0x80, 0x800, 0xd800, 0xd800, 0x2000]);
    let from = if below == 0x2000 { 0xe000 } else { 0 };
    match rng.below(4) {
        0 => rng.pick(&EDGES),
        1 => 0x1_0000 + rng.below(0x10_0000) as u32,
        _ => from + rng.below(below) as u32,
    }
}
