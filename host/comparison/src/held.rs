//! The mappings by which the texts of strings, tables and discs are decoded: one for each of sets 3 to 6, which the Rust
//! has too. Now and then no words are lent, or words that are no mapping.

use generate::Rng;
use generate::mapping::{Mapping, any_list, held, mapping_of};
use scarletbook::Mappings;
use std::fmt;
use std::sync::OnceLock;

/// How many lists of words there are that are no mapping.
const BAD: usize = 200;

/// Words that are lent, and what a present text of set 3 to 6 is refused with by them.
#[derive(Clone, Copy)]
pub struct Words {
    pub list: &'static [u32],
    pub refusal: u8,
}

/// No words.
pub const NONE: Words = Words { list: &[], refusal: 9 };

/// Words that are allocated to their number.
type Exact = Box<[u32]>;

/// The data texts of the mappings and their words, those that `tables` makes of the texts, and words that are none.
struct Held {
    texts: [String; 4],
    mappings: [Exact; 4],
    read: [Exact; 4],
    bad: Vec<Exact>,
}

static HELD: OnceLock<Held> = OnceLock::new();

/// Makes the mappings of the run, once, and lends them to the Rust.
pub fn make(seed: u64) {
    let mappings: [Mapping; 4] =
        std::array::from_fn(|set| held(&mut Rng::of_case(seed, set as u64)));
    let rng = &mut Rng::new(seed);
    let texts = mappings.each_ref().map(|mapping| mapping.text(rng));
    let words = |text: &String| ::tables::mapping::words(text.as_bytes()).expect("a data text");
    let held = Held {
        read: texts.each_ref().map(|text| words(text).into()),
        texts,
        bad: bad(rng, &mappings).into_iter().map(Exact::from).collect(),
        mappings: mappings.map(|mapping| mapping.words().into()),
    };
    for (set, text) in (3..).zip(&held.texts) {
        oracle::lent::lend(0, set, text.clone());
    }
    assert!(HELD.set(held).is_ok(), "they are made once");
}

/// Short lists, and the mappings with their last word changed or left out, or one more.
fn bad(rng: &mut Rng, mappings: &[Mapping]) -> Vec<Vec<u32>> {
    let short = std::iter::repeat_with(|| any_list(rng)).filter(|list| !list.is_empty());
    let short = short.filter(|list| mapping_of(list).is_err()).take(BAD);
    let long = mappings.iter().flat_map(|mapping| {
        let words = mapping.words();
        let (_, most) = words.split_last().expect("words have three counts");
        [[most, &[0xd800]].concat(), most.to_vec(), [&words[..], &[0]].concat()]
    });
    let mut bad: Vec<_> = short.collect();
    bad.extend(long);
    bad
}

fn all() -> &'static Held {
    HELD.get().expect("the mappings are made before they are asked for")
}

/// The data text of each set.
pub fn texts() -> impl Iterator<Item = (u8, &'static str)> {
    (3..).zip(&all().texts).map(|(set, text)| (set, text.as_str()))
}

/// All mappings, as `tables` makes them of their data texts.
pub fn read() -> Mappings<'static> {
    (3..).zip(&all().read).fold(Mappings::new(), |mappings, (set, words)| {
        mappings.with(set, words).expect("a set of 3 to 6")
    })
}

/// Whether a code names a set of 3 to 6.
pub fn is_mapped(code: u8) -> bool {
    (3..=6).contains(&(code % 8))
}

/// The mapping of the set that a code names; for Latin-1 some other, which says nothing.
pub fn of(code: u8) -> Words {
    let set = usize::from(code % 8);
    let at = if is_mapped(code) { set - 3 } else { set % 4 };
    Words { list: &all().mappings[at], refusal: 0 }
}

/// Mostly the mapping of the set that a code names; no words; or words that are none.
pub fn any(rng: &mut Rng, code: u8) -> Words {
    let bad = &all().bad;
    match rng.below(16) {
        0..=2 => NONE,
        3..=5 => Words { list: &bad[rng.below(bad.len())], refusal: 12 },
        _ => of(code),
    }
}

impl fmt::Debug for Words {
    fn fmt(&self, f: &mut fmt::Formatter<'_>) -> fmt::Result {
        match self.list.len() {
            count @ ..=16 => write!(f, "{count} words {:x?}", self.list),
            count => write!(f, "{count} words"),
        }
    }
}
