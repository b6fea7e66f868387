//! The classes of strings that are decoded by a mapping.

use crate::tally::Kind;
use generate::Rng;
use generate::mapping::{DOUBLE, EDGES, Element, Mapping, RESERVED, Source};
use generate::text::{MOST, any_page_length};
use scarletbook::raw::DecodeAnswer;

/// The code points at an edge, in the order of [`EDGES`].
const POINTS: [&str; EDGES.len()] = [
    "point 0",
    "point 1F",
    "point 20",
    "point 7F",
    "point 80",
    "point 7FF",
    "point 800",
    "point D7FF",
    "point E000",
    "point FFFD",
    "point FFFE",
    "point FFFF",
    "point 10000",
    "point 10FFFF",
];

const LENGTHS: [&str; 4] = ["1 byte", "2 bytes", "3 bytes", "4 bytes"];

pub fn kind(name: &'static str) -> Kind {
    let sets = ["accepted", "set 3", "set 4", "set 5", "set 6"];
    let held = ["pair", "single", "double in a single", "double in a pair"];
    let order = ["pair before single", "pair behind an unmapped byte", "a pair at the end"];
    let unmapped = ["unmapped pair", "unmapped single", "first byte at the end"];
    let reserved = ["reserved in set 3", "reserved before single", "reserved in another set"];
    let kept = ["reserved and held", "reserved and held in another set"];
    let controls = ["control of a single", "control of a pair", "control of a double"];
    let parts = ["control first in a double", "control second in a double"];
    let strings = ["one byte", "a zero byte", "4,096 bytes", "more than 4,096 bytes"];
    let pages = ["refusal 10", "page to the byte", "one byte short", "longer page", "no page"];
    let most = ["8 bytes for each byte", "8 for each, one byte short"];
    let room = ["page of 8 for each byte", "page one below that"];
    let classes = [&sets[..], &held, &order, &unmapped, &reserved, &kept, &controls, &parts];
    let classes = [&classes.concat()[..], &LENGTHS, &POINTS, &strings, &pages, &most, &room];
    Kind::new(name, &classes.concat())
}

/// A page for a string of so many bytes whose text has so many: as for any text, or 8 bytes for each byte, or one less.
pub fn any_page(rng: &mut Rng, bytes: usize, need: usize) -> usize {
    match rng.below(8) {
        0 => 8 * bytes,
        1 => 8 * bytes - 1,
        _ => any_page_length(rng, need),
    }
}

pub fn count_page(kind: &mut Kind, bytes: usize, need: usize, page: usize, answer: DecodeAnswer) {
    let (fits, short) = (answer.refusal == 0, answer.refusal == 10 && page + 1 == need);
    kind.class_if("page to the byte", fits && page == need);
    kind.class_if("one byte short", short);
    kind.class_if("longer page", fits && page > need);
    kind.class_if("no page", answer.refusal == 10 && page == 0);
    kind.class_if("8 bytes for each byte", fits && need == 8 * bytes);
    kind.class_if("8 for each, one byte short", short && need == 8 * bytes);
    kind.class_if("page of 8 for each byte", fits && page == 8 * bytes && need < page);
    kind.class_if("page one below that", fits && page + 1 == 8 * bytes);
}

/// What a string of a set is of.
pub struct Met<'a> {
    mapping: &'a Mapping,
    set: u8,
    string: &'a [u8],
    elements: Vec<Element>,
    /// The code points of all values.
    points: Vec<u32>,
}

impl<'a> Met<'a> {
    pub fn new(mapping: &'a Mapping, set: u8, string: &'a [u8]) -> Self {
        let elements = mapping.elements(set, string);
        let values = elements.iter().filter_map(|element| element.value);
        let points = values.flat_map(|value| mapping.points(value)).collect();
        Met { mapping, set, string, elements, points }
    }

    fn any(&self, test: impl Fn(&Element) -> bool) -> bool {
        self.elements.iter().any(test)
    }

    /// Whether a source gives a value that passes.
    fn value(&self, source: Source, test: impl Fn(u32) -> bool) -> bool {
        self.any(|element| element.source == source && element.value.is_some_and(&test))
    }

    /// The byte that an element begins with.
    fn byte(&self, element: &Element) -> u8 {
        self.string[element.at]
    }

    /// Whether an element's byte and the next are a reserved pair.
    fn is_reserved(&self, element: &Element) -> bool {
        let next = self.string.get(element.at + 1);
        let key = next.map(|&next| u16::from_be_bytes([self.byte(element), next]));
        key.is_some_and(|key| RESERVED.contains(&key.into()))
    }

    fn is_at_the_end(&self, element: &Element) -> bool {
        element.at + 1 == self.string.len()
    }
}

pub fn count(kind: &mut Kind, met: &Met) {
    for (set, class) in [(3, "set 3"), (4, "set 4"), (5, "set 5"), (6, "set 6")] {
        kind.class_if(class, met.set == set);
    }
    count_sources(kind, met);
    count_reserved(kind, met);
    count_controls(kind, met);
    for (&edge, class) in EDGES.iter().zip(POINTS) {
        kind.class_if(class, met.points.contains(&edge));
    }
    let length = |point: u32| char::from_u32(point.max(0x20)).map_or(0, char::len_utf8);
    for (bytes, class) in (1..).zip(LENGTHS) {
        kind.class_if(class, met.points.iter().any(|&point| length(point) == bytes));
    }
    kind.class_if("one byte", met.string.len() == 1);
    kind.class_if("a zero byte", met.string.contains(&0));
    kind.class_if("4,096 bytes", met.string.len() == MOST);
    kind.class_if("more than 4,096 bytes", met.string.len() > MOST);
}

fn count_sources(kind: &mut Kind, met: &Met) {
    let mapping = met.mapping;
    kind.class_if("pair", met.any(|element| element.source == Source::Pair));
    kind.class_if("single", met.any(|element| element.source == Source::Single));
    kind.class_if("double in a single", met.value(Source::Single, |value| value >= DOUBLE));
    kind.class_if("double in a pair", met.value(Source::Pair, |value| value >= DOUBLE));
    let begins = |element: &Element| mapping.begins_pair(met.byte(element));
    let has_single = |element: &Element| mapping.single(met.byte(element)).is_some();
    let pair = |element: &Element| element.source == Source::Pair;
    let unmapped = |element: &Element| element.source == Source::Unmapped;
    kind.class_if("pair before single", met.any(|element| pair(element) && has_single(element)));
    let behind = met.elements.windows(2).any(|two| unmapped(&two[0]) && pair(&two[1]));
    kind.class_if("pair behind an unmapped byte", behind);
    kind.class_if("a pair at the end", met.elements.last().is_some_and(pair));
    let inside = |element: &Element| unmapped(element) && !met.is_at_the_end(element);
    kind.class_if("unmapped pair", met.any(|element| inside(element) && begins(element)));
    kind.class_if("unmapped single", met.any(|element| unmapped(element) && !begins(element)));
    let last = |element: &Element| met.is_at_the_end(element) && begins(element);
    kind.class_if("first byte at the end", met.any(last));
}

fn count_reserved(kind: &mut Kind, met: &Met) {
    let reserved = |element: &Element| element.source == Source::Reserved;
    let has_single = |element: &Element| met.mapping.single(met.byte(element)).is_some();
    kind.class_if("reserved in set 3", met.any(reserved));
    kind.class_if(
        "reserved before single",
        met.any(|element| reserved(element) && has_single(element)),
    );
    let by_byte = |element: &Element| matches!(element.source, Source::Single | Source::Unmapped);
    let not_here = met.any(|element| by_byte(element) && met.is_reserved(element));
    kind.class_if("reserved in another set", not_here);
    let held = met.any(|element| element.source == Source::Pair && met.is_reserved(element));
    kind.class_if("reserved and held", held && met.set == 3);
    kind.class_if("reserved and held in another set", held && met.set != 3);
}

fn count_controls(kind: &mut Kind, met: &Met) {
    let control = |point: u32| point < 0x20;
    kind.class_if("control of a single", met.value(Source::Single, control));
    kind.class_if("control of a pair", met.value(Source::Pair, control));
    let double = |value: u32| met.mapping.doubles.get(value.checked_sub(DOUBLE)? as usize);
    let doubles = met.elements.iter().filter_map(|element| element.value).filter_map(double);
    let doubles: Vec<_> = doubles.collect();
    let first = doubles.iter().any(|double| control(double.0));
    let second = doubles.iter().any(|double| control(double.1));
    kind.class_if("control of a double", first || second);
    kind.class_if("control first in a double", first);
    kind.class_if("control second in a double", second);
}
