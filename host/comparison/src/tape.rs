//! Gathering for the tape store and the way back: against a plain writing of both, one after the other,
//! and with buffers of unequal length.

use crate::guard::{Differing, Guarded};
use crate::tally::Kind;
use generate::Rng;
use generate::tape::{STORED, gathered, scattered};
use scarletbook::raw;

/// So many longer images, or more, are a full run.
const FULL: u64 = 1000;
/// Every length up to this comes in a full run; what is longer is a longer image.
const EVERY: usize = 9000;
/// One longer image in so many has up to the greatest length, the others up to a twentieth of it.
const RARE: u64 = 25;

/// Classes of lengths; those of a rest are of several sectors.
const LENGTHS: [&str; 8] = [
    "no bytes",
    "no sector",
    "one sector",
    "whole sectors",
    "with a rest",
    "rest of 1",
    "rest of 2,063",
    "over 1,000,000 bytes",
];

type Call = fn(&[u8], &mut [u8]) -> u8;

/// One of the two ways.
struct Way {
    call: Call,
    plain: fn(&[u8]) -> Vec<u8>,
    /// That it is the first of the two.
    first: &'static str,
    /// Buffers that it refuses, in the order of [`others`].
    refused: [&'static str; 5],
}

/// There, and back.
const WAYS: [Way; 2] = [
    Way {
        call: raw::gather_sectors,
        plain: gathered,
        first: "gathered first",
        refused: [
            "gather, one byte more",
            "gather, a sector more",
            "gather, one byte less",
            "gather, a sector less",
            "gather, none lent",
        ],
    },
    Way {
        call: raw::scatter_sectors,
        plain: scattered,
        first: "scattered first",
        refused: [
            "scatter, one byte more",
            "scatter, a sector more",
            "scatter, one byte less",
            "scatter, a sector less",
            "scatter, none lent",
        ],
    },
];

#[derive(Debug)]
#[allow(dead_code)] // its fields are printed
struct Question {
    bytes: usize,
    lent: usize,
}

struct Tape {
    ways: [Kind; 2],
    back: Kind,
    read: Kind,
    refusals: Kind,
}

/// So many longer images beside the shorter ones.
pub fn kinds(seed: u64, longer: u64) -> Vec<Kind> {
    let mut tape = Tape::new();
    for (length, case) in lengths(&mut Rng::new(seed), longer).into_iter().zip(0..) {
        tape.image(&mut Rng::of_case(seed, case), length);
    }
    let Tape { ways, back, read, refusals } = tape;
    ways.into_iter().chain([back, read, refusals]).collect()
}

impl Tape {
    fn new() -> Self {
        let refusals = WAYS.map(|way| way.refused).concat();
        Tape {
            ways: ["gather_sectors", "scatter_sectors"].map(|name| Kind::new(name, &LENGTHS)),
            back: Kind::new("tape, back", &WAYS.map(|way| way.first)),
            read: Kind::new("tape, lent to read", &LENGTHS),
            refusals: Kind::new("tape, refusals", &[&["refusal 20"], &refusals[..]].concat()),
        }
    }

    /// Any bytes, so many, as an image and as gathered ones.
    fn image(&mut self, rng: &mut Rng, length: usize) {
        let mut lent = Guarded::bytes(length, length);
        rng.fill(&mut lent);
        let before = lent.clone();
        for (place, way) in WAYS.iter().enumerate() {
            self.there_and_back(place, &lent);
            self.unequal(way, &lent);
        }
        self.stays(&lent, &before);
    }

    /// What was lent to be read lies in the middle of more memory: all of it must stay as it was.
    fn stays(&mut self, lent: &Guarded<u8>, before: &Guarded<u8>) {
        let question = Question { bytes: lent.len(), lent: lent.len() };
        let [after, before] = lent.differing(before);
        self.read.case(&question, 0, after, before);
        count_length(&mut self.read, lent.len());
    }

    /// A way must write what the plain one does, and of that the other way what there was.
    fn there_and_back(&mut self, way: usize, bytes: &[u8]) {
        let question = Question { bytes: bytes.len(), lent: bytes.len() };
        let (there, back) = (&WAYS[way], &WAYS[1 - way]);
        let (written, [library, plain]) = ask(there.call, bytes, Ok((there.plain)(bytes)));
        self.ways[way].case(&question, 0, library, plain);
        count_length(&mut self.ways[way], bytes.len());
        let before = written.clone();
        let (_, [library, expected]) = ask(back.call, &written, Ok(bytes.to_vec()));
        self.back.case(&question, 0, library, expected);
        self.back.class(there.first, 1);
        self.stays(&written, &before);
    }

    /// Buffers of other lengths are refused by 20 and stay.
    fn unequal(&mut self, way: &Way, bytes: &[u8]) {
        for (class, other) in way.refused.into_iter().zip(others(bytes.len())) {
            let Some(lent) = other else { continue };
            let question = Question { bytes: bytes.len(), lent };
            let (_, [library, expected]) = ask(way.call, bytes, Err(lent));
            self.refusals.case(&question, expected.0, library, expected);
            self.refusals.class(class, 1);
        }
    }
}

/// A refusal, and where all of a buffer's memory first is not as in the other answer.
type Answer = (u8, Differing<u8>);

/// Lends a way a buffer for what it must write, or, so that it refuses, one of another length. The buffer
/// then; and the library's answer and that which is expected.
fn ask(call: Call, bytes: &[u8], expected: Result<Vec<u8>, usize>) -> (Guarded<u8>, [Answer; 2]) {
    let (length, refusal) = expected.as_ref().map_or_else(|&lent| (lent, 20), |all| (all.len(), 0));
    let mut buffer = Guarded::bytes(bytes.len(), length);
    let mut after = buffer.clone();
    if let Ok(all) = expected {
        after.copy_from_slice(&all);
    }
    let answered = call(bytes, &mut buffer);
    let [ours, theirs] = buffer.differing(&after);
    (buffer, [(answered, ours), (refusal, theirs)])
}

/// Lengths of buffers that so many bytes are not to be written to.
fn others(length: usize) -> [Option<usize>; 5] {
    let [one_less, sector_less] = [1, STORED].map(|less| length.checked_sub(less));
    let none = (length > 0).then_some(0);
    [Some(length + 1), Some(length + STORED), one_less, sector_less, none]
}

fn count_length(kind: &mut Kind, length: usize) {
    let (sectors, rest) = (length / STORED, length % STORED);
    kind.class_if("no bytes", length == 0);
    kind.class_if("no sector", sectors == 0 && rest > 0);
    kind.class_if("one sector", sectors == 1);
    kind.class_if("whole sectors", sectors > 1 && rest == 0);
    kind.class_if("with a rest", sectors > 1 && rest > 0);
    kind.class_if("rest of 1", sectors > 1 && rest == 1);
    kind.class_if("rest of 2,063", sectors > 1 && rest == 2063);
    kind.class_if("over 1,000,000 bytes", length > 1_000_000);
}

/// Every short length, or, if the longer images are few, the first ones and those next to the ends of
/// sectors; and so many longer ones.
fn lengths(rng: &mut Rng, longer: u64) -> Vec<usize> {
    let (mut lengths, longest): (Vec<_>, _) = if longer >= FULL {
        ((0..=EVERY).collect(), 40_000_000)
    } else {
        let ends = (1..=5).map(|sectors| sectors * STORED);
        ((0..=100).chain(ends.flat_map(|end| end - 3..=end + 3)).collect(), 2_000_000)
    };
    lengths.extend((0..longer).map(|case| match case {
        0 => EVERY + 1,
        1 => longest,
        _ if case % RARE == 0 => longer_length(rng, longest),
        _ => longer_length(rng, longest / 20),
    }));
    lengths
}

/// At or next to the end of a sector, or anywhere.
fn longer_length(rng: &mut Rng, longest: usize) -> usize {
    let any = EVERY + 1 + rng.below(longest - EVERY);
    let end = any / STORED * STORED;
    rng.pick(&[end - 1, end, end + 1, any]).clamp(EVERY + 1, longest)
}

#[test]
fn a_full_run_has_every_short_length_and_both_ends_of_the_longer_ones() {
    let lengths = lengths(&mut Rng::new(1), FULL);
    assert_eq!(lengths.len(), EVERY + 1 + FULL as usize);
    assert!(lengths[..=EVERY].iter().copied().eq(0..=EVERY));
    let longer = &lengths[EVERY + 1..];
    assert_eq!(longer.iter().min(), Some(&9001));
    assert_eq!(longer.iter().max(), Some(&40_000_000));
    assert!((24..60).contains(&longer.iter().filter(|&&length| length > 2_000_000).count()));
    for rest in [2063, 0, 1] {
        let count = longer.iter().filter(|&length| length % STORED == rest).count();
        assert!(count > 200, "{count} with a rest of {rest}");
    }
}

#[test]
fn a_few_images_are_of_all_classes() {
    for kind in kinds(1, 2) {
        assert_eq!((kind.differences, kind.scant_classes().count()), (0, 0), "{}", kind.name);
    }
}
