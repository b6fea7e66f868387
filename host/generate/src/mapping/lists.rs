//! Lists of words: those of mappings, mostly small ones, with one thing wrong or more, and any.

use super::made::any_point;
use super::valid::{Cause, Fault, List};
use super::{DOUBLE, Entry, Mapping};
use crate::Rng;

/// What can be wrong, in each list.
const FAULTS: [Fault; 21] = [
    (Cause::CountMissing, List::Pairs),
    (Cause::CountMissing, List::Doubles),
    (Cause::CountBeyond, List::Singles),
    (Cause::CountBeyond, List::Pairs),
    (Cause::CountBeyond, List::Doubles),
    (Cause::KeyRepeated, List::Singles),
    (Cause::KeyRepeated, List::Pairs),
    (Cause::KeyFalling, List::Singles),
    (Cause::KeyFalling, List::Pairs),
    (Cause::KeyWide, List::Singles),
    (Cause::KeyWide, List::Pairs),
    (Cause::IndexBeyond, List::Singles),
    (Cause::IndexBeyond, List::Pairs),
    (Cause::Surrogate, List::Singles),
    (Cause::Surrogate, List::Pairs),
    (Cause::Surrogate, List::Doubles),
    (Cause::PointAbove, List::Singles),
    (Cause::PointAbove, List::Pairs),
    (Cause::PointAbove, List::Doubles),
    (Cause::LeftOver, List::Doubles),
    (Cause::LeftOver, List::Doubles),
];

/// Mostly a list with one thing wrong; a mapping; two things wrong; any words; none.
pub fn any_list(rng: &mut Rng) -> Vec<u32> {
    let fault = rng.pick(&FAULTS);
    match rng.below(32) {
        0 => vec![],
        1 => any_words(rng),
        2 | 3 => any_mapping(rng, 0).words(),
        4 => any_mapping(rng, 2).words(),
        5 => {
            let mut mapping = any_mapping(rng, 2);
            put_fault(rng, &mut mapping, fault);
            let second = rng.pick(&FAULTS);
            put_fault(rng, &mut mapping, second);
            with_fault(rng, &mapping.words(), second)
        }
        _ => {
            let mut mapping = any_mapping(rng, 2);
            put_fault(rng, &mut mapping, fault);
            with_fault(rng, &mapping.words(), fault)
        }
    }
}

/// A few words, small ones often.
fn any_words(rng: &mut Rng) -> Vec<u32> {
    let count = 1 + rng.below(12);
    (0..count).map(|_| rng.word() as u32 >> rng.pick(&[0, 8, 16, 28, 30, 31, 31])).collect()
}

/// A mapping of at least so many entries in each list, mostly of a few, now and then of many.
fn any_mapping(rng: &mut Rng, least: usize) -> Mapping {
    let more = match rng.below(1024) {
        0 => 8_000,
        1..=15 => 250,
        16..=79 => 40,
        _ => 5,
    };
    let singles = least + rng.below(more.min(250));
    let [pairs, doubles] = [(); 2].map(|()| least + rng.below(more));
    let doubles: Vec<_> = (0..doubles).map(|_| (any_point(rng), any_point(rng))).collect();
    let value = |rng: &mut Rng| match doubles.len() {
        0 => any_point(rng),
        _ if rng.below(2) == 0 => any_point(rng),
        count => DOUBLE + rng.pick(&[0, count / 2, count - 1]) as u32,
    };
    let entries = |rng: &mut Rng, count: usize, width: u32| -> Vec<Entry> {
        let keys = any_keys(rng, count as u32, width);
        keys.into_iter().map(|key| (key, value(rng))).collect()
    };
    let singles = entries(rng, singles, 256);
    let pairs = entries(rng, pairs, 65_536);
    Mapping { singles, pairs, doubles }
}

/// Keys that rise, in steps of one or more, now and then up to the last that there is.
fn any_keys(rng: &mut Rng, count: u32, width: u32) -> Vec<u32> {
    let mut free = width - count;
    let mut next = 0;
    let mut keys = vec![];
    let to_the_last = rng.below(4) == 0;
    for left in (0..count).rev() {
        let skipped = match left {
            0 if to_the_last => free,
            _ => {
                let any = rng.below(free as usize + 1) as u32;
                rng.pick(&[0, 0, any])
            }
        };
        free -= skipped;
        keys.push(next + skipped);
        next += skipped + 1;
    }
    keys
}

/// Puts a fault of keys, values or code points into a mapping of at least two entries in each list; no other.
fn put_fault(rng: &mut Rng, mapping: &mut Mapping, fault: Fault) {
    let doubles = mapping.doubles.len() as u32;
    let (entries, width) = match fault.1 {
        List::Singles => (&mut mapping.singles, 256),
        List::Pairs => (&mut mapping.pairs, 65_536),
        List::Doubles => (&mut mapping.doubles, 0),
    };
    let any = rng.below(entries.len());
    let at = rng.pick(&[0, any, entries.len() - 1]);
    let (last, next) = (entries.len() - 1, at.max(1));
    match fault.0 {
        Cause::CountMissing | Cause::CountBeyond | Cause::LeftOver => {}
        Cause::KeyRepeated => entries[next].0 = entries[next - 1].0,
        Cause::KeyFalling => {
            (entries[next].0, entries[next - 1].0) = (entries[next - 1].0, entries[next].0)
        }
        Cause::KeyWide => {
            let far = (rng.word() as u32).max(width);
            entries[last].0 = rng.pick(&[width, width, width + 1, far, u32::MAX]);
        }
        Cause::IndexBeyond | Cause::Surrogate | Cause::PointAbove => {
            let word = bad_word(rng, fault, doubles);
            let first = fault.1 == List::Doubles && rng.below(2) == 0;
            *if first { &mut entries[at].0 } else { &mut entries[at].1 } = word;
        }
    }
}

/// A value, or a code point of a double, that is none beside so many doubles.
fn bad_word(rng: &mut Rng, (cause, list): Fault, doubles: u32) -> u32 {
    let far = rng.word() as u32;
    match cause {
        Cause::IndexBeyond => {
            let index = rng.pick(&[doubles, doubles, doubles + 1, far % DOUBLE, DOUBLE - 1]);
            DOUBLE + index.max(doubles)
        }
        Cause::Surrogate => rng.pick(&[0xd800, 0xdfff, 0xd800 + far % 0x800]),
        _ => {
            let above = (far % DOUBLE).max(0x11_0000);
            let index = if list == List::Doubles { DOUBLE + far % 4 } else { above };
            rng.pick(&[0x11_0000, 0x11_0000, above, DOUBLE - 1, index])
        }
    }
}

/// The words with a fault of counts, or as they are for one of another cause.
fn with_fault(rng: &mut Rng, words: &[u32], (cause, list): Fault) -> Vec<u32> {
    let counts = count_places(words);
    let (place, end) = (counts[list as usize], counts[list as usize + 1]);
    match cause {
        Cause::CountMissing => words[..place].to_vec(),
        Cause::CountBeyond => {
            let count = words[place];
            let cut = rng.below(2 * count as usize);
            let far = (rng.word() as u32).max(count + 1);
            let larger = rng.pick(&[count + 1, far, u32::MAX]);
            match rng.below(4) {
                0 => with_count(&words[..end], place, larger),
                // Twice these counts is nothing, or as many words as there are, in 32 bits.
                1 => with_count(words, place, rng.pick(&[DOUBLE, DOUBLE + count])),
                _ => words[..end - 1 - cut].to_vec(),
            }
        }
        Cause::LeftOver => {
            let more = 1 + rng.below(3);
            let any = (0..more).map(|_| rng.word() as u32 >> rng.pick(&[0, 24, 31]));
            words.iter().copied().chain(any).collect()
        }
        _ => words.to_vec(),
    }
}

fn with_count(words: &[u32], place: usize, count: u32) -> Vec<u32> {
    let mut words = words.to_vec();
    words[place] = count;
    words
}

/// Where the three counts of a mapping's words stand, and where these end.
fn count_places(words: &[u32]) -> [usize; 4] {
    let behind = |at: usize| at + 1 + 2 * words[at] as usize;
    let pairs = behind(0);
    let doubles = behind(pairs);
    [0, pairs, doubles, behind(doubles)]
}
