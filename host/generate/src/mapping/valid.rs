//! Whether words are a mapping, and what is wrong with others: 02's sentences, written once more.

use super::{DOUBLE, Entry, Mapping};
use std::collections::BTreeSet;

/// What refusal 12 is for, in 02's order.
#[derive(Clone, Copy, Debug, PartialEq, Eq, PartialOrd, Ord)]
pub enum Cause {
    CountMissing,
    CountBeyond,
    KeyRepeated,
    KeyFalling,
    KeyWide,
    IndexBeyond,
    Surrogate,
    /// A code point above hexadecimal 10FFFF.
    PointAbove,
    LeftOver,
}

#[derive(Clone, Copy, Debug, PartialEq, Eq, PartialOrd, Ord)]
pub enum List {
    Singles,
    Pairs,
    Doubles,
}

/// A cause, and the list that it is met in. Words left over are behind the doubles.
pub type Fault = (Cause, List);

/// The mapping that words are, or all that is wrong with them; of words with a count missing or beyond them that alone.
pub fn mapping_of(words: &[u32]) -> Result<Mapping, BTreeSet<Fault>> {
    let (singles, rest) = list_of(List::Singles, words)?;
    let (pairs, rest) = list_of(List::Pairs, rest)?;
    let (doubles, rest) = list_of(List::Doubles, rest)?;
    let mut faults = BTreeSet::new();
    if !rest.is_empty() {
        faults.insert((Cause::LeftOver, List::Doubles));
    }
    for (list, entries, width) in [(List::Singles, &singles, 256), (List::Pairs, &pairs, 65_536)] {
        let causes = key_causes(entries, width).chain(value_causes(entries, doubles.len()));
        faults.extend(causes.map(|cause| (cause, list)));
    }
    let points = doubles.iter().flat_map(|&(first, second)| [first, second]);
    faults.extend(points.filter_map(point_cause).map(|cause| (cause, List::Doubles)));
    if faults.is_empty() { Ok(Mapping { singles, pairs, doubles }) } else { Err(faults) }
}

/// The entries of a list behind their count, and the words behind them.
fn list_of(list: List, words: &[u32]) -> Result<(Vec<Entry>, &[u32]), BTreeSet<Fault>> {
    let Some((&count, behind)) = words.split_first() else {
        return Err(BTreeSet::from([(Cause::CountMissing, list)]));
    };
    let Some((entries, rest)) = behind.split_at_checked(2 * count as usize) else {
        return Err(BTreeSet::from([(Cause::CountBeyond, list)]));
    };
    let (entries, _) = entries.as_chunks();
    Ok((entries.iter().map(|&[first, second]| (first, second)).collect(), rest))
}

/// Keys rise strictly, and are below the width.
fn key_causes(entries: &[Entry], width: u32) -> impl Iterator<Item = Cause> {
    let keys: Vec<_> = entries.iter().map(|entry| entry.0).collect();
    let repeated = keys.iter().collect::<BTreeSet<_>>().len() < keys.len();
    let falling = keys.windows(2).any(|two| two[1] < two[0]);
    let wide = keys.iter().any(|&key| key >= width);
    let causes =
        [(repeated, Cause::KeyRepeated), (falling, Cause::KeyFalling), (wide, Cause::KeyWide)];
    causes.into_iter().filter(|cause| cause.0).map(|cause| cause.1)
}

/// A value is a code point, or names one of the doubles.
fn value_causes(entries: &[Entry], doubles: usize) -> impl Iterator<Item = Cause> {
    entries.iter().filter_map(move |&(_, value)| match value.checked_sub(DOUBLE) {
        Some(index) => (index as usize >= doubles).then_some(Cause::IndexBeyond),
        None => point_cause(value),
    })
}

fn point_cause(point: u32) -> Option<Cause> {
    match point {
        0xd800..=0xdfff => Some(Cause::Surrogate),
        0..=0x10ffff => None,
        _ => Some(Cause::PointAbove),
    }
}
