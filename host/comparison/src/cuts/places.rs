//! Where images are cut.

use super::rules::Rules;
use super::{BEHIND, MASTER};
use crate::tally::Kind;
use generate::Rng;
use generate::disc::Disc;
use generate::layout::{DATA, Layout};

/// Cuts below the first sector behind the master table, at random.
const BELOW: usize = 12;

/// Places in the order of their length: at, next to and inside the first and the last sector of
/// each copy; and at random, until so many are at or past the first sector behind the master table.
pub fn places(rng: &mut Rng, uncut: &Disc, rules: &Rules, cuts: usize) -> Vec<usize> {
    let Layout { stored, data_at } = uncut.form;
    let end = uncut.bytes.len();
    let behind = BEHIND * stored;
    let mut places = vec![0, MASTER * stored, behind - stored, behind - 1, behind, end - 1, end];
    for copy in rules.slots.iter().flat_map(|slot| &slot.copies) {
        for sector in [copy.lsn, copy.end() - 1] {
            let begin = sector * stored;
            let inside = 1 + rng.below(stored - 1);
            let parts = [0, 1, data_at, data_at + DATA, inside, stored - 1, stored, stored + 1];
            places.extend(parts.map(|part| begin + part));
        }
    }
    places.retain(|&place| place <= end);
    places.extend((0..BELOW).map(|_| rng.below(behind)));
    let enough = places.iter().filter(|&&place| place >= behind).count();
    places.extend((enough..cuts).map(|_| behind + rng.below(end + 1 - behind)));
    places.sort();
    places
}

pub fn kind() -> Kind {
    let sectors = ["at a sector's end", "inside a sector", "uncut", "520 sectors"];
    let copies = ["at a copy's end", "at a copy's begin", "one byte before a copy's end"];
    let inside = ["inside a copy", "inside its first sector", "inside its last sector"];
    let rewritings = super::REWRITINGS.map(|rewriting| rewriting.1);
    Kind::new("places of cuts", &[&sectors[..], &copies, &inside, &rewritings].concat())
}

/// Counts a cut at or past the first sector behind the master table.
pub fn count(kind: &mut Kind, disc: &Disc, rules: &Rules) {
    let (stored, cut) = (disc.form.stored, disc.bytes.len());
    kind.cases += 1;
    kind.class_if("at a sector's end", cut % stored == 0);
    kind.class_if("inside a sector", cut % stored > 0);
    kind.class_if("uncut", cut == rules.kept.len() * stored);
    kind.class_if("520 sectors", cut == BEHIND * stored);
    for copy in rules.slots.iter().flat_map(|slot| &slot.copies) {
        let (begin, end) = (copy.lsn * stored, copy.end() * stored);
        kind.class_if("at a copy's begin", cut == begin);
        kind.class_if("at a copy's end", cut == end);
        kind.class_if("one byte before a copy's end", cut + 1 == end);
        kind.class_if("inside a copy", begin < cut && cut < end);
        kind.class_if("inside its first sector", begin < cut && cut < begin + stored);
        kind.class_if("inside its last sector", end - stored < cut && cut < end);
    }
}
