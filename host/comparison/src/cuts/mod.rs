//! Demand 3, on the compiled library: images that are cut at any byte and rewritten. What each cut
//! must give comes from the uncut image's copies, read by the Rust as lone tables.

mod places;
mod rewrite;
mod rules;
mod samples;

use crate::disc::memory::{Left, Lent, Memory, Room};
use crate::tally::Kind;
use generate::Rng;
use generate::disc::{Disc, MASTER, MASTER_SECTORS};
use generate::layout::{DATA, layout};
use rewrite::{REWRITINGS, Rewriting, cut};
use rules::{Rules, Slot, Yield};
use samples::NAMES;
use scarletbook::raw::{Area, DiscAnswer, FIRST_TRACKS, Lsn, REGIONS};

/// The first sector behind the master table.
const BEHIND: usize = MASTER + MASTER_SECTORS;
/// So many cuts of each disc make a full run.
const FULL: usize = 1_000;

#[derive(Debug)]
#[allow(dead_code)] // its fields are printed
struct Question {
    disc: &'static str,
    format: u32,
    cut: usize,
    rewriting: Rewriting,
}

/// A kind for each clause, and the cuts of each disc in each format.
struct Cuts {
    discs: [Kind; 3],
    places: Kind,
    below: Kind,
    master: Kind,
    slots: Kind,
    silent: Kind,
    tracks: Kind,
    longer: Kind,
}

/// Cuts each disc in each format at as many places past the master table, and at some below.
pub fn kinds(seed: u64, cuts: usize) -> Vec<Kind> {
    let mut all = Cuts::new(if cuts < FULL { 1 } else { FULL as u64 });
    let mut memory = Memory::new(5);
    for format in 0..3 {
        for name in NAMES {
            let mut rng = Rng::of_case(seed, u64::from(format));
            all.disc(&mut rng, name, &samples::sample(name, format), cuts, &mut memory);
        }
    }
    let Cuts { discs, places, below, master, slots, silent, tracks, longer } = all;
    discs.into_iter().chain([places, below, master, slots, silent, tracks, longer]).collect()
}

impl Cuts {
    fn new(least: u64) -> Self {
        let discs = ["cuts, format 0", "cuts, format 1", "cuts, format 2"]
            .map(|name| Kind { least, ..Kind::new(name, &NAMES) });
        let yields = ["first copy", "second copy", "no copy left", "first copy skipped"];
        let nothing = ["second copy skipped", "no second copy", "second not named"];
        let others = ["unused slot", "above 128 sectors"];
        let tracks = ["of the first copy", "of the second copy", "of either"];
        let copies = ["the same copy", "the other copy", "both copies left", "one copy left"];
        Cuts {
            discs,
            places: places::kind(),
            below: Kind::new("below 520 sectors", &["no byte", "cut master", "520 sectors - 1"]),
            master: Kind::new("master records", &["accepted", "refusal 6"]),
            slots: Kind::new("slots of cuts", &[&yields[..], &nothing, &others].concat()),
            silent: Kind::new("silent cuts", &["accepted", "refusal 6"]),
            tracks: Kind::new("tracks of cuts", &tracks),
            longer: Kind::new("longer cuts", &[&copies[..], &["other rewriting"]].concat()),
        }
    }

    fn disc(
        &mut self,
        rng: &mut Rng,
        name: &'static str,
        uncut: &Disc,
        cuts: usize,
        memory: &mut Memory,
    ) {
        let rules = Rules::of(uncut);
        let planted = samples::planted(rng);
        let mut shown = [None, None];
        for at in places::places(rng, uncut, &rules, cuts) {
            let (rewriting, class) = rng.pick(&REWRITINGS);
            let disc = cut(rng, uncut, &rules.kept, at, rewriting, &planted);
            let question = Question { disc: name, format: uncut.format, cut: at, rewriting };
            let answer = memory.read(disc.format, &disc.bytes, Room::EXACT);
            if disc.sectors() < BEHIND {
                self.below(&question, memory.left(answer, refused(3)));
            } else {
                self.discs[uncut.format as usize].cases += 1;
                self.discs[uncut.format as usize].class(name, 1);
                self.places.class(class, 1);
                places::count(&mut self.places, &disc, &rules);
                let yields = [0, 1].map(|slot| yielded(&answer, &memory.ours, slot));
                self.clauses(&question, &disc, &rules, &answer, &yields);
                self.longer(&question, &rules, disc.sectors(), &yields, &mut shown);
            }
            memory.restore();
        }
    }

    /// Refusal 3, and all memory is as it was.
    fn below(&mut self, question: &Question, left: [Left; 2]) {
        let [library, expected] = left;
        let kind = &mut self.below;
        kind.case(question, 3, library, expected);
        kind.class_if("no byte", question.cut == 0);
        let stored = layout(question.format).map_or(DATA, |form| form.stored);
        kind.class_if("cut master", (MASTER..BEHIND).contains(&(question.cut / stored)));
        kind.class_if("520 sectors - 1", question.cut + 1 == BEHIND * stored);
    }

    fn clauses(
        &mut self,
        question: &Question,
        disc: &Disc,
        rules: &Rules,
        answer: &DiscAnswer,
        yields: &[Option<Yield>; 2],
    ) {
        let refusal = if yields.iter().any(Option::is_some) { 0 } else { 6 };
        self.master.case(question, refusal, answer.master, rules.master);
        self.silent.case(question, refusal, answer.refusal, refusal);
        for (slot, yields) in rules.slots.iter().zip(yields) {
            let copy = slot.left(disc.sectors());
            let expected = copy.and_then(|copy| copy.yields.as_ref());
            self.slots.case(question, 0, yields.as_ref(), expected);
            count_slot(&mut self.slots, slot, disc.sectors());
            for track in yields.iter().flat_map(|yields| &yields.tracks) {
                let gave = |at: usize| {
                    let copy = slot.copies.get(at).and_then(|copy| copy.yields.as_ref());
                    copy.is_some_and(|yields| yields.tracks.contains(track))
                };
                let given = [gave(0), gave(1)];
                self.tracks.case(&(question, track), 0, given.contains(&true), true);
                self.tracks.class_if("of the first copy", given == [true, false]);
                self.tracks.class_if("of the second copy", given == [false, true]);
                self.tracks.class_if("of either", given == [true, true]);
            }
        }
    }

    /// The first area of a slot with two equal copies comes from every longer cut again, but for
    /// its address. The cuts come in order of their length.
    fn longer(
        &mut self,
        question: &Question,
        rules: &Rules,
        sectors: usize,
        yields: &[Option<Yield>; 2],
        shown: &mut [Option<(Yield, Rewriting)>; 2],
    ) {
        for (at, slot) in rules.slots.iter().enumerate().filter(|(_, slot)| slot.is_double()) {
            let Some((before, rewriting)) = &shown[at] else {
                shown[at] = yields[at].clone().map(|yields| (yields, question.rewriting));
                continue;
            };
            let kind = &mut self.longer;
            let [now, then] = [yields[at].as_ref(), Some(before)].map(|y| y.map(no_address));
            kind.case(question, 0, now, then);
            let address = |yields: &Yield| yields.area.origin.toc_lsn;
            let same = yields[at].as_ref().map(address) == Some(address(before));
            kind.class(if same { "the same copy" } else { "the other copy" }, 1);
            let both = slot.copies.iter().all(|copy| copy.end() <= sectors);
            kind.class(if both { "both copies left" } else { "one copy left" }, 1);
            kind.class_if("other rewriting", *rewriting != question.rewriting);
        }
    }
}

fn refused(refusal: u8) -> DiscAnswer {
    DiscAnswer { refusal, ..DiscAnswer::default() }
}

/// What a slot yields, as the reading hands it back. A record without a flag must be zero.
fn yielded(answer: &DiscAnswer, lent: &Lent, slot: usize) -> Option<Yield> {
    let area = answer.areas()[slot];
    if area == Area::default() {
        return None;
    }
    let tracks = &lent.tracks[FIRST_TRACKS[slot]..][..usize::from(area.track_count).min(255)];
    let bytes = usize::from(area.origin.toc_sectors).min(128) * DATA;
    let bytes = &lent.work[REGIONS[slot]..][..bytes];
    Some(Yield { area, tracks: tracks.to_vec(), bytes: bytes.to_vec() })
}

fn no_address(yields: &Yield) -> Yield {
    let mut yields = yields.clone();
    yields.area.origin.toc_lsn = Lsn(0);
    yields
}

fn count_slot(kind: &mut Kind, slot: &Slot, sectors: usize) {
    let Some(first) = slot.copies.first() else {
        return kind.class(if slot.used { "above 128 sectors" } else { "unused slot" }, 1);
    };
    let second = slot.copies.get(1);
    match slot.left(sectors) {
        Some(copy) if copy.lsn == first.lsn => {
            let class = if copy.yields.is_some() { "first copy" } else { "first copy skipped" };
            kind.class(class, 1);
            kind.class_if("no second copy", second.is_some_and(|copy| copy.end() > sectors));
        }
        Some(copy) => {
            let class = if copy.yields.is_some() { "second copy" } else { "second copy skipped" };
            kind.class(class, 1);
        }
        None => kind.class("no copy left", 1),
    }
    kind.class_if("second not named", second.is_none());
}
