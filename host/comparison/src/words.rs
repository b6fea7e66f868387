//! Lists of words, mappings and others: whether refusal 12 comes for a text of set 3 to 6, by a plain test written a second
//! time, and that no other text hangs on them.

use crate::guard::Guarded;
use crate::mappings::expected;
use crate::sectors::Buffer;
use crate::strings::Decoded;
use crate::tally::Kind;
use crate::threads::{in_threads, sums};
use generate::Rng;
use generate::mapping::{Cause, DOUBLE, Fault, List, Mapping, any_list, mapping_of};
use scarletbook::raw::{self, DecodeAnswer};
use std::collections::BTreeSet;

/// So many lists make a full run: then each cause comes alone at least [`LEAST`] times.
const FULL: u64 = 1_000_000;
const LEAST: u64 = 10_000;

/// The names of the kinds that the table of what was covered has.
pub const LISTS: &str = "lists of words";
pub const ALONE: &str = "words, one cause";

/// Each cause in each list where it can be met.
const CAUSES: [(Fault, &str); 20] = [
    ((Cause::CountMissing, List::Pairs), "count of pairs missing"),
    ((Cause::CountMissing, List::Doubles), "count of doubles missing"),
    ((Cause::CountBeyond, List::Singles), "count of singles beyond"),
    ((Cause::CountBeyond, List::Pairs), "count of pairs beyond"),
    ((Cause::CountBeyond, List::Doubles), "count of doubles beyond"),
    ((Cause::KeyRepeated, List::Singles), "single repeated"),
    ((Cause::KeyRepeated, List::Pairs), "pair repeated"),
    ((Cause::KeyFalling, List::Singles), "singles falling"),
    ((Cause::KeyFalling, List::Pairs), "pairs falling"),
    ((Cause::KeyWide, List::Singles), "single too wide"),
    ((Cause::KeyWide, List::Pairs), "pair too wide"),
    ((Cause::IndexBeyond, List::Singles), "index beyond, single"),
    ((Cause::IndexBeyond, List::Pairs), "index beyond, pair"),
    ((Cause::Surrogate, List::Singles), "surrogate, single"),
    ((Cause::Surrogate, List::Pairs), "surrogate, pair"),
    ((Cause::Surrogate, List::Doubles), "surrogate, double"),
    ((Cause::PointAbove, List::Singles), "above 10FFFF, single"),
    ((Cause::PointAbove, List::Pairs), "above 10FFFF, pair"),
    ((Cause::PointAbove, List::Doubles), "above 10FFFF, double"),
    ((Cause::LeftOver, List::Doubles), "words left over"),
];

/// Code points at an edge of what is refused.
const BAD: [(u32, &str); 3] =
    [(0xd800, "point D800"), (0xdfff, "point DFFF"), (0x11_0000, "point 110000")];

/// Code points at the same edges that are not refused.
const GOOD: [(u32, &str); 3] =
    [(0xd7ff, "point D7FF"), (0xe000, "point E000"), (0x10_ffff, "point 10FFFF")];

/// What a call leaves: its answer, the page, and whether the words are as they were.
type Left<'a> = (Decoded<'a>, bool);

#[derive(Debug)]
#[allow(dead_code)] // its fields are printed
struct Question<'a> {
    list: &'a [u32],
    code: u8,
    bytes: &'a [u8],
    page: usize,
}

struct Run {
    lists: Kind,
    alone: Kind,
    /// The same words for Latin-1 and for no bytes, and no words.
    latin_1: Kind,
    absent: Kind,
    none: Kind,
}

/// So many lists, made from the seed and their number, in threads.
pub fn kinds(seed: u64, lists: u64) -> Vec<Kind> {
    let runs = in_threads(lists, |cases| {
        let mut run = Run::new();
        cases.for_each(|case| run.case(&mut Rng::of_case(seed, case)));
        run.kinds(lists)
    });
    sums(runs)
}

impl Run {
    fn new() -> Self {
        let answers = ["accepted", "refusal 9", "refusal 12", "refusal 10", "12 before 10"];
        let sets = ["set 3", "set 4", "set 5", "set 6", "several causes"];
        let sound = ["no entries", "single 255", "pair 65,535", "index of the last double"];
        let edges = ["single 256", "pair 65,536", "index of the count", "index as a point"];
        let counts = ["count from 2^31 on", "one word", "a zero left over", "over 10,000 words"];
        let [good, bad] = [&GOOD.map(|word| word.1)[..], &BAD.map(|word| word.1)];
        let classes = [&answers[..], &sets, &sound, &edges, &counts, good, bad].concat();
        Run {
            lists: Kind::new(LISTS, &classes),
            alone: Kind::new(ALONE, &CAUSES.map(|cause| cause.1)),
            latin_1: Kind::new("words, Latin-1", &["accepted", "refusal 10", "no mapping"]),
            absent: Kind::new("words, no bytes", &["no mapping"]),
            none: Kind::new("no words", &["refusal 9", "9 before 10"]),
        }
    }

    fn kinds(self, lists: u64) -> Vec<Kind> {
        let least = if lists < FULL { 1 } else { LEAST };
        let alone = Kind { least, ..self.alone };
        vec![self.lists, alone, self.latin_1, self.absent, self.none]
    }

    fn case(&mut self, rng: &mut Rng) {
        let list = any_list(rng);
        let count = 1 + rng.below(6);
        let bytes: Vec<_> = (0..count).map(|_| rng.byte() >> rng.pick(&[0, 0, 4, 7])).collect();
        let set = 3 + rng.below(4) as u8;
        let code = rng.byte() & 0xf8 | set;
        let found = mapping_of(&list);
        let page = rng.pick(&[48, 48, 48, 6, 1, 0]);
        let question = Question { list: &list, code, bytes: &bytes, page };
        self.list_case(rng, &question, &found);
        self.other_cases(rng, question, found.is_err());
    }

    fn list_case(&mut self, rng: &mut Rng, question: &Question, found: &Found) {
        let Question { list, code, bytes, page } = *question;
        let mut ours = Guarded::bytes(rng.below(256), page);
        let mut theirs = ours.clone();
        let library = left(question, &mut ours);
        let answer = match found {
            _ if list.is_empty() => refused(9),
            Err(_) => refused(12),
            Ok(mapping) => expected(&mapping.decoded(code % 8, bytes), &mut theirs),
        };
        let plain = (Decoded { answer, page: Buffer(theirs.all()) }, true);
        self.lists.case(question, answer.refusal, library, plain);
        self.count(question, found, answer);
    }

    /// The words with Latin-1, which answers as with none, and with no bytes; and no words.
    fn other_cases(&mut self, rng: &mut Rng, question: Question, bad: bool) {
        let Question { list, code, page, .. } = question;
        let lent = Guarded::bytes(rng.below(256), page);
        let mut pages = [lent.clone(), lent.clone()];
        let latin_1 = Question { code: code & 0xf8 | rng.pick(&[0, 1, 2, 7]), ..question };
        let without = Question { list: &[], ..latin_1 };
        let [with_words, with_none] = &mut pages;
        let none = left(&without, with_none);
        let refusal = none.0.answer.refusal;
        self.latin_1.case(&latin_1, refusal, left(&latin_1, with_words), none);
        self.latin_1.class_if("no mapping", bad && !list.is_empty());
        let (mut absent, mut nine) = (lent.clone(), lent.clone());
        let nothing = Question { bytes: &[], ..question };
        self.absent.case(&nothing, 0, left(&nothing, &mut absent), unchanged(0, &lent));
        self.absent.class_if("no mapping", bad && !list.is_empty());
        let without = Question { list: &[], ..question };
        self.none.case(&without, 9, left(&without, &mut nine), unchanged(9, &lent));
        self.none.class_if("9 before 10", page == 0);
    }

    fn count(&mut self, question: &Question, found: &Found, answer: DecodeAnswer) {
        let Question { list, code, page, .. } = *question;
        let kind = &mut self.lists;
        for (set, class) in [(3, "set 3"), (4, "set 4"), (5, "set 5"), (6, "set 6")] {
            kind.class_if(class, code % 8 == set);
        }
        kind.class_if("12 before 10", answer.refusal == 12 && page == 0);
        kind.class_if("one word", list.len() == 1);
        kind.class_if("over 10,000 words", list.len() > 10_000);
        match found {
            Ok(mapping) => count_sound(kind, mapping),
            Err(faults) if faults.len() > 1 => kind.class("several causes", 1),
            Err(_) if list.is_empty() => {}
            Err(faults) => {
                let fault = *faults.first().expect("there is a cause");
                count_alone(kind, list, fault);
                self.alone.cases += 1;
                self.alone.refused += 1;
                let class = CAUSES.iter().find(|cause| cause.0 == fault);
                class.into_iter().for_each(|class| self.alone.class(class.1, 1));
            }
        }
    }
}

/// A mapping, or what is wrong.
type Found = Result<Mapping, BTreeSet<Fault>>;

fn refused(refusal: u8) -> DecodeAnswer {
    DecodeAnswer { refusal, len: 0 }
}

/// What a call of the library leaves.
fn left<'a>(question: &Question, page: &'a mut Guarded<u8>) -> Left<'a> {
    let Question { list, code, bytes, .. } = *question;
    let lent = list.to_vec();
    let answer = raw::decode(bytes, code, &lent, page);
    (Decoded { answer, page: Buffer(page.all()) }, lent == list)
}

fn unchanged(refusal: u8, page: &Guarded<u8>) -> Left<'_> {
    (Decoded { answer: refused(refusal), page: Buffer(page.all()) }, true)
}

fn count_sound(kind: &mut Kind, mapping: &Mapping) {
    let Mapping { singles, pairs, doubles } = mapping;
    let values = || singles.iter().chain(pairs).map(|entry| entry.1);
    kind.class_if("no entries", singles.is_empty() && pairs.is_empty() && doubles.is_empty());
    kind.class_if("single 255", singles.last().is_some_and(|single| single.0 == 255));
    kind.class_if("pair 65,535", pairs.last().is_some_and(|pair| pair.0 == 65_535));
    let last = doubles.len().checked_sub(1).map(|last| DOUBLE + last as u32);
    kind.class_if("index of the last double", values().any(|value| Some(value) == last));
    for (point, class) in GOOD {
        kind.class_if(class, values().any(|value| value == point));
    }
}

/// Words with one thing wrong, in one of the lists.
fn count_alone(kind: &mut Kind, words: &[u32], (cause, list): Fault) {
    let count = |at: usize| words.get(at).copied().unwrap_or(0);
    let behind = |at: usize| at + 1 + 2 * count(at) as usize;
    let at = (0..list as usize).fold(0, |at, _| behind(at));
    match cause {
        Cause::CountMissing => {}
        Cause::CountBeyond => kind.class_if("count from 2^31 on", count(at) >= DOUBLE),
        Cause::LeftOver => kind.class_if("a zero left over", words.last() == Some(&0)),
        _ => {
            let entries = words.get(at + 1..behind(at)).unwrap_or_default();
            count_entries(kind, entries, (cause, list), count(behind(behind(0))));
        }
    }
}

/// Entries of one list, with one thing wrong, beside so many doubles.
fn count_entries(kind: &mut Kind, entries: &[u32], (cause, list): Fault, doubles: u32) {
    let wide = |list_is, key| cause == Cause::KeyWide && list == list_is && entries.contains(&key);
    kind.class_if("single 256", wide(List::Singles, 256));
    kind.class_if("pair 65,536", wide(List::Pairs, 65_536));
    let beyond = cause == Cause::IndexBeyond;
    kind.class_if("index of the count", beyond && entries.contains(&(DOUBLE | doubles)));
    let above = cause == Cause::PointAbove && list == List::Doubles;
    kind.class_if("index as a point", above && entries.iter().any(|&word| word >= DOUBLE));
    let point = matches!(cause, Cause::Surrogate | Cause::PointAbove);
    for (word, class) in BAD {
        kind.class_if(class, point && entries.contains(&word));
    }
}
