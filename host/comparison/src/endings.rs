//! How the texts ended that a reading hands back, and the warnings 19 of its tracks, beside a plain walk
//! over the bytes of its tables. The Rust has neither: 19 is dropped from the words before they are
//! matched with its list.

use crate::lone::word;
use crate::plain::{self, Item};
use crate::tally::Kind;
use crate::tracks::Handed;
use generate::endings::{
    MOST_BYTES, NONE, TABLE_END, UNTERMINATED, ZERO_BYTE, area_ends, disc_ends, end_at,
    is_unterminated, track_ends, unterminated,
};
use generate::layout::DATA;
use generate::table::Structure;
use generate::text::MOST;
use scarletbook::raw::{MasterToc, TextPlace, Track};
use std::fmt::Debug;

/// The names of the kinds of tracks.
pub const OF_TABLES: &str = "tables, endings";
pub const OF_DISCS: &str = "discs, endings";

/// Strings that are texts of a record, by how they ended and by the bytes before the next zero.
const STRINGS: [&str; 10] = [
    "by a zero byte",
    "by 4,096 bytes",
    "by the end",
    "4,095 before a zero",
    "4,096 before a zero",
    "4,097 before a zero",
    "4,095 before the end",
    "4,096 before the end",
    "4,097 before the end",
    "4,098 and more",
];
const TRACKS: [&str; 7] = [
    "19",
    "19 alone",
    "13 and 19",
    "14, 15, 13 and 19",
    "several such texts",
    "unknown type, no 19",
    "replaced, no 19",
];
const AREAS: [&str; 2] = ["absent", "such a text, no 19"];
const SLOTS: [&str; 2] = ["19 in slot 1", "19 in slot 2"];
const LISTS: [&str; 3] = ["19 among others", "19 and no other", "no 19"];

/// The words of a reading: those that the Rust has too, and those of 19.
#[derive(Debug, PartialEq)]
struct Words {
    others: Vec<u32>,
    unterminated: Vec<u32>,
}

/// What the rule is about, of one track.
#[derive(Debug, PartialEq)]
struct Ended {
    ends: Vec<u8>,
    /// The codes of the track's warnings, in order.
    codes: Vec<u32>,
}

/// Each reading is a case of the lists, and each track and each area that it hands back one of theirs.
pub struct Endings {
    pub lists: Kind,
    pub tracks: Kind,
    pub areas: Kind,
}

impl Endings {
    pub fn of_tables() -> Self {
        let lists = [&LISTS[..], &["1,021 words"]].concat();
        let tracks = [&STRINGS[..], &TRACKS].concat();
        Endings {
            lists: Kind::new("tables, lists", &lists),
            tracks: Kind::new(OF_TABLES, &tracks),
            areas: Kind::new("tables, area ends", &[&STRINGS[..], &AREAS].concat()),
        }
    }

    pub fn of_discs() -> Self {
        let lists = [&LISTS[..], &["2,047 words", "19 in both slots"]].concat();
        let tracks = [&STRINGS[..], &TRACKS, &SLOTS].concat();
        Endings {
            lists: Kind::new("discs, lists", &lists),
            tracks: Kind::new(OF_DISCS, &tracks),
            areas: Kind::new("discs, area ends", &[&STRINGS[..], &AREAS].concat()),
        }
    }

    /// The areas of a reading in the order of their slots, the words of its warnings, and the Rust's.
    pub fn case(&mut self, question: &dyn Debug, handed: &[Handed], words: &[u32], rust: &[u32]) {
        let walked: Vec<u32> = (1..)
            .zip(handed)
            .flat_map(|(slot, handed)| unterminated(handed.table, slot, handed.rust.len()))
            .map(word)
            .collect();
        count_lists(&mut self.lists, rust, &walked);
        let expected = Words { others: rust.to_vec(), unterminated: walked };
        self.lists.case(question, 0, split(words), expected);
        for (slot, handed) in (1..).zip(handed).filter(|(_, handed)| handed.area.present == 1) {
            self.area(question, slot, handed, words, rust);
        }
    }

    fn area(
        &mut self,
        question: &dyn Debug,
        slot: u32,
        handed: &Handed,
        words: &[u32],
        rust: &[u32],
    ) {
        let Handed { area, tracks, table, .. } = handed;
        let ends = area_ends(table);
        self.areas.case(&(question, slot), 0, ends_of(&area.text), ends.to_vec());
        let mut warned = false;
        for (at, track) in tracks.iter().take(area.track_count.into()).enumerate() {
            let library = handed_back(track, codes(words, slot, track.number.into()));
            let walk = by_walk(table, at, codes(rust, slot, at as u32 + 1));
            warned |= walk.codes.last() == Some(&UNTERMINATED.into());
            count_track(&mut self.tracks, slot, table, at, &walk);
            self.tracks.case(&(question, slot, track), 0, library, walk);
        }
        count_area(&mut self.areas, table, &ends, warned);
    }
}

/// Drops 19 from the words.
fn split(words: &[u32]) -> Words {
    let (unterminated, others) =
        words.iter().partition(|&&word| word >> 16 == u32::from(UNTERMINATED));
    Words { others, unterminated }
}

/// The codes of a track's warnings.
fn codes(words: &[u32], slot: u32, number: u32) -> Vec<u32> {
    let track = slot * 256 + number;
    words.iter().filter(|&&word| word & 0xffff == track).map(|word| word >> 16).collect()
}

fn ends_of(texts: &[TextPlace]) -> Vec<u8> {
    texts.iter().map(|text| text.end).collect()
}

fn handed_back(track: &Track, codes: Vec<u32>) -> Ended {
    Ended { ends: ends_of(&track.text), codes }
}

/// By the walk over a table's track, and the codes that the Rust has of it: 19 comes once, as the last.
fn by_walk(table: &[u8], track: usize, mut codes: Vec<u32>) -> Ended {
    let ends = track_ends(table, track).to_vec();
    codes.extend(is_unterminated(&ends).then_some(u32::from(UNTERMINATED)));
    Ended { ends, codes }
}

fn count_lists(kind: &mut Kind, rust: &[u32], walked: &[u32]) {
    kind.class_if("19 among others", !walked.is_empty() && !rust.is_empty());
    kind.class_if("19 and no other", !walked.is_empty() && rust.is_empty());
    kind.class_if("no 19", walked.is_empty());
    kind.class_if("1,021 words", rust.len() + walked.len() == 1021);
    kind.class_if("2,047 words", rust.len() + walked.len() == 2047);
    let slot = |slot| walked.iter().any(|word| word >> 8 & 255 == slot);
    kind.class_if("19 in both slots", slot(1) && slot(2));
}

fn count_track(kind: &mut Kind, slot: u32, table: &[u8], track: usize, ended: &Ended) {
    let block = plain::first_of(&plain::met(table), Structure::TrackText);
    let items = plain::track_items(table, plain::text_at(table, block, track));
    for item in plain::last_nonempty(&items).into_iter().flatten() {
        count_string(kind, table, item.place);
    }
    let warned = is_unterminated(&ended.ends);
    let such = ended.ends.iter().filter(|&&end| end > ZERO_BYTE).count();
    kind.class_if("19", warned);
    kind.class_if("19 alone", ended.codes == [19]);
    kind.class_if("13 and 19", ended.codes.ends_with(&[13, 19]));
    kind.class_if("14, 15, 13 and 19", ended.codes == [14, 15, 13, 19]);
    kind.class_if("several such texts", such > 1);
    kind.class_if("19 in slot 1", warned && slot == 1);
    kind.class_if("19 in slot 2", warned && slot == 2);
    let unterminated = |item: &&Item| item.len > 0 && end_at(table, item.place) != ZERO_BYTE;
    let (known, unknown): (Vec<&Item>, Vec<_>) =
        items.iter().filter(unterminated).partition(|item| plain::index(item.kind).is_some());
    kind.class_if("unknown type, no 19", !warned && !unknown.is_empty());
    kind.class_if("replaced, no 19", !warned && !known.is_empty());
}

fn count_area(kind: &mut Kind, table: &[u8], ends: &[u8], warned: bool) {
    for item in (0..ends.len()).filter(|&item| ends[item] != NONE) {
        count_string(kind, table, plain::number16(table, 144 + 2 * item));
    }
    kind.class("absent", ends.iter().filter(|&&end| end == NONE).count());
    kind.class_if("such a text, no 19", is_unterminated(ends) && !warned);
}

/// A string by how it ended, and by how many bytes stand before a zero or the table's end.
fn count_string(kind: &mut Kind, table: &[u8], place: usize) {
    let rest = table.get(place..).unwrap_or_default();
    let bytes = rest.iter().take(MOST + 2).take_while(|&&byte| byte != 0).count();
    let to_the_end = bytes == rest.len();
    let end = end_at(table, place);
    kind.class_if("by a zero byte", end == ZERO_BYTE);
    kind.class_if("by 4,096 bytes", end == MOST_BYTES);
    kind.class_if("by the end", end == TABLE_END);
    kind.class_if("4,095 before a zero", bytes == MOST - 1 && !to_the_end);
    kind.class_if("4,096 before a zero", bytes == MOST && !to_the_end);
    kind.class_if("4,097 before a zero", bytes == MOST + 1 && !to_the_end);
    kind.class_if("4,095 before the end", bytes == MOST - 1 && to_the_end);
    kind.class_if("4,096 before the end", bytes == MOST && to_the_end);
    kind.class_if("4,097 before the end", bytes == MOST + 1 && to_the_end);
    kind.class_if("4,098 and more", bytes > MOST + 1);
}

/// The ends of a disc's texts.
pub fn disc_kind() -> Kind {
    let ends = ["by a zero byte", "by the end", "absent", "of a silent disc"];
    let behind = ["zero behind sector 1", "byte behind sector 1", "such a text, no 19"];
    Kind::new("discs, disc ends", &[&ends[..], &behind].concat())
}

/// A reading that gives a master record, accepted or silent, of these ten sectors.
pub fn disc_case(
    kind: &mut Kind,
    question: &dyn Debug,
    refusal: u8,
    record: &MasterToc,
    (master, words): (&[u8], &[u32]),
) {
    let ends = disc_ends(master);
    kind.case(question, refusal, ends_of(&record.text), ends.to_vec());
    let count = |wanted| ends.iter().filter(|&&end| end == wanted).count();
    let behind = master[2 * DATA];
    kind.class("by a zero byte", count(ZERO_BYTE));
    kind.class("by the end", count(TABLE_END));
    kind.class("absent", count(NONE));
    kind.class_if("of a silent disc", refusal == 6 && is_unterminated(&ends));
    kind.class("zero behind sector 1", if behind == 0 { count(TABLE_END) } else { 0 });
    kind.class("byte behind sector 1", if behind != 0 { count(TABLE_END) } else { 0 });
    let warned = !split(words).unterminated.is_empty();
    kind.class_if("such a text, no 19", is_unterminated(&ends) && !warned);
}

#[cfg(test)]
mod tests {
    use super::*;
    use crate::lone::Lone;
    use generate::table::{ending, endings, most_warnings};

    /// Both tracks have 4,096 bytes before a zero: of a known type, replaced, and of an unknown one. The
    /// second track has 13.
    const KNOWN: usize = 36;
    const REPLACED: usize = 37;
    const UNKNOWN: usize = 40;

    /// The differences of lists, tracks and areas in a right answer that is changed.
    fn differences(table: &[u8], change: impl Fn(&mut Lone)) -> [u64; 3] {
        let (right, mut lone) = (Lone::read(table), Lone::read(table));
        change(&mut lone);
        let Lone { area, tracks, words, .. } = lone;
        let handed = Handed { area, tracks: &tracks, rust: &right.tracks, table };
        let mut endings = Endings::of_tables();
        endings.case(&"a table", &[handed], &words, &right.rust_words);
        assert_eq!((endings.lists.cases, endings.areas.cases), (1, 1));
        assert_eq!(endings.tracks.cases, tracks.len() as u64);
        [endings.lists, endings.tracks, endings.areas].map(|kind| kind.differences)
    }

    fn table(number: usize) -> Vec<u8> {
        ending(number).expect("a table for how strings end")
    }

    #[test]
    fn a_right_answer_passes() {
        for table in endings().into_iter().chain([most_warnings()]) {
            assert_eq!(differences(&table, |_| {}), [0, 0, 0]);
        }
    }

    #[test]
    fn other_ends_are_found() {
        let known = table(KNOWN);
        assert_eq!(differences(&known, |lone| lone.tracks[1].text[0].end = 1), [0, 1, 0]);
        assert_eq!(differences(&known, |lone| lone.tracks[0].text[13].end = 1), [0, 1, 0]);
        assert_eq!(differences(&known, |lone| lone.area.text[0].end = 1), [0, 0, 1]);
        assert_eq!(differences(&known, |lone| lone.area.text[3].end = 3), [0, 0, 1]);
    }

    #[test]
    fn a_missing_a_needless_and_a_second_19_are_found() {
        let words = Lone::read(&table(KNOWN)).words;
        let [first, unknown, second] = words[..] else { panic!("three warnings") };
        let found = |table: &[u8], words: &[u32]| {
            let [lists, tracks, _] = differences(table, |lone| lone.words = words.to_vec());
            [lists, tracks]
        };
        let known = table(KNOWN);
        assert_eq!(found(&known, &[first, unknown]), [1, 1]);
        assert_eq!(found(&known, &[unknown]), [1, 2]);
        assert_eq!(found(&known, &[first, first, unknown, second]), [1, 1]);
        assert_eq!(found(&known, &[first, second, unknown]), [0, 1]);
        assert_eq!(found(&known, &[first, second]), [1, 1]);
        assert_eq!(found(&known, &[first + 256, unknown, second]), [1, 1]);
        for number in [REPLACED, UNKNOWN] {
            let right = Lone::read(&table(number)).words;
            let more = [&right[..], &[second]].concat();
            assert_eq!(found(&table(number), &right), [0, 0]);
            assert_eq!(found(&table(number), &more), [1, 1]);
        }
    }

    #[test]
    fn a_disc_text_that_goes_on_behind_its_sector_is_found() {
        let mut master = vec![0; 10 * DATA];
        master[DATA..DATA + 8].copy_from_slice(b"SACDText");
        master[DATA + 16..DATA + 18].copy_from_slice(&[7, 255]);
        master[2 * DATA - 1..2 * DATA + 2].copy_from_slice(b"zz\0");
        let differences = |end| {
            let mut record = MasterToc::default();
            record.text[0] = TextPlace { place: 2047, end };
            let mut kind = disc_kind();
            disc_case(&mut kind, &"a disc", 0, &record, (&master, &[]));
            assert_eq!((kind.count("by the end"), kind.count("byte behind sector 1")), (1, 1));
            kind.differences
        };
        assert_eq!([1, 2, 3].map(differences), [1, 1, 0]);
    }
}
