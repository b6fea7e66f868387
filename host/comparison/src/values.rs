//! The values that the fields of records take where the library's answer and the expected one are equal.
//! Every field of every record that crosses is asked for, by the list of the crate `records`.

use crate::tally::Kind;
use records::{Number, Record};
use std::collections::{BTreeMap, BTreeSet};

/// The values that a field must take at least: three, and the zero of a refused answer.
const LEAST: usize = 4;

/// More values than these are not told apart.
const MOST: usize = 16;

const FLAG: &[u64] = &[0, 1];

/// The fields that have few values, `[*]` standing for every entry of an array: each must take every one of
/// these, and no other.
const FEW: [(&str, &[u64]); 32] = [
    ("comparison.refusal", &[0, 1, 2, 8]),
    ("comparison.equal", FLAG),
    ("fingerprint_answer.refusal", &[0, 1, 8]),
    ("audit_answer.refusal", &[0, 1, 8, 11]),
    ("audit_answer.verdict", &[0, 1, 2, 3]),
    ("mended.refusal", &[0, 1, 8, 11, 14]),
    ("decode_answer.refusal", &[0, 2, 8, 9, 10, 12]),
    ("detect_answer.refusal", &[0, 4]),
    ("detect_answer.sector_format", &[0, 1, 2]),
    ("cap_answer.past_playtime", FLAG),
    ("draw_answer.found", FLAG),
    ("language_code.len", &[0, 1, 2]),
    ("text_place.end", &[0, 1, 2, 3]),
    // A disc's texts stand in 2,048 bytes.
    ("master_toc.text[*].end", &[0, 1, 3]),
    ("area.present", FLAG),
    ("area.kind", &[0, 1, 2]),
    ("track.has_isrc", FLAG),
    ("track.has_genre", FLAG),
    // An ISRC has 12 bytes.
    ("track.isrc.bytes[12]", &[0]),
    ("track.isrc.bytes[13]", &[0]),
    ("track.isrc.bytes[14]", &[0]),
    ("track.isrc.bytes[15]", &[0]),
    ("table_head.skip", &[0, 8, 9, 10, 11]),
    ("table_answer.refusal", &[0, 2, 6, 7]),
    // A lone table is slot 1 at address 0.
    ("table_answer.area.origin.slot", &[0, 1]),
    ("table_answer.area.origin.toc_lsn", &[0]),
    // A major version above 1 is refused.
    ("master_toc.version.major", &[0, 1]),
    ("master_toc.manufacturer", FLAG),
    ("disc_answer.refusal", &[0, 1, 2, 3, 4, 5, 6]),
    ("disc_answer.sector_format", &[0, 1, 2]),
    ("disc_answer.two_channel.origin.slot", &[0, 1]),
    ("disc_answer.multichannel.origin.slot", &[0, 2]),
];

/// What was noted of one record.
struct Noted {
    /// How often it was compared.
    times: u64,
    numbers: Vec<Number>,
    /// The values of each number.
    values: Vec<BTreeSet<u64>>,
}

/// What was noted of each record, by its name.
#[derive(Default)]
pub struct Values {
    noted: BTreeMap<&'static str, Noted>,
}

impl Values {
    /// Notes the numbers of a record that are equal in both.
    pub fn note<R: Record>(&mut self, library: &R, expected: &R) {
        let noted = self.noted.entry(R::NAME).or_insert_with(|| Noted::new(R::list()));
        noted.times += 1;
        let mut theirs = Vec::with_capacity(noted.values.len());
        expected.each(&mut |number| theirs.push(number));
        let mut pairs = theirs.into_iter().zip(&mut noted.values);
        library.each(&mut |number| {
            let (theirs, values) = pairs.next().expect("each record has the numbers of the list");
            if number == theirs && values.len() < MOST {
                values.insert(number);
            }
        });
    }

    /// Notes the records of two lists, pair by pair.
    pub fn note_all<R: Record>(&mut self, library: &[R], expected: &[R]) {
        for (library, expected) in library.iter().zip(expected) {
            self.note(library, expected);
        }
    }

    /// Adds what others noted.
    pub fn add(&mut self, other: &Values) {
        for (name, more) in &other.noted {
            let noted = self.noted.entry(name).or_insert_with(|| Noted::new(more.numbers.clone()));
            noted.times += more.times;
            for (values, more) in noted.values.iter_mut().zip(&more.values) {
                values.extend(more);
            }
        }
    }

    /// What was noted under each name of a number.
    fn by_name(&self) -> BTreeMap<&str, Field> {
        let mut fields = BTreeMap::<_, Field>::new();
        for Noted { times, numbers, values } in self.noted.values() {
            for (number, values) in numbers.iter().zip(values) {
                for name in &number.names {
                    let field = fields.entry(name.as_str()).or_default();
                    field.times += times;
                    field.values.extend(values);
                }
            }
        }
        fields
    }
}

impl Noted {
    fn new(numbers: Vec<Number>) -> Self {
        let values = vec![BTreeSet::new(); numbers.len()];
        Noted { times: 0, numbers, values }
    }
}

/// What was noted of one field, by itself or within a larger record.
#[derive(Clone, Default)]
struct Field {
    times: u64,
    values: BTreeSet<u64>,
}

/// The first line of those that [`Taken::line`] gives.
pub const HEADING: &str = "record                compared     fields       met";

/// What the fields of one record took.
pub struct Taken {
    record: &'static str,
    fields: Vec<(Number, Field)>,
}

/// What the fields of every record took; if not all are asked for, of those that were compared by themselves.
pub fn taken(kinds: &[Kind], all: bool) -> Vec<Taken> {
    let mut sum = Values::default();
    kinds.iter().for_each(|kind| sum.add(&kind.values));
    let by_name = sum.by_name();
    let records = records::records().into_iter();
    let asked = records.filter(|record| all || sum.noted.contains_key(record.0));
    let fields = asked.map(|(record, numbers)| {
        let noted = |number: &Number| by_name.get(number.name()).cloned().unwrap_or_default();
        let fields = numbers.into_iter().map(|number| (number.clone(), noted(&number))).collect();
        Taken { record, fields }
    });
    fields.collect()
}

impl Taken {
    pub fn fields(&self) -> u64 {
        self.fields.len() as u64
    }

    /// The record, how often each field of it was compared at least, its fields, and how many take
    /// the values asked for.
    pub fn line(&self) -> String {
        let Taken { record, fields } = self;
        let times = fields.iter().map(|(_, field)| field.times).min().unwrap_or(0);
        let (count, met) = (fields.len(), fields.len() - self.scant().count());
        format!("{record:<19}{times:>11}{count:>11}{met:>10}")
    }

    /// A line for each field that does not take the values asked for.
    pub fn scant(&self) -> impl Iterator<Item = String> {
        self.fields.iter().filter_map(|(number, field)| scant(number, &field.values))
    }
}

/// Whether a field has a name, or is in the entries that one stands for.
fn is_named(field: &str, name: &str) -> bool {
    let Some((before, behind)) = name.split_once("[*]") else { return field == name };
    let entry = field.strip_prefix(before).and_then(|field| field.strip_suffix(behind));
    entry.is_some_and(|entry| entry.starts_with('[') && entry.find(']') == Some(entry.len() - 1))
}

/// Nothing if a field takes the values asked for.
fn scant(number: &Number, values: &BTreeSet<u64>) -> Option<String> {
    let few = number.names.iter().find_map(|name| FEW.iter().find(|few| is_named(name, few.0)));
    let asked = match few {
        Some((_, few)) if values.iter().eq(*few) => return None,
        Some((_, few)) => format!("{few:?}"),
        None if values.len() >= LEAST => return None,
        None => format!("at least {LEAST}"),
    };
    Some(format!("{}: takes the values {values:?}, not {asked}", number.name()))
}

#[test]
fn every_name_of_few_values_is_a_field() {
    let records = records::records();
    let names = || records.iter().flat_map(|record| &record.1).map(Number::name);
    for (name, _) in FEW {
        let count = if name.contains("[*]") { 16 } else { 1 };
        assert_eq!(names().filter(|other| is_named(other, name)).count(), count, "{name}");
    }
}

#[test]
fn a_field_that_takes_too_few_values_is_named() {
    use scarletbook::raw::{AreaPointer, Comparison, Lsn};
    let mut kind = Kind::new("kind", &[]);
    for number in 0..5 {
        let [ours, theirs] = [2, 3].map(|second| AreaPointer {
            toc1_lsn: Lsn(number),
            toc2_lsn: Lsn(number.min(second)),
            toc_sectors: number.min(2) as u16,
        });
        kind.values.note(&ours, &theirs);
        let refusal = [0, 1, 2, 8, 9][number as usize];
        kind.values.note(&Comparison { refusal, equal: 1 }, &Comparison { refusal, equal: 0 });
    }
    let taken = taken(&[kind], false);
    let scant: Vec<_> = taken.iter().flat_map(Taken::scant).collect();
    let expected = [
        "area_pointer.toc2_lsn: takes the values {0, 1, 2}, not at least 4",
        "area_pointer.toc_sectors: takes the values {0, 1, 2}, not at least 4",
        "comparison.refusal: takes the values {0, 1, 2, 8, 9}, not [0, 1, 2, 8]",
        "comparison.equal: takes the values {}, not [0, 1]",
    ];
    assert_eq!(scant, expected);
    assert_eq!(taken[0].line(), "area_pointer                 5          3         1");
}

#[test]
fn every_record_is_asked_for() {
    let taken = taken(&[], true);
    assert!(taken.iter().all(|record| record.scant().count() == record.fields.len()));
    assert_eq!(taken.len(), records::records().len());
}
