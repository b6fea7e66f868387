//! The table of what a run covered, as the documents have it.

use crate::disc::{CODES, READS};
use crate::endings::{OF_DISCS as ENDS_OF_DISCS, OF_TABLES as ENDS_OF_TABLES};
use crate::mappings::{MAPPINGS, TEXTS};
use crate::strings::BY_MAPPING;
use crate::tally::Kind;
use crate::tracks::{OF_DISCS, OF_TABLES};
use crate::values::Taken;
use crate::words::{ALONE, LISTS};
use scarletbook::{Refusal, WarningCode};

/// A line: what it says, and the kind and its class that count it; all cases for no class.
type Line = (String, &'static str, String);

/// The lines of a run, but for refusals and warnings of discs.
const DISCS: [(&str, &str, &str); 51] = [
    ("images in format 0", READS, "image of format 0"),
    ("images in format 1", READS, "image of format 1"),
    ("images in format 2", READS, "image of format 2"),
    ("images in a foreign format", READS, "foreign image"),
    ("images in 01's domain", READS, "in the domain"),
    ("images not in 01's domain", READS, "not in the domain"),
    ("formats found, or none", "detect_format", ""),
    ("images cut inside a sector", READS, "cut inside a sector"),
    ("slots whose copies are equal", "discs, copies", "equal"),
    ("slots whose copies are unequal", "discs, copies", "unequal"),
    ("slots whose copies overlap", "discs, copies", "overlapping"),
    ("slots with the first copy past the end", "discs, copies", "first past the end"),
    ("slots with the second copy past the end", "discs, copies", "second past the end"),
    ("slots with both copies past the end", "discs, copies", "both past the end"),
    ("slots without a second copy", "discs, copies", "no second"),
    ("slots whose copy lies over the master table", "discs, copies", "over the master"),
    ("discs with areas in both slots", "discs, slots", "both yield"),
    ("discs with an area in slot 1 alone", "discs, slots", "1 alone yields"),
    ("discs with an area in slot 2 alone", "discs, slots", "2 alone yields"),
    ("discs with `MULCHTOC` in slot 1", "discs, slots", "MULCHTOC in 1"),
    ("discs with `TWOCHTOC` in slot 2", "discs, slots", "TWOCHTOC in 2"),
    ("discs with tracks", OF_DISCS, "discs with tracks"),
    ("tracks of discs, each with its stored times", OF_DISCS, ""),
    ("tracks of discs that are capped", OF_DISCS, "capped"),
    ("tracks of discs with warning 19", ENDS_OF_DISCS, "19"),
    ("track texts of discs ended by 4,096 bytes", ENDS_OF_DISCS, "by 4,096 bytes"),
    ("track texts of discs ended by the table's end", ENDS_OF_DISCS, "by the end"),
    ("disc texts", "disc texts", ""),
    ("disc texts by a mapping", "disc texts", BY_MAPPING),
    ("area texts", "disc area texts", ""),
    ("area texts by a mapping", "disc area texts", BY_MAPPING),
    ("track texts", "disc track texts", ""),
    ("track texts by a mapping", "disc track texts", BY_MAPPING),
    ("texts by records that lie", "disc texts by lies", ""),
    ("dumps", "dumps", ""),
    ("lines of dumps", "dumps", "lines"),
    ("lone tables", "read_table", ""),
    ("lone tables with tracks", OF_TABLES, "tables with tracks"),
    ("tracks of lone tables, each with its stored times", OF_TABLES, ""),
    ("tracks of lone tables that are capped", OF_TABLES, "capped"),
    ("tracks of lone tables with warning 19", ENDS_OF_TABLES, "19"),
    ("track texts of lone tables ended by 4,096 bytes", ENDS_OF_TABLES, "by 4,096 bytes"),
    ("track texts of lone tables ended by the table's end", ENDS_OF_TABLES, "by the end"),
    ("track texts of lone tables by a mapping", "track texts", BY_MAPPING),
    ("mappings", MAPPINGS, ""),
    ("mappings of 24,000 pairs", MAPPINGS, "24,000 pairs"),
    ("strings by mappings", TEXTS, ""),
    ("strings by mappings with a reserved pair in set 3", TEXTS, "reserved in set 3"),
    ("lists of words", LISTS, ""),
    ("lists of words that are no mapping", LISTS, "refusal 12"),
    ("lists of words that are none by one cause", ALONE, ""),
];

/// The lines of the table, for a document.
pub fn table(kinds: &[Kind], records: &[Taken]) -> String {
    let mut table = row("Compared", "Count") + &row("---", "---:");
    for (words, kind, class) in lines() {
        let Some(kind) = kinds.iter().find(|other| other.name == kind) else { continue };
        let count = if class.is_empty() { kind.cases } else { kind.count(&class) };
        table += &row(&words, &grouped(count));
    }
    let classes = kinds.iter().map(|kind| kind.classes.len() as u64).sum();
    let scant = kinds.iter().map(|kind| kind.scant_classes().count() as u64).sum();
    let cases = kinds.iter().map(|kind| kind.cases).sum();
    let differences = kinds.iter().map(|kind| kind.differences).sum();
    let fields = records.iter().map(Taken::fields).sum();
    let few = records.iter().map(|record| record.scant().count() as u64).sum();
    let sums = [
        ("fields of records", fields),
        ("fields with too few values", few),
        ("classes of cases", classes),
        ("classes with too few cases", scant),
        ("all answers", cases),
        ("differences", differences),
    ];
    table + &sums.map(|(words, count)| row(words, &grouped(count))).concat()
}

fn lines() -> Vec<Line> {
    let line = |words: &str, kind, class: &str| (words.to_string(), kind, class.to_string());
    let mut lines = vec![line("images", READS, ""), line("accepted", READS, "accepted")];
    for refusal in &Refusal::ALL[..6] {
        lines.push((refusal.to_string(), CODES, format!("refusal {}", refusal.number())));
    }
    for code in WarningCode::ALL {
        let number = code as u8;
        let words = format!("images with warning {number}, {}", code.code());
        lines.push((words, CODES, format!("warning {number}")));
    }
    lines.extend(DISCS.map(|(words, kind, class)| line(words, kind, class)));
    lines
}

fn row(words: &str, count: &str) -> String {
    format!("| {words} | {count} |\n")
}

/// A number with a comma before each three digits.
fn grouped(number: u64) -> String {
    let digits = number.to_string();
    let mut grouped = String::new();
    for (i, digit) in digits.chars().enumerate() {
        if i > 0 && (digits.len() - i).is_multiple_of(3) {
            grouped.push(',');
        }
        grouped.push(digit);
    }
    grouped
}

#[test]
fn numbers_are_grouped() {
    assert_eq!([0, 999, 1000, 1_234_567].map(grouped), ["0", "999", "1,000", "1,234,567"]);
}

#[test]
fn every_line_has_its_class() {
    let mut kinds = crate::disc::kinds(1, 0);
    kinds.push(crate::tracks::Tracks::of_tables().stored);
    kinds.push(crate::endings::Endings::of_tables().tracks);
    kinds.push(crate::texts::Texts::new().track);
    kinds.extend(crate::mappings::part(1, 0, 0));
    kinds.extend(crate::words::kinds(1, 0));
    for (words, kind, class) in lines().iter().filter(|line| line.1 != "read_table") {
        let kind = kinds.iter().find(|other| other.name == *kind).expect(words);
        let known = class.is_empty() || kind.classes.iter().any(|other| other.0 == class);
        assert!(known || class == "warning 16", "{words}");
    }
}
