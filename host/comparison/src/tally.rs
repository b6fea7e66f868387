//! Counts the cases of one kind of comparison.

use crate::values::Values;
use records::Record;
use std::fmt::Debug;

/// One kind of comparison.
pub struct Kind {
    pub name: &'static str,
    pub cases: u64,
    pub refused: u64,
    pub differences: u64,
    /// The classes that must have cases, so that no comparison is about nothing.
    pub classes: Vec<(&'static str, u64)>,
    /// The cases that each class must have.
    pub least: u64,
    /// The first case whose answers differ.
    pub first: Option<String>,
    /// The values of the records that were compared.
    pub values: Values,
}

impl Kind {
    pub fn new(name: &'static str, classes: &[&'static str]) -> Self {
        let classes = classes.iter().map(|&class| (class, 0)).collect();
        let values = Values::default();
        Kind { name, cases: 0, refused: 0, differences: 0, classes, least: 1, first: None, values }
    }

    /// Counts a case whose expected answer has this refusal.
    pub fn case<A: PartialEq + Debug>(
        &mut self,
        question: &dyn Debug,
        refusal: u8,
        library: A,
        rust: A,
    ) {
        self.cases += 1;
        self.refused += u64::from(refusal != 0);
        self.class(refusal_class(refusal), 1);
        if library != rust {
            self.differences += 1;
            self.first.get_or_insert_with(|| {
                format!("{question:?}\n  library: {library:?}\n  Rust:    {rust:?}")
            });
        }
    }

    /// The same of an answer that is a record; the values of its fields are noted.
    pub fn record_case<R: Record + PartialEq + Debug>(
        &mut self,
        question: &dyn Debug,
        refusal: u8,
        library: R,
        rust: R,
    ) {
        self.values.note(&library, &rust);
        self.case(question, refusal, library, rust);
    }

    /// Counts so many cases for a class.
    pub fn class(&mut self, class: &str, cases: usize) {
        if cases == 0 {
            return;
        }
        for (name, count) in &mut self.classes {
            *count += if *name == class { cases as u64 } else { 0 };
        }
    }

    /// Counts the case for a class if it is of that class.
    pub fn class_if(&mut self, class: &str, belongs: bool) {
        self.class(class, usize::from(belongs));
    }

    /// Adds the cases of the same kind that come behind these.
    pub fn add(&mut self, other: Kind) {
        self.cases += other.cases;
        self.refused += other.refused;
        self.differences += other.differences;
        for ((_, count), (_, more)) in self.classes.iter_mut().zip(other.classes) {
            *count += more;
        }
        self.first = self.first.take().or(other.first);
        self.values.add(&other.values);
    }

    /// All counts, and the first difference, on a line for another process.
    pub fn counts_line(&self) -> String {
        let classes = self.classes.iter().map(|(_, count)| *count);
        let counts = [self.cases, self.refused, self.differences].into_iter().chain(classes);
        let counts: Vec<_> = counts.map(|count| count.to_string()).collect();
        let first = self.first.as_deref().unwrap_or_default();
        format!("{};{}", counts.join(" "), first.replace('\n', "\t"))
    }

    /// The kind with the counts of such a line; nothing if that is none.
    pub fn with_counts(mut self, line: &str) -> Option<Self> {
        let (counts, first) = line.split_once(';')?;
        let counts: Vec<u64> =
            counts.split(' ').map(|count| count.parse().ok()).collect::<Option<_>>()?;
        let (sums, classes) = counts.split_first_chunk()?;
        [self.cases, self.refused, self.differences] = *sums;
        for ((_, count), &new) in self.classes.iter_mut().zip(classes) {
            *count = new;
        }
        self.first = (!first.is_empty()).then(|| first.replace('\t', "\n"));
        (classes.len() == self.classes.len()).then_some(self)
    }

    /// The cases of a class; 0 for one that the kind does not have.
    pub fn count(&self, class: &str) -> u64 {
        self.classes.iter().find(|(name, _)| *name == class).map_or(0, |(_, count)| *count)
    }

    /// The classes that too few cases were of.
    pub fn scant_classes(&self) -> impl Iterator<Item = &'static str> {
        self.classes.iter().filter(|(_, count)| *count < self.least).map(|(name, _)| *name)
    }

    /// The name of the first class and its count, then the next, and so on.
    pub fn classes_line(&self) -> String {
        let counts = self.classes.iter().map(|(name, count)| format!("{name} {count}"));
        counts.collect::<Vec<_>>().join(", ")
    }
}

fn refusal_class(refusal: u8) -> &'static str {
    match refusal {
        0 => "accepted",
        1 => "refusal 1",
        2 => "refusal 2",
        3 => "refusal 3",
        4 => "refusal 4",
        5 => "refusal 5",
        6 => "refusal 6",
        7 => "refusal 7",
        8 => "refusal 8",
        9 => "refusal 9",
        10 => "refusal 10",
        11 => "refusal 11",
        12 => "refusal 12",
        14 => "refusal 14",
        20 => "refusal 20",
        _ => "another refusal",
    }
}

#[test]
fn a_difference_and_a_scant_class_are_seen() {
    let mut kind = Kind::new("kind", &["refusal 1", "even"]);
    kind.case(&"a", 0, 5, 5);
    kind.class_if("even", true);
    assert_eq!((kind.differences, kind.first.as_deref()), (0, None));
    assert_eq!(kind.scant_classes().collect::<Vec<_>>(), ["refusal 1"]);
    kind.case(&"b", 1, 5, 6);
    kind.case(&"c", 1, 5, 7);
    assert_eq!((kind.cases, kind.refused, kind.differences), (3, 2, 2));
    assert_eq!(kind.first.as_deref(), Some("\"b\"\n  library: 5\n  Rust:    6"));
    assert_eq!(kind.scant_classes().count(), 0);
    kind.least = 2;
    assert_eq!(kind.scant_classes().collect::<Vec<_>>(), ["even"]);
}

#[test]
fn counts_come_back_from_their_line() {
    let mut kind = Kind::new("kind", &["refusal 1", "even"]);
    kind.case(&"a", 1, 5, 6);
    kind.class("even", 7);
    let line = kind.counts_line();
    let other = Kind::new("kind", &["refusal 1", "even"]).with_counts(&line).expect("a line");
    assert_eq!((other.cases, other.refused, other.differences), (1, 1, 1));
    assert_eq!((other.classes, other.first), (kind.classes, kind.first));
    for line in ["", "1 1 1 1 1", "1 1 1 1;", "1 1 1 1 x;", "1 1 1 1 1 1;"] {
        assert!(Kind::new("kind", &["refusal 1", "even"]).with_counts(line).is_none(), "{line}");
    }
}
