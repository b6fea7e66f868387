//! The canonical dump of every disc, line by line.

use super::answer::unterminated;
use super::dump::{dump, refusal};
use crate::held;
use crate::tally::Kind;
use ::tables::dump::dump_reading;
use ::tables::reading::{self, Reading};
use generate::disc::Disc;
use oracle::disc::{Disc as Rust, Stored};
use oracle::lone::numbers;

pub struct Dumps {
    pub kind: Kind,
}

/// Texts of sets 3 to 6: those that are shown, and those that are only said to be there.
pub const MAPPED: [&str; 2] = ["texts by mappings", "texts without a mapping"];

/// A line by its number from 1; nothing where a dump has ended.
type Line<'a> = Option<(usize, Option<&'a str>)>;

impl Dumps {
    pub fn new() -> Self {
        let refusals = ["refusal 1", "refusal 3", "refusal 4", "refusal 5", "refusal 6"];
        let areas = ["accepted", "one area", "two areas", "255 tracks", "no track"];
        let values = ["capped times", "no warning", "19 dropped", "19 alone", "lines"];
        Dumps { kind: Kind::new("dumps", &[&refusals[..], &areas, &values, &MAPPED].concat()) }
    }

    /// The dump of an image, and what the Rust gives of it, if its format is not foreign; one in four without mappings.
    pub fn case(&mut self, case: u64, disc: &Disc, rust: Option<&(Rust, Stored)>) {
        let mapped = !case.is_multiple_of(4);
        let (library, dropped) = drop_unterminated(&dump_of(disc, mapped));
        let (expected, texts) = dump(rust, mapped);
        self.kind.class(MAPPED[usize::from(!mapped)], texts);
        let walked = unterminated_lines(disc, rust);
        let question = ("case", case, "format", disc.format, "bytes", disc.bytes.len());
        let [ours, theirs] = differing(&library, &expected);
        self.kind.class("lines", expected.lines().count());
        self.kind.class("19 dropped", walked.len());
        let alone = !walked.is_empty() && expected.ends_with("\nwarnings 0\n");
        self.kind.class_if("19 alone", alone);
        self.kind.case(&question, refusal(rust), (ours, dropped), (theirs, walked));
        if let Some((Rust::Accepted(toc, warnings), _)) = rust {
            let kind = &mut self.kind;
            kind.class_if("one area", toc.areas.len() == 1);
            kind.class_if("two areas", toc.areas.len() == 2);
            kind.class_if("255 tracks", toc.areas.iter().any(|area| area.tracks.len() == 255));
            kind.class_if("no track", toc.areas.iter().any(|area| area.tracks.is_empty()));
            let capped = warnings.iter().any(|warning| numbers(warning)[0] == 14);
            kind.class_if("capped times", capped);
            kind.class_if("no warning", warnings.is_empty());
        }
    }
}

/// The dump by the library, by all mappings or by none.
fn dump_of(disc: &Disc, mapped: bool) -> String {
    let Disc { format, bytes, .. } = disc;
    if !mapped {
        return ::tables::dump::dump(*format, bytes);
    }
    let read = reading::read(*format, bytes, held::read());
    dump_reading(Reading::new(*format, bytes, &read))
}

/// A dump without the warnings 19, neither in its lines nor in their count; and those lines.
pub fn drop_unterminated(dump: &str) -> (String, Vec<String>) {
    let is_dropped = |line: &&str| line.starts_with("19 ");
    let (dropped, kept): (Vec<_>, Vec<_>) = dump.split_inclusive('\n').partition(is_dropped);
    let count = |line: &str| line.strip_prefix("warnings ")?.trim_end().parse::<i64>().ok();
    let kept = kept.into_iter().map(|line| match count(line) {
        Some(count) => format!("warnings {}\n", count - dropped.len() as i64),
        None => line.to_string(),
    });
    (kept.collect(), dropped.iter().map(|line| line.to_string()).collect())
}

/// The lines of the warnings 19 that a disc must have, by the walk.
pub fn unterminated_lines(disc: &Disc, rust: Option<&(Rust, Stored)>) -> Vec<String> {
    let Some((Rust::Accepted(toc, _), _)) = rust else { return vec![] };
    let warnings = unterminated(disc, toc).into_iter();
    warnings.map(|[code, slot, track]| format!("{code} {slot} {track}\n")).collect()
}

/// The first line of each dump that differs from the other's; nothing for both if none does.
pub fn differing<'a>(ours: &'a str, theirs: &'a str) -> [Line<'a>; 2] {
    if ours == theirs {
        return [None, None];
    }
    let [mut our, mut their] = [ours, theirs].map(|dump| dump.split_inclusive('\n'));
    for number in 1.. {
        let lines = [our.next(), their.next()];
        if lines[0] != lines[1] {
            return lines.map(|line| Some((number, line)));
        }
    }
    [None, None]
}

#[test]
fn the_first_line_that_differs_is_found() {
    assert_eq!(differing("a\nb\n", "a\nb\n"), [None, None]);
    assert_eq!(differing("a\nb\n", "a\nc\n"), [Some((2, Some("b\n"))), Some((2, Some("c\n")))]);
    assert_eq!(differing("a\n", "a"), [Some((1, Some("a\n"))), Some((1, Some("a")))]);
    assert_eq!(differing("a\n", "a\nb\n"), [Some((2, None)), Some((2, Some("b\n")))]);
}

#[test]
fn warnings_19_are_dropped_from_lines_and_count() {
    let dump = "accepted\nwarnings 3\n14 1 1\n19 1 1\n19 2 190\n";
    let (kept, dropped) = drop_unterminated(dump);
    assert_eq!(kept, "accepted\nwarnings 1\n14 1 1\n");
    assert_eq!(dropped, ["19 1 1\n", "19 2 190\n"]);
    assert_eq!(drop_unterminated("warnings 1\n19 1 1\n19 1 2\n").0, "warnings -1\n");
    assert_eq!(drop_unterminated("area1.toc_lsn 19 1\n").0, "area1.toc_lsn 19 1\n");
}
