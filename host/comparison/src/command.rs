//! The command `tables --dump` over discs in files, beside the Rust's dump: what it prints and says, and its exit status.

use crate::disc::answer::read;
use crate::disc::dump::{dump, refusal};
use crate::disc::dumps::{MAPPED, differing, drop_unterminated, unterminated_lines};
use crate::held;
use crate::progress::Progress;
use crate::rust::format_number;
use crate::tally::Kind;
use crate::threads::{in_threads, sums};
use generate::Rng;
use generate::disc::{Disc, disc_of_case};
use generate::layout::layout;
use oracle::disc::{Disc as Rust, Stored, detected};
use std::fs;
use std::io;
use std::ops::Range;
use std::path::{Path, PathBuf};
use std::process::Command;

/// From so many discs on each class must have a case.
const SHORT: u64 = 500;

/// The words of the refusals of a disc, by the document.
const WORDS: [(u8, &str); 5] = [
    (1, "foreign format"),
    (3, "cut master"),
    (4, "not Scarlet Book"),
    (5, "newer edition"),
    (6, "silent disc"),
];

/// What a run of the command gave.
#[derive(Default)]
struct Ran {
    /// Without the warnings 19, which are the next.
    out: String,
    unterminated: Vec<String>,
    error: String,
    status: Option<i32>,
    /// How many texts of sets 3 to 6 there are.
    texts: usize,
}

struct Run {
    with_format: Kind,
    without_format: Kind,
    /// The command, the file of the images, and those of the mappings.
    tables: PathBuf,
    file: PathBuf,
    mappings: Vec<String>,
}

/// Compares the command for as many discs, each with its format and without one.
pub fn kinds(seed: u64, discs: u64) -> io::Result<Vec<Kind>> {
    let tables = std::env::current_exe()?.with_file_name("tables");
    if !tables.is_file() {
        return Err(io::Error::other("there is no tables beside this program: build it first"));
    }
    let folder = std::env::temp_dir().join(format!("comparison-{}", std::process::id()));
    fs::create_dir_all(&folder)?;
    let mappings = write_mappings(&folder)?;
    let progress = Progress::new("images", discs);
    let runs = in_threads(discs, |cases| {
        let file = folder.join(format!("{}.iso", cases.start));
        let mut run = Run::new(&tables, file, &mappings);
        run.cases(seed, cases, &progress)?;
        Ok(vec![run.with_format, run.without_format])
    });
    fs::remove_dir_all(&folder)?;
    let mut kinds = sums(runs.into_iter().collect::<io::Result<Vec<_>>>()?);
    for kind in &mut kinds {
        kind.least = u64::from(discs >= SHORT);
    }
    Ok(kinds)
}

/// Writes the data text of each mapping to a file; the words of the command line for them.
fn write_mappings(folder: &Path) -> io::Result<Vec<String>> {
    let mut words = vec![];
    for (set, text) in held::texts() {
        let file = folder.join(format!("set {set}.txt"));
        fs::write(&file, text)?;
        words.extend(["--mapping".to_string(), format!("{set}={}", file.display())]);
    }
    Ok(words)
}

impl Run {
    fn new(tables: &Path, file: PathBuf, mappings: &[String]) -> Self {
        let refusals = ["accepted", "refusal 3", "refusal 4", "refusal 5", "refusal 6"];
        let formats = ["format 0", "format 1", "format 2", "19 dropped"];
        let given = [&refusals[..], &formats, &MAPPED, &["refusal 1"]].concat();
        let none = ["no format found", "refusal 3 without a format", "refusal 4 without a format"];
        let found = [&refusals[..], &formats, &MAPPED, &["another than given"], &none].concat();
        Run {
            with_format: Kind::new("tables --format", &given),
            without_format: Kind::new("tables", &found),
            tables: tables.to_path_buf(),
            file,
            mappings: mappings.to_vec(),
        }
    }

    fn cases(&mut self, seed: u64, cases: Range<u64>, progress: &Progress) -> io::Result<()> {
        for case in cases {
            let disc = disc_of_case(&mut Rng::of_case(seed, case), case);
            fs::write(&self.file, &disc.bytes)?;
            self.given(case, &disc)?;
            self.found(case, disc)?;
            progress.step();
        }
        Ok(())
    }

    /// With the disc's format, foreign ones too.
    fn given(&mut self, case: u64, disc: &Disc) -> io::Result<()> {
        let rust = read(disc);
        let format = disc.format.to_string();
        let mapped = !case.is_multiple_of(4);
        let ours = self.run(&["--format", &format], mapped)?;
        let theirs = self.expected(disc, rust.as_ref(), mapped);
        self.with_format.class(MAPPED[usize::from(!mapped)], theirs.texts);
        compare(&mut self.with_format, (case, disc), refusal(rust.as_ref()), &ours, &theirs);
        Ok(())
    }

    /// Without a format: that which the Rust's `Image::open` finds, or else format 0.
    fn found(&mut self, case: u64, mut disc: Disc) -> io::Result<()> {
        let mapped = case.is_multiple_of(2);
        let ours = self.run(&[], mapped)?;
        let given = disc.format;
        let format = detected(&disc.bytes).map(format_number);
        disc.format = format.unwrap_or(0);
        disc.form = layout(disc.format).unwrap_or(disc.form);
        let rust = read(&disc);
        let refusal = refusal(rust.as_ref());
        let theirs = self.expected(&disc, rust.as_ref(), mapped);
        let kind = &mut self.without_format;
        kind.class(MAPPED[usize::from(!mapped)], theirs.texts);
        compare(kind, (case, &disc), refusal, &ours, &theirs);
        kind.class_if("no format found", format.is_none());
        kind.class_if("refusal 3 without a format", format.is_none() && refusal == 3);
        kind.class_if("refusal 4 without a format", format.is_none() && refusal == 4);
        kind.class_if("another than given", format.is_some_and(|format| format != given));
        Ok(())
    }

    fn run(&self, words: &[&str], mapped: bool) -> io::Result<Ran> {
        let mappings = if mapped { &self.mappings[..] } else { &[] };
        let mut command = Command::new(&self.tables);
        let output = command.arg("--dump").args(words).args(mappings).arg(&self.file).output()?;
        let text = |bytes: &[u8]| String::from_utf8_lossy(bytes).into_owned();
        let (out, unterminated) = drop_unterminated(&text(&output.stdout));
        let error = text(&output.stderr);
        Ok(Ran { out, unterminated, error, status: output.status.code(), ..Ran::default() })
    }

    /// What a run must give: a refusal names the image, and has its word.
    fn expected(&self, disc: &Disc, rust: Option<&(Rust, Stored)>, mapped: bool) -> Ran {
        let refusal = refusal(rust);
        let word = WORDS.iter().find(|(number, _)| *number == refusal);
        let line = |(number, word)| format!("{}: refused {number}: {word}\n", self.file.display());
        let error = word.copied().map(line).unwrap_or_default();
        let ((out, texts), unterminated) = (dump(rust, mapped), unterminated_lines(disc, rust));
        Ran { out, unterminated, error, status: Some(i32::from(refusal != 0)), texts }
    }
}

fn compare(kind: &mut Kind, (case, disc): (u64, &Disc), refusal: u8, ours: &Ran, theirs: &Ran) {
    let [our_line, their_line] = differing(&ours.out, &theirs.out);
    let question = ("case", case, "format", disc.format, "bytes", disc.bytes.len());
    let answer = |ran: &Ran, line| (ran.status, ran.error.clone(), line, ran.unterminated.clone());
    kind.case(&question, refusal, answer(ours, our_line), answer(theirs, their_line));
    kind.class("19 dropped", theirs.unterminated.len());
    for (format, class) in [(0, "format 0"), (1, "format 1"), (2, "format 2")] {
        kind.class_if(class, refusal == 0 && disc.format == format);
    }
}
