//! Decoding by lent mappings, beside mounts of the Rust's text.rs that have the same mappings as data text: each under set
//! 3 and under another. A process has few mounts, so that many mappings are compared in several processes.

use crate::guard::Guarded;
use crate::mapped::{self, Met};
use crate::sectors::Buffer;
use crate::strings::Decoded;
use crate::tally::Kind;
use crate::threads::{in_threads, sums};
use generate::Rng;
use generate::mapping::{DOUBLE, EDGES, Entry, Mapping, RESERVED, any_string, mapping_of_case};
use oracle::lent::{MOUNTS, lend};
use oracle::mounts::decode_string;
use scarletbook::raw::{self, DecodeAnswer};
use std::io;
use std::ops::Range;
use std::process::{Command, Stdio};

/// The mappings of a part. The first mount has those of the discs.
const PART: u64 = MOUNTS as u64 - 1;
/// The strings over each mapping, in each of two sets.
const STRINGS: usize = 500;

/// The names of the kinds that the table of what was covered has.
pub const MAPPINGS: &str = "mappings";
pub const TEXTS: &str = "mapped texts";

#[derive(Debug)]
#[allow(dead_code)] // its fields are printed
struct Question<'a> {
    mapping: u64,
    words: usize,
    code: u8,
    string: Buffer<'a>,
    start: &'a [u8],
    page: usize,
}

/// A mapping by its number, its words, and where the Rust has it.
struct Held {
    number: u64,
    mount: usize,
    mapping: Mapping,
    words: Vec<u32>,
}

struct Run {
    mappings: Kind,
    texts: Kind,
    walk: Kind,
}

/// So many mappings, made from the seed and their number: several parts in as many processes.
pub fn kinds(seed: u64, mappings: u64) -> io::Result<Vec<Kind>> {
    let parts = mappings.div_ceil(PART);
    if parts <= 1 {
        return Ok(part(seed, mappings, 0));
    }
    let runs = in_threads(parts, |parts| {
        let run = parts.map(|part| in_process(seed, mappings, part));
        Ok(sums(run.collect::<io::Result<Vec<_>>>()?))
    });
    let runs = runs.into_iter().collect::<io::Result<Vec<_>>>()?;
    Ok(sums(runs.into_iter().filter(|kinds| !kinds.is_empty())))
}

/// A part of them, in this process.
pub fn part(seed: u64, mappings: u64, number: u64) -> Vec<Kind> {
    let mut run = Run::new();
    run.cases(seed, number * PART..((number + 1) * PART).min(mappings));
    run.kinds()
}

/// Prints the counts of a part, for the process that sums them.
pub fn print_part(seed: u64, mappings: u64, number: u64) {
    for kind in part(seed, mappings, number) {
        println!("{}", kind.counts_line());
    }
}

/// A part of them, in a process of its own.
fn in_process(seed: u64, mappings: u64, part: u64) -> io::Result<Vec<Kind>> {
    let numbers = [("--seed", seed), ("--mappings", mappings), ("--part", part)];
    let words = numbers.map(|(word, number)| [word.to_string(), number.to_string()]);
    let mut command = Command::new(std::env::current_exe()?);
    let output = command.arg("mappings").args(words.concat()).stderr(Stdio::inherit()).output()?;
    let text = String::from_utf8_lossy(&output.stdout);
    let kinds = Run::new().kinds().into_iter().zip(text.lines());
    let kinds: Option<Vec<_>> = kinds.map(|(kind, line)| kind.with_counts(line)).collect();
    let failed = || io::Error::other(format!("part {part} of the mappings: {}", output.status));
    kinds.filter(|kinds| kinds.len() == 3 && output.status.success()).ok_or_else(failed)
}

fn mappings_kind() -> Kind {
    let entries = ["no entry", "one single", "one pair", "256 singles", "no pair", "24,000 pairs"];
    let doubles = ["no double", "double in a single", "double in a pair", "double unnamed"];
    let edges = ["every edge in singles", "every edge in pairs", "every edge in doubles"];
    let keys = ["key 00", "key FF", "key 0000", "key FFFF"];
    let reserved = ["all reserved", "none reserved", "some reserved"];
    Kind::new(MAPPINGS, &[&entries[..], &doubles, &edges, &keys, &reserved].concat())
}

impl Run {
    fn new() -> Self {
        Run {
            mappings: mappings_kind(),
            texts: mapped::kind(TEXTS),
            walk: Kind::new("mapped, walk", &[]),
        }
    }

    fn kinds(self) -> Vec<Kind> {
        vec![self.mappings, self.texts, self.walk]
    }

    fn cases(&mut self, seed: u64, mappings: Range<u64>) {
        for (number, mount) in mappings.zip(1..) {
            let mapping = mapping_of_case(seed, number);
            let held = Held { number, mount, words: mapping.words(), mapping };
            self.mapping_case(&mut Rng::of_case(!seed, number), &held);
        }
    }

    /// Strings over a mapping, which stays as it is.
    fn mapping_case(&mut self, rng: &mut Rng, held: &Held) {
        let sets = [3, 4 + (held.number % 3) as u8];
        let text = held.mapping.text(rng);
        sets.iter().for_each(|&set| lend(held.mount, set, text.clone()));
        for _ in 0..STRINGS {
            let string = any_string(rng, &held.mapping);
            sets.iter().for_each(|&set| self.text_case(rng, held, set, &string));
        }
        let as_before = held.words == held.mapping.words();
        self.mappings.case(&("mapping", held.number), 0, as_before, true);
        count_mapping(&mut self.mappings, &held.mapping);
    }

    fn text_case(&mut self, rng: &mut Rng, held: &Held, set: u8, string: &[u8]) {
        let Held { number, mount, mapping, words } = held;
        let code = rng.byte() & 0xf8 | set;
        let text = decode_string(*mount, string, code).unwrap_or_default();
        let page = mapped::any_page(rng, string.len(), text.len());
        let mut ours = Guarded::bytes(rng.below(256), page);
        let mut theirs = ours.clone();
        let answer = raw::decode(string, code, words, &mut ours);
        let library = Decoded { answer, page: Buffer(ours.all()) };
        let answer = expected(&text, &mut theirs);
        let rust = Decoded { answer, page: Buffer(theirs.all()) };
        let start = &string[..string.len().min(64)];
        let question = Question {
            mapping: *number,
            words: words.len(),
            code,
            string: Buffer(string),
            start,
            page,
        };
        self.texts.case(&question, answer.refusal, library, rust);
        self.walk.case(&question, 0, mapping.decoded(set, string), text.clone());
        mapped::count_page(&mut self.texts, string.len(), text.len(), page, answer);
        mapped::count(&mut self.texts, &Met::new(mapping, set, string));
    }
}

/// A text of the Rust; refusal 10 by the document.
pub fn expected(text: &str, page: &mut [u8]) -> DecodeAnswer {
    match page.get_mut(..text.len()) {
        Some(start) => {
            start.copy_from_slice(text.as_bytes());
            DecodeAnswer { refusal: 0, len: text.len() }
        }
        None => DecodeAnswer { refusal: 10, len: 0 },
    }
}

fn count_mapping(kind: &mut Kind, mapping: &Mapping) {
    let Mapping { singles, pairs, doubles } = mapping;
    let lengths = [singles.len(), pairs.len()];
    kind.class_if("no entry", lengths == [0, 0]);
    kind.class_if("one single", lengths == [1, 0]);
    kind.class_if("one pair", lengths == [0, 1]);
    kind.class_if("256 singles", singles.len() == 256);
    kind.class_if("no pair", pairs.is_empty() && !singles.is_empty());
    kind.class_if("24,000 pairs", pairs.len() == 24_000);
    let named = |entries: &[Entry]| entries.iter().any(|entry| entry.1 >= DOUBLE);
    kind.class_if("no double", doubles.is_empty());
    kind.class_if("double in a single", named(singles));
    kind.class_if("double in a pair", named(pairs));
    let unnamed = !doubles.is_empty() && !named(singles) && !named(pairs);
    kind.class_if("double unnamed", unnamed);
    let has = |entries: &[Entry], value: u32| entries.iter().any(|entry| entry.1 == value);
    kind.class_if("every edge in singles", EDGES.iter().all(|&edge| has(singles, edge)));
    kind.class_if("every edge in pairs", EDGES.iter().all(|&edge| has(pairs, edge)));
    kind.class_if("every edge in doubles", EDGES.iter().all(|&edge| has(doubles, edge)));
    kind.class_if("key 00", mapping.single(0).is_some());
    kind.class_if("key FF", mapping.single(255).is_some());
    kind.class_if("key 0000", mapping.pair(0).is_some());
    kind.class_if("key FFFF", mapping.pair(0xffff).is_some());
    let reserved = RESERVED.iter().filter(|&&key| mapping.pair(key).is_some()).count();
    kind.class_if("all reserved", reserved == RESERVED.len());
    kind.class_if("none reserved", reserved == 0 && !pairs.is_empty());
    kind.class_if("some reserved", (1..RESERVED.len()).contains(&reserved));
}
