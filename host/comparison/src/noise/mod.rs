//! Random byte strings as images, in every format, and as lone tables, then every decoding by the
//! records that came of them and by records of any bytes. Nothing may change but what the document
//! names: all that is lent lies in the middle of more memory, and all of it is compared.

mod records;

use crate::disc::answer::{self, Answer};
use crate::disc::dumps::Dumps;
use crate::disc::formats::Formats;
use crate::disc::lies::Lies;
use crate::disc::memory::Memory;
use crate::disc::reads::Reads;
use crate::disc::texts::Texts;
use crate::endings::Endings;
use crate::guard::Guarded;
use crate::held;
use crate::progress::Progress;
use crate::strings::Strings;
use crate::tables::Tables;
use crate::tally::Kind;
use crate::texts::Texts as LoneTexts;
use crate::threads::{in_threads, sums};
use crate::tracks::Tracks;
use generate::Rng;
use generate::disc::Disc;
use generate::layout::{FOREIGN, layout};
use generate::noise::{Pool, any_noise};
use generate::text::any_code;
use records::{any_area, any_master, any_track};
use scarletbook::raw::{DiscAnswer, MAX_TRACKS};
use std::ops::Range;

/// From so many strings on each class must have a case.
const SHORT: u64 = 2_000;
/// The bytes of a string that are decoded at most.
const DECODED: usize = 5000;

const ENDS: [&str; 2] = ["by a zero byte", "by the end"];
const TEXTS: [&str; 5] = ["present", "absent", "refusal 10", "refusal 9", "refusal 12"];
const RECORDS: [&str; 6] =
    ["accepted", "refusal 2", "refusal 8", "refusal 9", "refusal 12", "refusal 10"];
const DECODING: [&str; 4] = ["refusal 9", "refusal 12", "refusal 10", "longer page"];

/// What is counted in one thread.
struct Run {
    formats: Formats,
    reads: Reads,
    dumps: Dumps,
    texts: Texts,
    records: Lies,
    tables: Tables,
    lone_texts: LoneTexts,
    strings: Strings,
    /// The bytes of the strings, and what is lent to decoding.
    lent: Kind,
    decoded: Kind,
    memory: Memory,
}

pub fn kinds(seed: u64, count: u64) -> Vec<Kind> {
    let (pool, progress) = (Pool::new(seed), Progress::new("byte strings", count));
    let runs = in_threads(count, |cases| {
        let mut run = Run::new();
        run.cases(seed, cases, &pool, &progress);
        run.kinds()
    });
    let mut kinds = sums(runs);
    for kind in &mut kinds {
        kind.least = u64::from(count >= SHORT);
    }
    kinds
}

impl Run {
    fn new() -> Self {
        let refusals = ["accepted", "refusal 1", "refusal 2", "refusal 3", "refusal 4"];
        let discs = ["refusal 5", "refusal 6", "format 0", "format 1", "format 2"];
        let lone = ["accepted", "refusal 2", "refusal 6", "refusal 7", "262,144 bytes"];
        let lengths = ["no bytes", "below 520 sectors", "520 sectors or more"];
        Run {
            formats: Formats { kind: Kind::new("their formats", &["refusal 4", "accepted"]) },
            reads: Reads {
                read: Kind::new("as images", &[&refusals[..], &discs].concat()),
                codes: Kind::new("their codes", &[]),
                tracks: tracks("their stored times", "their capping", "discs with tracks"),
                endings: endings("their lists", "their endings", "their area ends"),
                disc_ends: Kind::new("their disc ends", &ENDS),
            },
            dumps: Dumps { kind: Kind::new("their dumps", &["accepted", "refusal 6", "lines"]) },
            texts: Texts {
                disc: Kind::new("their disc texts", &TEXTS),
                // Few of these have an area, fewer one of sets 3 to 6.
                area: Kind::new("their area texts", &TEXTS[..3]),
                track: Kind::new("their track texts", &TEXTS),
            },
            records: Lies { kind: Kind::new("by any records", &RECORDS) },
            tables: Tables {
                read: Kind::new("as lone tables", &lone),
                tracks: tracks("lone stored times", "lone capping", "tables with tracks"),
                endings: endings("lone lists", "lone endings", "lone area ends"),
                ..Tables::new()
            },
            lone_texts: LoneTexts {
                area: Kind::new("lone area texts", &TEXTS),
                track: Kind::new("lone track texts", &TEXTS),
                lies: Kind::new("lone, any records", &RECORDS),
            },
            strings: Strings { decode: Kind::new("decoded", &DECODING), ..Strings::new() },
            lent: Kind::new("lent, unchanged", &lengths),
            decoded: Kind::new("decoded, unchanged", &[]),
            memory: Memory::new(29),
        }
    }

    fn cases(&mut self, seed: u64, cases: Range<u64>, pool: &Pool, progress: &Progress) {
        for case in cases {
            self.case(&mut Rng::of_case(seed, case), case, pool);
            progress.step();
        }
    }

    fn case(&mut self, rng: &mut Rng, case: u64, pool: &Pool) {
        let bytes = any_noise(rng, pool);
        let lent = Guarded::holding(rng.below(256), &bytes);
        let before = lent.clone();
        self.images(rng, case, bytes, &lent);
        self.lone(rng, case, &lent);
        let part = &lent[..lent.len().min(DECODED)];
        let page = rng.below(2 * part.len() + 2);
        let code = any_code(rng);
        self.strings.decode_case(part, (code, held::any(rng, code)), page, rng.below(256));
        let [after, before] = lent.differing(&before);
        self.lent.case(&("case", case, "bytes", lent.len()), 0, after, before);
        self.lent.class_if("no bytes", lent.is_empty());
        self.lent.class_if("below 520 sectors", lent.len() < 520 * 2048);
        self.lent.class_if("520 sectors or more", lent.len() >= 520 * 2048);
    }

    /// In every format and in a foreign one; and texts by records of any bytes.
    fn images(&mut self, rng: &mut Rng, case: u64, bytes: Vec<u8>, lent: &[u8]) {
        let mut disc = Disc { bytes, ..Disc::new(0, 0) };
        self.formats.case(case, &disc, lent);
        for format in [0, 1, 2, rng.pick(&FOREIGN)] {
            disc.format = format;
            disc.form = layout(format).unwrap_or(disc.form);
            let rust = answer::read(&disc);
            self.dumps.case(case, &disc, rust.as_ref());
            let rust = rust.map(|rust| Answer::of(&disc, rust));
            let read = self.reads.case_in(rng, case, (&disc, lent), rust, &mut self.memory);
            if let Some(answer) = read {
                self.texts.cases(rng, &answer, &self.memory.ours);
                self.any_records(rng, case);
            }
        }
        self.any_records(rng, case);
    }

    /// From the memory that a reading left, or that has a pattern; it has that again.
    fn any_records(&mut self, rng: &mut Rng, case: u64) {
        for _ in 0..4 {
            let at = rng.below(self.memory.ours.tracks.len());
            self.memory.set_track(at, any_track(rng));
            let (master, area) = (any_master(rng), any_area(rng));
            self.records.record_case(rng, master, area, &self.memory.ours);
        }
        let [ours, theirs] = self.memory.left(DiscAnswer::default(), DiscAnswer::default());
        self.decoded.case(&("case", case), 0, ours, theirs);
        self.memory.restore();
    }

    /// As a lone table; and texts by records of any bytes, which stay as they are.
    fn lone(&mut self, rng: &mut Rng, case: u64, lent: &[u8]) {
        if let Some(lone) = self.tables.any_case(rng, lent) {
            self.lone_texts.cases(rng, lent, &lone);
        }
        let tracks: Vec<_> = (0..MAX_TRACKS).map(|_| any_track(rng)).collect();
        let before = tracks.clone();
        for _ in 0..4 {
            let area = any_area(rng);
            self.lone_texts.record_case(rng, lent, area, &tracks);
        }
        self.decoded.case(&("case", case, "lone"), 0, tracks == before, true);
    }

    fn kinds(self) -> Vec<Kind> {
        let LoneTexts { area, track, lies } = self.lone_texts;
        let Texts { disc, area: disc_area, track: disc_track } = self.texts;
        let [images, tables] = [self.reads.read, self.tables.read];
        let images = [self.formats.kind, images]
            .into_iter()
            .chain(handed(self.reads.tracks, self.reads.endings));
        let texts =
            [self.reads.disc_ends, self.dumps.kind, disc, disc_area, disc_track, self.records.kind];
        let tables = [tables].into_iter().chain(handed(self.tables.tracks, self.tables.endings));
        let rest = [area, track, lies, self.strings.decode, self.lent, self.decoded];
        images.chain(texts).chain(tables).chain(rest).collect()
    }
}

/// The kinds of what readings hand back.
fn handed(tracks: Tracks, endings: Endings) -> [Kind; 5] {
    let Tracks { stored, capping } = tracks;
    let Endings { lists, tracks, areas } = endings;
    [stored, capping, lists, tracks, areas]
}

/// Endings by the names of their kinds. Few random bytes go on to a table's end, none for 4,096.
fn endings(lists: &'static str, tracks: &'static str, areas: &'static str) -> Endings {
    Endings {
        lists: Kind::new(lists, &["no 19"]),
        tracks: Kind::new(tracks, &ENDS[..1]),
        areas: Kind::new(areas, &ENDS[..1]),
    }
}

/// Tracks by the names of their kinds, and the class of what hands some back.
fn tracks(stored: &'static str, capping: &'static str, some: &'static str) -> Tracks {
    Tracks { stored: Kind::new(stored, &[some]), capping: Kind::new(capping, &["capped"]) }
}
