//! Discs: the answer and all that is lent, the dump, every text, and decoding by records that lie.

pub mod answer;
pub mod dump;
pub mod dumps;
pub mod formats;
pub mod lies;
pub mod memory;
pub mod reads;
mod shapes;
pub mod texts;

pub use reads::{CODES, READS};

use crate::endings::Endings;
use crate::progress::Progress;
use crate::tally::Kind;
use crate::threads::{in_threads, sums};
use answer::Answer;
use dumps::Dumps;
use formats::Formats;
use generate::Rng;
use generate::disc::disc_of_case;
use lies::Lies;
use memory::Memory;
use reads::Reads;
use shapes::Shapes;
use std::ops::Range;
use texts::Texts;

/// From so many discs on each class must have a case.
pub const SHORT: u64 = 2_000;
/// So many discs make a full run: then each warning and refusal comes at least 200 times.
const FULL: u64 = 100_000;
const LEAST: u64 = 200;

/// Compares discs made from the seed and their number, in threads.
pub fn kinds(seed: u64, discs: u64) -> Vec<Kind> {
    let progress = Progress::new("images", discs);
    let runs = in_threads(discs, |cases| {
        let mut run = Run::new();
        run.cases(seed, cases, &progress);
        run.tallies.kinds()
    });
    let mut kinds = sums(runs);
    reads::finish(&mut kinds);
    for kind in &mut kinds {
        kind.least = least(kind, discs);
    }
    kinds
}

/// The cases that each class of a kind must have, after so many discs.
fn least(kind: &Kind, discs: u64) -> u64 {
    match discs {
        0..SHORT => 0,
        FULL.. if kind.name == reads::CODES => LEAST,
        _ => 1,
    }
}

/// What is counted in one thread.
struct Run {
    tallies: Tallies,
    memories: [Memory; 2],
}

struct Tallies {
    formats: Formats,
    reads: Reads,
    dumps: Dumps,
    shapes: Shapes,
    texts: Texts,
    lies: Lies,
}

impl Run {
    fn new() -> Self {
        let tallies = Tallies {
            formats: Formats::new(),
            reads: Reads::new(),
            dumps: Dumps::new(),
            shapes: Shapes::new(),
            texts: Texts::new(),
            lies: Lies::new(),
        };
        Run { tallies, memories: [Memory::new(1), Memory::new(78)] }
    }

    fn cases(&mut self, seed: u64, cases: Range<u64>, progress: &Progress) {
        for case in cases {
            self.case(&mut Rng::of_case(seed, case), case);
            progress.step();
        }
    }

    fn case(&mut self, rng: &mut Rng, case: u64) {
        let Tallies { formats, reads, dumps, shapes, texts, lies } = &mut self.tallies;
        let disc = disc_of_case(rng, case);
        let memory = &mut self.memories[rng.below(2)];
        formats.case(case, &disc, &disc.bytes);
        let rust = answer::read(&disc);
        dumps.case(case, &disc, rust.as_ref());
        let rust = rust.map(|rust| Answer::of(&disc, rust));
        if let Some(answer) = reads.case(rng, case, &disc, rust, memory) {
            shapes.count(&disc, &answer);
            texts.cases(rng, &answer, &memory.ours);
            lies.cases(rng, &answer, &mut memory.ours);
        }
        memory.restore();
    }
}

impl Tallies {
    fn kinds(self) -> Vec<Kind> {
        let Reads { read, codes, tracks, endings, disc_ends } = self.reads;
        let Endings { lists, tracks: ended, areas } = endings;
        let Shapes { copies, slots, master } = self.shapes;
        let Texts { disc, area, track } = self.texts;
        let records = [read, codes, tracks.stored, tracks.capping, lists, ended, areas, disc_ends];
        let shapes = [copies, slots, master, self.formats.kind, self.dumps.kind];
        records.into_iter().chain(shapes).chain([disc, area, track, self.lies.kind]).collect()
    }
}
