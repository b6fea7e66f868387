//! Reading: the answer, and every lent byte, record and word.

use super::answer::Answer;
use super::memory::{Lent, Memory, Room};
use crate::endings::{self, Endings};
use crate::rust::sector_format;
use crate::tables::first;
use crate::tally::Kind;
use crate::tracks::{Handed, Tracks};
use generate::Rng;
use generate::disc::{Disc, MASTER, MASTER_SECTORS};
use oracle::disc::detected;
use scarletbook::raw::{DiscAnswer, FIRST_TRACKS};

/// The names of the two kinds.
pub const READS: &str = "read_disc";
pub const CODES: &str = "discs, codes";

/// The first sector behind the master table.
const BEHIND: usize = MASTER + MASTER_SECTORS;

const REFUSALS: [&str; 6] =
    ["refusal 1", "refusal 2", "refusal 3", "refusal 4", "refusal 5", "refusal 6"];

/// Images of each format, accepted or not.
const IMAGES: [(u32, &str); 3] =
    [(0, "image of format 0"), (1, "image of format 1"), (2, "image of format 2")];

/// Each warning that comes from a disc; 16 is none of them.
const WARNINGS: [(u32, &str); 18] = [
    (1, "warning 1"),
    (2, "warning 2"),
    (3, "warning 3"),
    (4, "warning 4"),
    (5, "warning 5"),
    (6, "warning 6"),
    (7, "warning 7"),
    (8, "warning 8"),
    (9, "warning 9"),
    (10, "warning 10"),
    (11, "warning 11"),
    (12, "warning 12"),
    (13, "warning 13"),
    (14, "warning 14"),
    (15, "warning 15"),
    (17, "warning 17"),
    (18, "warning 18"),
    (19, "warning 19"),
];

#[derive(Debug)]
#[allow(dead_code)] // its fields are printed
struct Question {
    case: u64,
    format: u32,
    bytes: usize,
    room: Room,
}

pub struct Reads {
    pub read: Kind,
    /// Each refusal, and each warning once for an image.
    pub codes: Kind,
    pub tracks: Tracks,
    pub endings: Endings,
    /// The ends of the disc's own texts.
    pub disc_ends: Kind,
}

impl Reads {
    pub fn new() -> Self {
        let formats = ["format 0", "format 1", "format 2"];
        let images = IMAGES.map(|image| image.1);
        let domain = ["foreign image", "in the domain", "not in the domain"];
        let short = ["544,767 bytes", "509 records", "2,046 words", "no bytes", "no words"];
        let more = ["longer work", "longer records", "2,047 words", "longer words", "no records"];
        let order = ["1 before 2", "2 before 3", "2 before 6", "3 before 4"];
        let cuts = ["inside a sector", "whole sectors", "cut inside a sector"];
        let counts = ["519 sectors", "520 sectors", "no image"];
        let half = ["accepted", "half accepted"];
        let read = [
            &REFUSALS[..],
            &formats,
            &images,
            &domain,
            &short,
            &more,
            &order,
            &cuts,
            &counts,
            &half,
        ];
        let warnings = WARNINGS.map(|warning| warning.1);
        Reads {
            read: Kind::new(READS, &read.concat()),
            codes: Kind::new(CODES, &[&REFUSALS[..], &warnings].concat()),
            tracks: Tracks::of_discs(),
            endings: Endings::of_discs(),
            disc_ends: endings::disc_kind(),
        }
    }

    /// A disc and what the Rust gives of it, with memory that is mostly enough; the same again if
    /// that is not refused, or with 6. The memory is left as the library leaves it.
    pub fn case(
        &mut self,
        rng: &mut Rng,
        case: u64,
        disc: &Disc,
        rust: Option<Answer>,
        memory: &mut Memory,
    ) -> Option<Answer> {
        self.case_in(rng, case, (disc, &disc.bytes), rust, memory)
    }

    /// The same, with the bytes of the disc lent from elsewhere.
    pub fn case_in(
        &mut self,
        rng: &mut Rng,
        case: u64,
        (disc, image): (&Disc, &[u8]),
        rust: Option<Answer>,
        memory: &mut Memory,
    ) -> Option<Answer> {
        let room = Room::any(rng, rust.as_ref().is_none_or(|answer| answer.refusal != 0));
        let refused = match &rust {
            None => Some(Answer::refused(1)),
            Some(_) if room.is_short() => Some(Answer::refused(2)),
            Some(_) => None,
        };
        self.count_order(disc, room, rust.as_ref());
        let answer = refused.or(rust)?;
        let library = memory.read(disc.format, image, room);
        memory.write(disc, &answer);
        let record = answer.record();
        self.read.values.note(&library, &record);
        memory.note_tracks(&answer, &mut self.read.values);
        let [ours, theirs] = memory.left(library, record);
        let question = Question { case, format: disc.format, bytes: disc.bytes.len(), room };
        self.read.case(&question, answer.refusal, ours, theirs);
        let words = first(&memory.ours.words, library.warnings);
        let handed = handed(&library, &memory.ours, &answer);
        if matches!(answer.refusal, 0 | 6) {
            self.endings.case(&question, &handed, words, &answer.rust_words);
            let (kind, master) = (&mut self.disc_ends, disc.master());
            let read = (&master[..], words);
            endings::disc_case(kind, &question, answer.refusal, &library.master, read);
        }
        self.tracks.disc(&question, handed, words);
        self.count(disc, room, &answer);
        matches!(answer.refusal, 0 | 6).then_some(answer)
    }

    fn count_order(&mut self, disc: &Disc, room: Room, rust: Option<&Answer>) {
        let kind = &mut self.read;
        let refusal = rust.map_or(1, |answer| answer.refusal);
        let short = room.is_short();
        kind.class_if("1 before 2", refusal == 1 && short);
        kind.class_if("2 before 3", refusal == 3 && short);
        kind.class_if("2 before 6", refusal == 6 && short);
        let signed = disc.sectors() > MASTER && disc.data(MASTER).starts_with(b"SACDMTOC");
        kind.class_if("3 before 4", refusal == 3 && !signed);
        let format = sector_format(disc.format);
        let found = format.is_some() && detected(&disc.bytes) == format;
        kind.class_if("in the domain", found);
        kind.class_if("not in the domain", !found);
    }

    fn count(&mut self, disc: &Disc, room: Room, answer: &Answer) {
        let kind = &mut self.read;
        let refusal = answer.refusal;
        let exact = Room::EXACT;
        kind.class_if("544,767 bytes", refusal == 2 && room.work == exact.work - 1);
        kind.class_if("509 records", refusal == 2 && room.tracks == exact.tracks - 1);
        kind.class_if("2,046 words", refusal == 2 && room.words == 2046);
        kind.class_if("no bytes", refusal == 2 && room.work == 0);
        kind.class_if("no records", refusal == 2 && room.tracks == 0);
        kind.class_if("no words", refusal == 2 && room.words == 0);
        kind.class_if("longer work", refusal == 0 && room.work > exact.work);
        kind.class_if("longer records", refusal == 0 && room.tracks > exact.tracks);
        kind.class_if("2,047 words", refusal == 0 && room.words == 2047);
        kind.class_if("longer words", refusal == 0 && room.words > exact.words);
        let inside = !disc.bytes.len().is_multiple_of(disc.form.stored);
        kind.class_if("inside a sector", refusal == 0 && inside);
        kind.class_if("whole sectors", refusal == 0 && !inside);
        kind.class_if("cut inside a sector", inside);
        kind.class_if("519 sectors", refusal == 3 && disc.sectors() == BEHIND - 1);
        kind.class_if("520 sectors", matches!(refusal, 0 | 6) && disc.sectors() == BEHIND);
        kind.class_if("no image", refusal == 3 && disc.sectors() == 0);
        for (format, class) in [(0, "format 0"), (1, "format 1"), (2, "format 2")] {
            kind.class_if(class, refusal == 0 && disc.format == format);
        }
        for (format, class) in IMAGES {
            kind.class_if(class, disc.format == format);
        }
        kind.class_if("foreign image", disc.format > 2);
        self.codes.cases += 1;
        self.codes.refused += u64::from(refusal != 0);
        if let Some(class) = REFUSALS.get(usize::from(refusal).wrapping_sub(1)) {
            self.codes.class(class, 1);
        }
        for (code, class) in WARNINGS {
            self.codes.class_if(class, answer.words.iter().any(|word| word >> 16 == code));
        }
    }
}

/// The areas that the library hands back, with their tracks and the Rust's.
fn handed<'a>(library: &DiscAnswer, lent: &'a Lent, rust: &'a Answer) -> [Handed<'a>; 2] {
    let areas = library.areas();
    [0, 1].map(|slot| Handed {
        area: areas[slot],
        tracks: &lent.tracks[FIRST_TRACKS[slot]..],
        rust: &rust.tracks[slot],
        table: rust.tables[slot].as_deref().unwrap_or_default(),
    })
}

/// Counts, when all discs are read, whether at least half of them are accepted.
pub fn finish(kinds: &mut [Kind]) {
    for kind in kinds.iter_mut().filter(|kind| kind.name == READS) {
        kind.class_if("half accepted", 2 * kind.refused <= kind.cases);
    }
}
