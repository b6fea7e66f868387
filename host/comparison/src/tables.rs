//! Lone tables: the record, the tracks and the warnings, and all that is lent.

use crate::endings::Endings;
use crate::guard::{Differing, Guarded};
use crate::heads;
use crate::lone::Lone;
use crate::sectors::Buffer;
use crate::shapes::Shapes;
use crate::tally::Kind;
use crate::tracks::{Handed, Tracks};
use generate::Rng;
use generate::layout::DATA;
use generate::table::MOST_SECTORS;
use scarletbook::raw::{MAX_TRACKS, TABLE_WORDS, TableAnswer, Track};

const MOST: usize = MOST_SECTORS * DATA;

#[derive(Debug)]
#[allow(dead_code)] // its fields are printed
struct Question<'a> {
    table: Buffer<'a>,
    tracks: usize,
    words: usize,
}

/// The records and words that are lent.
#[derive(Clone)]
struct Lent {
    tracks: Guarded<Track>,
    words: Guarded<u32>,
}

/// What a read leaves: its answer, and of the lent records and words, and those around them, the
/// first that differs.
#[derive(Debug, PartialEq)]
struct Left {
    answer: TableAnswer,
    track: Differing<Track>,
    word: Differing<u32>,
}

pub struct Tables {
    pub read: Kind,
    pub heads: Kind,
    pub shapes: Shapes,
    pub tracks: Tracks,
    pub endings: Endings,
}

impl Tables {
    pub fn new() -> Self {
        let odd = ["refusal 7", "no bytes", "262,145 bytes", "264,192 bytes", "2,047 bytes"];
        let short = ["refusal 2", "254 records", "1,020 words", "no records", "no words"];
        let order = ["7 before 2", "2 before 6"];
        let room = ["255 records", "1,021 words", "longer records", "longer words"];
        let edges = ["accepted", "refusal 6", "262,144 bytes", "2,048 bytes", "half accepted"];
        Tables {
            read: Kind::new(
                "read_table",
                &[&odd[..], &short[..], &order[..], &room[..], &edges[..]].concat(),
            ),
            heads: heads::kind(),
            shapes: Shapes::new(),
            tracks: Tracks::of_tables(),
            endings: Endings::of_tables(),
        }
    }

    /// A table of whole sectors, with records and words that are mostly enough; what the Rust
    /// gives if the table yields an area.
    pub fn case(&mut self, rng: &mut Rng, table: &[u8]) -> Option<Lone> {
        let lone = Lone::read(table);
        self.read_case(any_lent(rng), table, Some(&lone));
        heads::case(&mut self.heads, rng, table, &lone);
        self.shapes.count(table, &lone);
        lone.rust.is_some().then_some(lone)
    }

    /// The table cut or made longer, to any length.
    pub fn odd_case(&mut self, rng: &mut Rng, table: &[u8]) {
        let mut changed = table.to_vec();
        changed.resize(any_length(rng, table.len()), 0);
        changed.shrink_to_fit();
        self.any_case(rng, &changed);
    }

    /// Any bytes; what the Rust gives if they yield an area.
    pub fn any_case(&mut self, rng: &mut Rng, bytes: &[u8]) -> Option<Lone> {
        let lone = is_table(bytes.len()).then(|| Lone::read(bytes));
        self.read_case(any_lent(rng), bytes, lone.as_ref());
        lone.filter(|lone| lone.rust.is_some())
    }

    fn read_case(&mut self, lent: Lent, table: &[u8], lone: Option<&Lone>) {
        let (tracks, words) = (lent.tracks.len(), lent.words.len());
        let mut ours = lent.clone();
        let answer = scarletbook::raw::read_table(table, &mut ours.tracks, &mut ours.words);
        let mut theirs = lent;
        let expected = expected(lone, &mut theirs);
        let kind = &mut self.read;
        kind.values.note(&answer, &expected);
        kind.values.note_all(&ours.tracks, written(&expected, lone));
        let [library, rust] = left((answer, &ours), (expected, &theirs));
        let question = Question { table: Buffer(table), tracks, words };
        kind.case(&question, expected.refusal, library, rust);
        count(kind, table.len(), tracks, words, expected.refusal);
        let skipped = lone.is_some_and(|lone| lone.rust.is_none());
        kind.class_if("2 before 6", expected.refusal == 2 && skipped);
        let rust = written(&expected, lone);
        let handed = Handed { area: answer.area, tracks: &ours.tracks, rust, table };
        let words = first(&ours.words, answer.warnings);
        if let Some(lone) = lone.filter(|_| matches!(expected.refusal, 0 | 6)) {
            self.endings.case(&question, std::slice::from_ref(&handed), words, &lone.rust_words);
        }
        self.tracks.table(&question, handed, words);
    }

    /// Counts whether at least half of the tables are accepted.
    pub fn finish(&mut self) {
        self.read.class_if("half accepted", 2 * self.read.refused <= self.read.cases);
    }
}

/// What the library and the Rust leave.
fn left(ours: (TableAnswer, &Lent), theirs: (TableAnswer, &Lent)) -> [Left; 2] {
    let [our_track, their_track] = ours.1.tracks.differing(&theirs.1.tracks);
    let [our_word, their_word] = ours.1.words.differing(&theirs.1.words);
    [
        Left { answer: ours.0, track: our_track, word: our_word },
        Left { answer: theirs.0, track: their_track, word: their_word },
    ]
}

/// Refusals 7 and 2 by the document, the rest by the Rust.
fn expected(lone: Option<&Lone>, lent: &mut Lent) -> TableAnswer {
    let refused = |refusal| TableAnswer { refusal, ..TableAnswer::default() };
    let Some(lone) = lone else { return refused(7) };
    if lent.tracks.len() < MAX_TRACKS || lent.words.len() < TABLE_WORDS {
        return refused(2);
    }
    write(&mut lent.tracks, &lone.tracks);
    write(&mut lent.words, &lone.words);
    lone.answer()
}

/// The track records that a read writes.
fn written<'a>(answer: &TableAnswer, lone: Option<&'a Lone>) -> &'a [Track] {
    match lone {
        Some(lone) if answer.refusal == 0 => &lone.tracks,
        _ => &[],
    }
}

/// The first of a list, so many as there are.
pub fn first<T>(list: &[T], count: usize) -> &[T] {
    &list[..count.min(list.len())]
}

/// Writes to the start of a list what fits.
pub fn write<T: Copy>(list: &mut [T], new: &[T]) {
    for (old, &new) in list.iter_mut().zip(new) {
        *old = new;
    }
}

fn is_table(bytes: usize) -> bool {
    0 < bytes && bytes <= MOST && bytes.is_multiple_of(DATA)
}

fn count(kind: &mut Kind, bytes: usize, records: usize, words: usize, refusal: u8) {
    let short = records < MAX_TRACKS || words < TABLE_WORDS;
    kind.class_if("no bytes", bytes == 0);
    kind.class_if("262,145 bytes", bytes == MOST + 1);
    kind.class_if("264,192 bytes", bytes == MOST + DATA);
    kind.class_if("2,047 bytes", bytes == DATA - 1);
    kind.class_if("7 before 2", refusal == 7 && short);
    kind.class_if("254 records", refusal == 2 && records == 254 && words >= TABLE_WORDS);
    kind.class_if("1,020 words", refusal == 2 && words == 1020 && records >= MAX_TRACKS);
    kind.class_if("no records", refusal == 2 && records == 0);
    kind.class_if("no words", refusal == 2 && words == 0);
    kind.class_if("255 records", refusal == 0 && records == MAX_TRACKS);
    kind.class_if("1,021 words", refusal == 0 && words == 1021);
    kind.class_if("longer records", refusal == 0 && records > MAX_TRACKS);
    kind.class_if("longer words", refusal == 0 && words > TABLE_WORDS);
    kind.class_if("262,144 bytes", refusal == 0 && bytes == MOST);
    kind.class_if("2,048 bytes", refusal == 6 && bytes == DATA);
}

/// None, one sector, one byte too many or too few, at and next to 128 sectors, and more.
fn any_length(rng: &mut Rng, bytes: usize) -> usize {
    match rng.below(3) {
        0 => rng.pick(&[0, 1, DATA - 1, DATA, DATA + 1]),
        1 => rng.pick(&[bytes - 1, bytes + 1, bytes + 8]),
        _ => rng.pick(&[MOST, MOST + 1, MOST + DATA, MOST - 1, 2 * MOST]),
    }
}

fn any_lent(rng: &mut Rng) -> Lent {
    let [tracks, words] = [MAX_TRACKS, TABLE_WORDS].map(|need| any_room(rng, need));
    let salt = rng.below(256);
    Lent { tracks: Guarded::tracks(salt, tracks), words: Guarded::words(salt, words) }
}

/// Mostly as many as are needed, or more; else one less, none or any.
fn any_room(rng: &mut Rng, need: usize) -> usize {
    let fewer = rng.below(need);
    match rng.below(64) {
        0 => need - 1,
        1 => rng.pick(&[0, 1, fewer]),
        2..=20 => need + 1 + rng.below(4),
        _ => need,
    }
}
