//! What is lent to the reading of a disc, and what it leaves.

use super::answer::Answer;
use crate::guard::{self, Differing, Guarded};
use crate::tables::write;
use crate::values::Values;
use generate::Rng;
use generate::disc::Disc;
use scarletbook::raw::{
    DiscAnswer, FIRST_TRACKS, REGIONS, TRACK_RECORDS, Track, WARNING_WORDS, WORK_BYTES, read_disc,
};

/// The most that is lent beyond what must be.
fn more() -> usize {
    if guard::is_exact() { 0 } else { 4 }
}

#[derive(Clone)]
pub struct Lent {
    pub work: Guarded<u8>,
    pub tracks: Guarded<Track>,
    pub words: Guarded<u32>,
}

/// How much of the memory is lent.
#[derive(Clone, Copy, Debug, PartialEq)]
pub struct Room {
    pub work: usize,
    pub tracks: usize,
    pub words: usize,
}

impl Room {
    pub const EXACT: Room = Room { work: WORK_BYTES, tracks: TRACK_RECORDS, words: WARNING_WORDS };

    pub fn is_short(self) -> bool {
        let Room { work, tracks, words } = Room::EXACT;
        self.work < work || self.tracks < tracks || self.words < words
    }

    /// One of the three is too short.
    fn short(rng: &mut Rng) -> Self {
        let less = |need: usize, rng: &mut Rng| rng.pick(&[need - 1, need - 1, need / 2, 0]);
        let Room { work, tracks, words } = Room::EXACT;
        match rng.below(3) {
            0 => Room { work: less(work, rng), ..Room::EXACT },
            1 => Room { tracks: less(tracks, rng), ..Room::EXACT },
            _ => Room { words: less(words, rng), ..Room::EXACT },
        }
    }

    /// Mostly just enough; now and then more, or too short, oftener for an image that is refused.
    pub fn any(rng: &mut Rng, refused: bool) -> Self {
        let Room { work, tracks, words } = Room::EXACT;
        match rng.below(32) {
            0 => Room::short(rng),
            1..=6 => {
                let [work, tracks, words] =
                    [work, tracks, words].map(|need| need + rng.below(more() + 1));
                Room { work, tracks, words }
            }
            7..=14 if refused => Room::short(rng),
            _ => Room::EXACT,
        }
    }
}

/// The same memory twice, for the library and for the Rust. Between readings it has a pattern.
pub struct Memory {
    before: Lent,
    pub ours: Lent,
    theirs: Lent,
}

/// What a reading leaves: its answer, and of all memory the first of each that differs.
#[derive(Debug, PartialEq)]
pub struct Left {
    answer: DiscAnswer,
    work: Differing<u8>,
    track: Differing<Track>,
    word: Differing<u32>,
}

impl Memory {
    pub fn new(salt: usize) -> Self {
        let before = Lent {
            work: Guarded::bytes(salt, WORK_BYTES + more()),
            tracks: Guarded::tracks(salt, TRACK_RECORDS + more()),
            words: Guarded::words(salt, WARNING_WORDS + more()),
        };
        Memory { ours: before.clone(), theirs: before.clone(), before }
    }

    /// The library reads.
    pub fn read(&mut self, format: u32, image: &[u8], room: Room) -> DiscAnswer {
        let Lent { work, tracks, words } = &mut self.ours;
        let (work, tracks) = (&mut work[..room.work], &mut tracks[..room.tracks]);
        read_disc(format, image, work, tracks, &mut words[..room.words])
    }

    /// Writes what the Rust gives to where the document says.
    pub fn write(&mut self, disc: &Disc, answer: &Answer) {
        if !matches!(answer.refusal, 0 | 6) {
            return;
        }
        let Lent { work, tracks, words } = &mut self.theirs;
        write(&mut work[REGIONS[2]..], &disc.master());
        for slot in 0..2 {
            if let Some(table) = &answer.tables[slot] {
                write(&mut work[REGIONS[slot]..], table);
            }
            write(&mut tracks[FIRST_TRACKS[slot]..], &answer.tracks[slot]);
        }
        write(words, &answer.words);
    }

    /// Notes the track records that a reading wrote.
    pub fn note_tracks(&self, answer: &Answer, values: &mut Values) {
        for (first, tracks) in FIRST_TRACKS.into_iter().zip(&answer.tracks) {
            values.note_all(&self.ours.tracks[first..], tracks);
        }
    }

    /// What the library and the Rust leave of all memory, that which is not lent too.
    pub fn left(&self, ours: DiscAnswer, theirs: DiscAnswer) -> [Left; 2] {
        let works = self.ours.work.differing(&self.theirs.work);
        let tracks = self.ours.tracks.differing(&self.theirs.tracks);
        let words = self.ours.words.differing(&self.theirs.words);
        let [our, their] = [0, 1].map(|of| (works[of], tracks[of], words[of]));
        [(ours, our), (theirs, their)].map(|(answer, (work, track, word))| Left {
            answer,
            work,
            track,
            word,
        })
    }

    /// Puts a track record into both.
    pub fn set_track(&mut self, at: usize, track: Track) {
        self.ours.tracks[at] = track;
        self.theirs.tracks[at] = track;
    }

    /// Puts the pattern back.
    pub fn restore(&mut self) {
        for lent in [&mut self.ours, &mut self.theirs] {
            lent.work.restore(&self.before.work);
            lent.tracks.restore(&self.before.tracks);
            lent.words.restore(&self.before.words);
        }
    }
}
