//! What is lent to the library, in the middle of more memory. All of it has a pattern.

use generate::image::pattern;
use scarletbook::raw::{
    FixedText, Frame, Genre, Lsn, TRACK_TEXTS, TextPlace, Timecode, Track, TrackTimes,
};
use std::ops::{Deref, DerefMut};
use std::sync::atomic::{AtomicBool, Ordering};

/// Elements before what is lent, and as many behind it.
const ZONE: usize = 32;

static EXACT: AtomicBool = AtomicBool::new(false);

/// From now on lent memory is allocated to its size, so that a checker of memory sees what lies
/// outside.
pub fn make_exact() {
    EXACT.store(true, Ordering::Relaxed);
}

pub fn is_exact() -> bool {
    EXACT.load(Ordering::Relaxed)
}

/// A list that is lent; as a slice it is what is lent of it.
#[derive(Clone)]
pub struct Guarded<T> {
    all: Vec<T>,
    zone: usize,
}

/// Where two lists differ first, from the first lent element on, and what stands there.
pub type Differing<T> = Option<(isize, T)>;

impl<T: Copy + PartialEq> Guarded<T> {
    fn new(len: usize, patterned: impl Fn(usize) -> Vec<T>) -> Self {
        let zone = if is_exact() { 0 } else { ZONE };
        Guarded { all: patterned(len + 2 * zone), zone }
    }

    /// With what lies around.
    pub fn all(&self) -> &[T] {
        &self.all
    }

    /// Makes all as it is in a list of the same length.
    pub fn restore(&mut self, before: &Self) {
        self.all.copy_from_slice(&before.all);
    }

    /// What stands where all of this and of the other differ first, in each.
    pub fn differing(&self, other: &Self) -> [Differing<T>; 2] {
        let at = first_difference(&self.all, &other.all);
        let place = |at: usize| at as isize - self.zone as isize;
        [self, other].map(|list| at.map(|at| (place(at), list.all[at])))
    }
}

impl Guarded<u8> {
    pub fn bytes(salt: usize, len: usize) -> Self {
        Guarded::new(len, |len| {
            let mut bytes = vec![0; len];
            pattern(salt, &mut bytes);
            bytes
        })
    }

    /// With these bytes lent.
    pub fn holding(salt: usize, bytes: &[u8]) -> Self {
        let zones = Guarded::bytes(salt, 0);
        let (before, behind) = zones.all.split_at(zones.zone);
        Guarded { all: [before, bytes, behind].concat(), zone: zones.zone }
    }
}

impl Guarded<u32> {
    pub fn words(salt: usize, len: usize) -> Self {
        Guarded::new(len, |len| patterned_words(salt, len))
    }
}

impl Guarded<Track> {
    pub fn tracks(salt: usize, len: usize) -> Self {
        Guarded::new(len, |len| patterned_tracks(salt, len))
    }
}

impl<T> Deref for Guarded<T> {
    type Target = [T];

    fn deref(&self) -> &[T] {
        &self.all[self.zone..self.all.len() - self.zone]
    }
}

impl<T> DerefMut for Guarded<T> {
    fn deref_mut(&mut self) -> &mut [T] {
        let end = self.all.len() - self.zone;
        &mut self.all[self.zone..end]
    }
}

fn patterned_words(salt: usize, count: usize) -> Vec<u32> {
    let mut bytes = vec![0; 4 * count];
    pattern(salt, &mut bytes);
    let (words, _) = bytes.as_chunks();
    words.iter().map(|&word| u32::from_le_bytes(word)).collect()
}

/// Records whose every field follows from its place alone.
pub fn patterned_tracks(salt: usize, count: usize) -> Vec<Track> {
    let words = patterned_words(salt, TRACK_WORDS * count);
    words.as_chunks().0.iter().map(track_of).collect()
}

/// The words that give a record a value in each field.
pub const TRACK_WORDS: usize = 30;

pub fn track_of(words: &[u32; TRACK_WORDS]) -> Track {
    let byte = |at: usize| words[at / 4].to_le_bytes()[at % 4];
    let timecode = |at| Timecode { minutes: byte(at), seconds: byte(at + 1), frames: byte(at + 2) };
    let text = &words[TRACK_WORDS - TRACK_TEXTS..];
    Track {
        number: byte(0),
        start_lsn: Lsn(words[1]),
        length_sectors: words[2],
        times: TrackTimes {
            start_frame: Frame(words[3]),
            duration_frames: Frame(words[4]),
            stored_start: timecode(40),
            stored_duration: timecode(43),
        },
        start_flags: byte(1),
        duration_flags: byte(2),
        has_isrc: byte(3),
        isrc: FixedText { bytes: std::array::from_fn(|at| byte(20 + at)), len: byte(36) },
        has_genre: byte(37),
        genre: Genre { category: byte(38), index: byte(39) },
        text: std::array::from_fn(|item| TextPlace { place: text[item], end: byte(46 + item) }),
    }
}

fn first_difference<T: PartialEq>(ours: &[T], theirs: &[T]) -> Option<usize> {
    if ours == theirs {
        return None;
    }
    ours.iter().zip(theirs).position(|(ours, theirs)| ours != theirs)
}

#[test]
fn a_change_around_what_is_lent_is_seen() {
    let before = Guarded::words(3, 5);
    let mut after = before.clone();
    assert_eq!((after.len(), after.all().len()), (5, 5 + 2 * ZONE));
    assert_eq!(after.differing(&before), [None, None]);
    after.all[ZONE - 1] ^= 1;
    let [now, then] = after.differing(&before);
    assert_eq!((now.map(|now| now.0), then), (Some(-1), Some((-1, before.all[ZONE - 1]))));
    after.restore(&before);
    after[4] ^= 1;
    assert_eq!(after.differing(&before)[1], Some((4, before[4])));
}
