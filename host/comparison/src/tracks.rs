//! The tracks that accepted readings hand back: their stored times beside the Rust's, and the rule
//! of capping.

use crate::capping::{by_rule, frames, handed_back};
use crate::tally::Kind;
use scarletbook::raw::{Area, Timecode, Track};
use std::fmt::Debug;

/// The names of the kinds of stored times.
pub const OF_TABLES: &str = "tables, stored";
pub const OF_DISCS: &str = "discs, stored";

const TIMES: [&str; 9] = [
    "start, seconds above 59",
    "start, frames above 74",
    "duration, seconds above 59",
    "duration, frames above 74",
    "capped",
    "start capped",
    "duration capped",
    "sum is the play time",
    "sum one above",
];
const SLOTS: [&str; 4] = ["slot 1", "slot 2", "capped in slot 1", "capped in slot 2"];

/// An area that a reading hands back, its tracks, and the Rust's.
pub struct Handed<'a> {
    pub area: Area,
    /// From its first track on.
    pub tracks: &'a [Track],
    pub rust: &'a [Track],
    /// The bytes of its table.
    pub table: &'a [u8],
}

/// Each track is a case of both.
pub struct Tracks {
    pub stored: Kind,
    pub capping: Kind,
}

impl Tracks {
    pub fn of_tables() -> Self {
        Tracks {
            stored: Kind::new(OF_TABLES, &[&TIMES[..], &["tables with tracks"]].concat()),
            capping: Kind::new("tables, capping", &TIMES),
        }
    }

    pub fn of_discs() -> Self {
        let discs = ["discs with tracks", "tracks in both slots"];
        Tracks {
            stored: Kind::new(OF_DISCS, &[&TIMES[..], &SLOTS, &discs].concat()),
            capping: Kind::new("discs, capping", &[&TIMES[..], &SLOTS].concat()),
        }
    }

    /// The area of a lone table, and the words of its warnings.
    pub fn table(&mut self, question: &dyn Debug, handed: Handed, words: &[u32]) {
        self.stored.class_if("tables with tracks", handed.area.track_count > 0);
        self.area(question, handed, words);
    }

    /// The areas of a disc, and the words of its warnings.
    pub fn disc(&mut self, question: &dyn Debug, handed: [Handed; 2], words: &[u32]) {
        let slots = handed.iter().filter(|handed| handed.area.track_count > 0).count();
        self.stored.class_if("discs with tracks", slots > 0);
        self.stored.class_if("tracks in both slots", slots == 2);
        for handed in handed {
            self.area(question, handed, words);
        }
    }

    fn area(&mut self, question: &dyn Debug, handed: Handed, words: &[u32]) {
        let Handed { area, tracks, rust, .. } = handed;
        for (at, track) in tracks.iter().take(area.track_count.into()).enumerate() {
            let question = (question, area.playtime, track);
            self.stored.case(&question, 0, Some(stored(track)), rust.get(at).map(stored));
            let (library, rule) = (handed_back(&area, track, words), by_rule(&area, track));
            self.capping.case(&question, 0, library, rule);
            for kind in [&mut self.stored, &mut self.capping] {
                count(kind, &area, track);
            }
        }
    }
}

fn stored(track: &Track) -> [Timecode; 2] {
    [track.times.stored_start, track.times.stored_duration]
}

/// The classes of a track of an area.
fn count(kind: &mut Kind, area: &Area, track: &Track) {
    let [start, duration] = stored(track);
    kind.class_if("start, seconds above 59", start.seconds > 59);
    kind.class_if("start, frames above 74", start.frames > 74);
    kind.class_if("duration, seconds above 59", duration.seconds > 59);
    kind.class_if("duration, frames above 74", duration.frames > 74);
    let [start, duration, playtime] = [start, duration, area.playtime].map(frames);
    let capped = start + duration > playtime;
    kind.class_if("capped", capped);
    kind.class_if("start capped", capped && track.times.start_frame.0 < start);
    kind.class_if("duration capped", capped && track.times.duration_frames.0 < duration);
    kind.class_if("sum is the play time", start + duration == playtime);
    kind.class_if("sum one above", start + duration == playtime + 1);
    kind.class_if("slot 1", area.origin.slot == 1);
    kind.class_if("slot 2", area.origin.slot == 2);
    kind.class_if("capped in slot 1", capped && area.origin.slot == 1);
    kind.class_if("capped in slot 2", capped && area.origin.slot == 2);
}

#[test]
fn other_stored_times_and_a_wrong_cap_are_found() {
    use scarletbook::raw::{Frame, TableOrigin};
    let second = Timecode { minutes: 0, seconds: 1, frames: 0 };
    let origin = TableOrigin { slot: 2, ..Default::default() };
    let area = Area { origin, playtime: second, track_count: 2, ..Area::default() };
    let right = [1, 2].map(|number| Track { number, ..Track::default() });
    let differences = |library: [Track; 2], rust: &[Track]| {
        let mut tracks = Tracks::of_discs();
        let second = Handed { area, tracks: &library, rust, table: &[] };
        let first = Handed { area: Area::default(), tracks: &library, rust: &[], table: &[] };
        tracks.disc(&"a disc", [first, second], &[]);
        assert_eq!((tracks.stored.cases, tracks.stored.count("slot 2")), (2, 2));
        [tracks.stored.differences, tracks.capping.differences]
    };
    assert_eq!(differences(right, &right), [0, 0]);
    assert_eq!(differences(right, &right[..1]), [1, 0]);
    let mut other = right;
    other[1].times.stored_start = second;
    other[1].times.start_frame = Frame(75);
    assert_eq!(differences(other, &right), [1, 0]);
    other[1].times.start_frame = Frame(0);
    assert_eq!(differences(other, &other), [0, 1]);
    other[0].times.stored_duration = Timecode { frames: 1, ..second };
    other[0].times.duration_frames = Frame(75);
    assert_eq!(differences(other, &other), [0, 2]);
}
