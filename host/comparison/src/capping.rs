//! The rule of capping, over what a reading hands back and nothing else: the frame numbers of a track
//! and its warning 14 follow from its stored times and from the play time of its area.

use scarletbook::raw::{Area, Timecode, Track};

/// The code of the warning of a track that was capped.
const PAST_PLAYTIME: u32 = 14;

/// What the rule is about, of one track.
#[derive(Debug, PartialEq)]
pub struct Capped {
    start: u32,
    duration: u32,
    /// Whether both together are at most the play time.
    within: bool,
    /// How often the words have the track's warning.
    warned: usize,
}

/// The frame number of a timecode, whatever its seconds and frames.
pub fn frames(time: Timecode) -> u32 {
    75 * (60 * u32::from(time.minutes) + u32::from(time.seconds)) + u32::from(time.frames)
}

/// As the track, its area's record and the words of the warnings have it.
pub fn handed_back(area: &Area, track: &Track, words: &[u32]) -> Capped {
    let (start, duration) = (track.times.start_frame.0, track.times.duration_frames.0);
    let sum = u64::from(start) + u64::from(duration);
    let (slot, number) = (u32::from(area.origin.slot), u32::from(track.number));
    let warning = PAST_PLAYTIME * 65_536 + slot * 256 + number;
    Capped {
        start,
        duration,
        within: sum <= u64::from(frames(area.playtime)),
        warned: words.iter().filter(|&&word| word == warning).count(),
    }
}

/// As the rule has it: a stored sum past the play time is capped, and warned of once.
pub fn by_rule(area: &Area, track: &Track) -> Capped {
    let start = frames(track.times.stored_start);
    let duration = frames(track.times.stored_duration);
    let playtime = frames(area.playtime);
    if start + duration <= playtime {
        return Capped { start, duration, within: true, warned: 0 };
    }
    let start = start.min(playtime);
    let duration = duration.min(playtime - start);
    Capped { start, duration, within: true, warned: 1 }
}

#[cfg(test)]
mod tests {
    use super::*;
    use scarletbook::raw::{Frame, TableOrigin, TrackTimes};

    /// Warning 14 of track 3 in slot 2.
    const WARNING: u32 = 14 * 65_536 + 2 * 256 + 3;

    /// An area in slot 2 that plays for a minute: 4,500 frames.
    fn area() -> Area {
        let playtime = Timecode { minutes: 1, seconds: 0, frames: 0 };
        Area { origin: TableOrigin { slot: 2, ..Default::default() }, playtime, ..Area::default() }
    }

    /// Track 3 with a stored start and duration of so many seconds, and frame numbers.
    fn track(stored: [u8; 2], start: u32, duration: u32) -> Track {
        let [stored_start, stored_duration] =
            stored.map(|seconds| Timecode { minutes: 0, seconds, frames: 0 });
        let (start_frame, duration_frames) = (Frame(start), Frame(duration));
        let times = TrackTimes { start_frame, duration_frames, stored_start, stored_duration };
        Track { number: 3, times, ..Track::default() }
    }

    fn holds(track: &Track, words: &[u32]) -> bool {
        handed_back(&area(), track, words) == by_rule(&area(), track)
    }

    #[test]
    fn a_right_answer_passes() {
        let other = WARNING + 1;
        assert!(holds(&track([20, 40], 1500, 3000), &[other]));
        assert!(holds(&track([20, 41], 1500, 3000), &[other, WARNING]));
        assert!(holds(&track([60, 0], 4500, 0), &[]));
        assert!(holds(&track([61, 0], 4500, 0), &[WARNING]));
        assert!(holds(&track([255, 255], 4500, 0), &[WARNING]));
    }

    #[test]
    fn other_frame_numbers_are_found() {
        assert!(!holds(&track([20, 39], 1500, 3000), &[]));
        assert!(!holds(&track([20, 41], 1500, 3075), &[WARNING]));
        assert!(!holds(&track([20, 41], 1425, 3075), &[WARNING]));
        assert!(!holds(&track([61, 0], 4575, 0), &[WARNING]));
        assert!(!holds(&track([0, 0], u32::MAX, u32::MAX), &[]));
    }

    #[test]
    fn a_missing_a_needless_and_a_second_warning_are_found() {
        let capped = track([20, 41], 1500, 3000);
        assert!(!holds(&capped, &[]));
        assert!(!holds(&capped, &[WARNING, WARNING]));
        assert!(!holds(&track([20, 40], 1500, 3000), &[WARNING]));
        for other in [WARNING + 1, WARNING - 256, WARNING + 65_536] {
            assert!(!holds(&capped, &[other]), "{other}");
        }
    }
}
