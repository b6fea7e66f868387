//! Frame numbers, and times held within a play time.

use crate::tally::Kind;
use generate::Rng;
use oracle::toc;
use scarletbook::raw::{CapAnswer, Frame, Timecode};

pub struct Times {
    pub frame_number: Kind,
    pub cap: Kind,
}

impl Times {
    pub fn new() -> Self {
        let edges = ["0:0:0", "255:255:255", "seconds above 59", "frames above 74"];
        let sums = ["sum is the play time", "sum one above", "sum above 32 bits", "within"];
        let starts = ["start above", "start at it, 0", "start one above, 0"];
        Times {
            frame_number: Kind::new("frame_number", &edges),
            cap: Kind::new("cap", &[&sums[..], &starts[..]].concat()),
        }
    }

    /// Timecodes with every byte in every place, and caps next to every edge.
    pub fn all(&mut self) {
        for byte in 0..=255 {
            for other in [0, 1, 59, 60, 74, 75, 255] {
                self.frame_case([byte, other, other]);
                self.frame_case([other, byte, other]);
                self.frame_case([other, other, byte]);
            }
        }
        let edges = [0, 1, 100, 101, 4400, 4499, 4500, 4501, 4600, u32::MAX - 1, u32::MAX];
        for start in edges {
            for duration in edges {
                for playtime in edges {
                    self.cap_case(start, duration, playtime);
                }
            }
        }
    }

    pub fn cases(&mut self, rng: &mut Rng) {
        self.frame_case([rng.byte(), rng.byte(), rng.byte()]);
        let [start, duration] = [rng.word() as u32 >> 12, rng.word() as u32 >> 12];
        let sum = start + duration;
        let playtime = rng.pick(&[sum, sum + 1, sum.saturating_sub(1), start, duration, sum / 2]);
        self.cap_case(start, duration, playtime);
    }

    fn frame_case(&mut self, time: [u8; 3]) {
        let [minutes, seconds, frames] = time;
        let library = scarletbook::raw::frame_number(Timecode { minutes, seconds, frames });
        let rust = Frame(toc::Timecode { minutes, seconds, frames }.frame_number());
        let kind = &mut self.frame_number;
        kind.case(&time, 0, library, rust);
        kind.class_if("0:0:0", time == [0; 3]);
        kind.class_if("255:255:255", time == [255; 3]);
        kind.class_if("seconds above 59", seconds > 59);
        kind.class_if("frames above 74", frames > 74);
    }

    fn cap_case(&mut self, start: u32, duration: u32, playtime: u32) {
        let library = scarletbook::raw::cap(Frame(start), Frame(duration), Frame(playtime));
        let kind = &mut self.cap;
        let question = (start, duration, playtime);
        kind.record_case(&question, 0, library, expected_cap(start, duration, playtime));
        let (sum, whole) = (u64::from(start) + u64::from(duration), u64::from(playtime));
        kind.class_if("sum is the play time", sum == whole);
        kind.class_if("sum one above", sum == whole + 1);
        kind.class_if("sum above 32 bits", sum > u64::from(u32::MAX));
        kind.class_if("within", sum < whole);
        kind.class_if("start above", start > playtime);
        kind.class_if("start at it, 0", start == playtime && duration == 0);
        kind.class_if("start one above, 0", sum == whole + 1 && duration == 0);
    }
}

/// By the document: past the play time, the start is capped at it and the duration at what remains.
fn expected_cap(start: u32, duration: u32, playtime: u32) -> CapAnswer {
    let past = u64::from(start) + u64::from(duration) > u64::from(playtime);
    let start_frame = start.min(playtime);
    let duration_frames = duration.min(playtime - start_frame);
    CapAnswer {
        start_frame: Frame(start_frame),
        duration_frames: Frame(duration_frames),
        past_playtime: past.into(),
    }
}
