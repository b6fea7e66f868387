//! The texts of a disc: every item of the disc, of its areas and of their tracks.

use super::answer::Answer;
use super::memory;
use crate::guard::Guarded;
use crate::held::{self, Words};
use crate::sectors::Buffer;
use crate::strings::{Decoded, MAPPED, count_mapped, expected_text};
use crate::tally::Kind;
use generate::Rng;
use generate::text::any_page_length;
use oracle::error::Slot;
use oracle::toc::{AreaTextItem, DiscTextItem, TrackTextItem};
use scarletbook::raw::{
    Area, DecodeAnswer, MasterToc, TRACK_RECORDS, Track, WORK_BYTES, decode_disc_area_text,
    decode_disc_text, decode_disc_track_text,
};

/// A record and the text of it that is asked for.
#[derive(Clone, Copy, Debug)]
pub enum Which {
    Disc(MasterToc, u32),
    Area(Area, u32),
    /// A track by its number, and an item of it.
    Track(Area, u32, u32),
}

impl Which {
    pub fn charset(&self) -> u8 {
        match self {
            Which::Disc(master, _) => master.text_charset,
            Which::Area(area, _) | Which::Track(area, ..) => area.text_charset,
        }
    }

    fn decode(&self, lent: Lent, page: &mut [u8]) -> DecodeAnswer {
        let Lent { work, tracks, words: Words { list, .. } } = lent;
        match self {
            Which::Disc(master, item) => decode_disc_text(work, master, *item, list, page),
            Which::Area(area, item) => decode_disc_area_text(work, area, *item, list, page),
            Which::Track(area, number, item) => {
                decode_disc_track_text(work, area, tracks, *number, *item, list, page)
            }
        }
    }
}

/// What decoding is lent: of the memory of a reading, and the words of a mapping.
#[derive(Clone, Copy)]
pub struct Lent<'a> {
    pub work: &'a [u8],
    pub tracks: &'a [Track],
    pub words: Words,
}

#[derive(Debug)]
#[allow(dead_code)] // its fields are printed
struct Question {
    work: usize,
    tracks: usize,
    which: Which,
    words: Words,
    page: usize,
}

pub struct Texts {
    pub disc: Kind,
    pub area: Kind,
    pub track: Kind,
}

impl Texts {
    pub fn new() -> Self {
        let texts = ["accepted", "present", "absent", "absent in set 3 to 6", "high bytes"];
        let pages = ["refusal 9", "refusal 12", "refusal 10", "one byte short", "page to the byte"];
        let common = [&texts[..], &pages, &MAPPED].concat();
        let slots = [&common[..], &["slot 1", "slot 2"]].concat();
        Texts {
            disc: Kind::new("disc texts", &[&common[..], &["of a silent disc"]].concat()),
            area: Kind::new("disc area texts", &slots),
            track: Kind::new("disc track texts", &[&slots[..], &["track 255"]].concat()),
        }
    }

    /// Every text of a disc, accepted or silent, from the memory that its reading left.
    pub fn cases(&mut self, rng: &mut Rng, answer: &Answer, lent: &memory::Lent) {
        let (work, tracks) = (&lent.work[..WORK_BYTES], &lent.tracks[..TRACK_RECORDS]);
        let lent = Lent { work, tracks, words: held::NONE };
        for (item, &name) in (0..).zip(DiscTextItem::ALL) {
            let which = Which::Disc(answer.master, item);
            let text = answer.text.get(name);
            text_case(&mut self.disc, rng, lent, which, text);
            self.disc.class_if("of a silent disc", answer.refusal == 6 && text.is_some());
        }
        let Some(toc) = &answer.toc else { return };
        for (slot, area) in Slot::ALL.into_iter().zip(answer.areas) {
            let Some(rust) = toc.area(slot) else { continue };
            for (item, &name) in (0..).zip(AreaTextItem::ALL) {
                let which = Which::Area(area, item);
                text_case(&mut self.area, rng, lent, which, rust.text.get(name));
            }
            for track in &rust.tracks {
                for (item, &name) in (0..).zip(TrackTextItem::ALL) {
                    let which = Which::Track(area, track.number.into(), item);
                    text_case(&mut self.track, rng, lent, which, track.text.get(name));
                }
            }
        }
    }
}

/// A text that the Rust has or has not, by any words.
fn text_case(kind: &mut Kind, rng: &mut Rng, lent: Lent, which: Which, text: Option<&str>) {
    let code = which.charset();
    let need = text.map_or(2, str::len);
    let page = any_page_length(rng, need);
    let words = held::any(rng, code);
    let expected = |page: &mut [u8]| expected_text(text, (code, words), page);
    let answer = decode_case(kind, rng, Lent { words, ..lent }, which, page, expected);
    let mapped = held::is_mapped(code);
    count_mapped(kind, code, answer);
    kind.class_if("present", answer.len > 0);
    kind.class_if("absent", text.is_none() && !mapped);
    kind.class_if("absent in set 3 to 6", text.is_none() && mapped);
    kind.class_if("high bytes", answer.len > 0 && text.is_some_and(|text| !text.is_ascii()));
    kind.class_if("one byte short", answer.refusal == 10 && page + 1 == need);
    kind.class_if("page to the byte", answer.len > 0 && page == need);
    if let Which::Area(area, _) | Which::Track(area, ..) = which {
        kind.class_if("slot 1", answer.len > 0 && area.origin.slot == 1);
        kind.class_if("slot 2", answer.len > 0 && area.origin.slot == 2);
    }
    kind.class_if("track 255", answer.len > 0 && matches!(which, Which::Track(_, 255, _)));
}

/// Decodes into a page of so many bytes; the expected answer.
pub fn decode_case(
    kind: &mut Kind,
    rng: &mut Rng,
    lent: Lent,
    which: Which,
    page: usize,
    expected: impl Fn(&mut [u8]) -> DecodeAnswer,
) -> DecodeAnswer {
    let Lent { work, tracks, words } = lent;
    let mut ours = Guarded::bytes(rng.below(256), page);
    let mut theirs = ours.clone();
    let answer = which.decode(lent, &mut ours);
    let library = Decoded { answer, page: Buffer(ours.all()) };
    let answer = expected(&mut theirs);
    let rust = Decoded { answer, page: Buffer(theirs.all()) };
    let question = Question { work: work.len(), tracks: tracks.len(), which, words, page };
    kind.values.note(&library.answer, &rust.answer);
    kind.case(&question, answer.refusal, library, rust);
    answer
}
