//! Decoding by records that lie, from work bytes and track records that have anything in them.

use super::answer::Answer;
use super::memory::Lent;
use super::texts::{self, Which, decode_case};
use crate::held;
use crate::plain;
use crate::rust;
use crate::strings::expected_text;
use crate::tally::Kind;
use generate::Rng;
use generate::layout::DATA;
use generate::table::{MOST_SECTORS, put};
use generate::text::any_page_length;
use scarletbook::raw::{
    AREA_TEXTS, Area, DISC_TEXTS, DecodeAnswer, FIRST_TRACKS, MAX_TRACKS, MasterToc, REGIONS,
    TRACK_RECORDS, TRACK_TEXTS, TextPlace, Track, WORK_BYTES,
};

/// The bytes of a table at most.
const MOST: usize = MOST_SECTORS * DATA;

pub struct Lies {
    pub kind: Kind,
}

impl Lies {
    pub fn new() -> Self {
        let refusals =
            ["accepted", "refusal 2", "refusal 8", "refusal 9", "refusal 12", "refusal 10"];
        let sectors = ["above 128 sectors", "128 sectors", "sectors 0", "slot 1", "slot 2"];
        let counts = ["above 255 tracks", "track 255 of more", "track 256", "track 0"];
        let entries = ["flag 0", "flag above 1", "slot 0", "slot 3"];
        let items = ["no such disc item", "no such area item", "no such track item"];
        let places = ["place at the end", "place past the end", "largest place", "cut text"];
        let disc = ["disc text", "cut disc text", "disc place 2,048", "disc place past it"];
        let short = ["544,767 bytes", "509 records", "longer work", "longer list"];
        let order = ["2 before 8", "8 before 9", "2 before 12", "8 before 12"];
        let classes =
            [&refusals[..], &sectors, &counts, &entries, &items, &places, &disc, &short, &order];
        Lies { kind: Kind::new("disc texts by lies", &classes.concat()) }
    }

    /// A few texts by records that lie. The memory is changed.
    pub fn cases(&mut self, rng: &mut Rng, answer: &Answer, lent: &mut Lent) {
        for _ in 0..4 {
            let mut master = answer.master;
            let slot = rng.below(2);
            let mut area = answer.areas[slot];
            if area.present == 0 && rng.below(4) > 0 {
                area = answer.areas[1 - slot];
            }
            for _ in 0..1 + rng.below(2) {
                lie(rng, &mut area, lent);
            }
            lie_of_disc(rng, &mut master, lent);
            self.record_case(rng, master, area, lent);
        }
    }

    /// Any text by any records.
    pub fn record_case(&mut self, rng: &mut Rng, master: MasterToc, area: Area, lent: &Lent) {
        let which = any_which(rng, master, area);
        let work = &lent.work[..any_room(rng, WORK_BYTES).min(lent.work.len())];
        let tracks = &lent.tracks[..any_room(rng, TRACK_RECORDS).min(lent.tracks.len())];
        let (refusal, string) = found(work, tracks, &which);
        let code = which.charset();
        let text = rust::decode(string, code);
        let page = any_page_length(rng, text.as_ref().map_or(2, String::len));
        let words = held::any(rng, code);
        let lent = texts::Lent { work, tracks, words };
        decode_case(&mut self.kind, rng, lent, which, page, |page| match refusal {
            0 => expected_text(text.as_deref(), (code, words), page),
            refusal => DecodeAnswer { refusal, len: 0 },
        });
        count(&mut self.kind, work, tracks, &which, (refusal, string));
        let bad = held::is_mapped(code) && words.refusal == 12;
        self.kind.class_if("2 before 12", bad && refusal == 2);
        self.kind.class_if("8 before 12", bad && refusal == 8);
    }
}

/// Mostly as many as are needed; else one less, none, or more.
fn any_room(rng: &mut Rng, need: usize) -> usize {
    match rng.below(32) {
        0 => need - 1,
        1 => rng.pick(&[0, 1, need / 2]),
        2..=5 => need + 1 + rng.below(3),
        _ => need,
    }
}

/// The table that an area's record names: nothing if its slot is none.
fn table<'a>(work: &'a [u8], area: &Area) -> Option<&'a [u8]> {
    let slot = usize::from(area.origin.slot).checked_sub(1).filter(|&slot| slot < 2)?;
    let bytes = usize::from(area.origin.toc_sectors).min(MOST_SECTORS) * DATA;
    work.get(REGIONS[slot]..REGIONS[slot] + bytes)
}

fn disc_texts(work: &[u8]) -> &[u8] {
    &work[REGIONS[2] + DATA..][..DATA]
}

/// By the document: the refusal, 2 or 8, or the bytes of the text's string.
fn found<'a>(work: &'a [u8], tracks: &[Track], which: &Which) -> (u8, &'a [u8]) {
    let listed = !matches!(which, Which::Track(..)) || tracks.len() >= TRACK_RECORDS;
    if work.len() < WORK_BYTES || !listed {
        return (2, &[]);
    }
    let found = match which {
        Which::Disc(master, item) => {
            master.text.get(*item as usize).map(|text| (disc_texts(work), text.place))
        }
        Which::Area(area, item) => table(work, area)
            .filter(|_| area.present == 1)
            .zip(area.text.get(*item as usize).map(|text| text.place)),
        Which::Track(area, number, item) => table(work, area)
            .filter(|_| area.present == 1)
            .zip(track_place(area, tracks, *number, *item)),
    };
    match found {
        None => (8, &[]),
        Some((_, 0)) => (0, &[]),
        Some((table, place)) => (0, plain::string_at(table, place as usize)),
    }
}

fn track_place(area: &Area, tracks: &[Track], number: u32, item: u32) -> Option<u32> {
    let slot = usize::from(area.origin.slot).checked_sub(1)?;
    let count = u32::from(area.track_count).min(MAX_TRACKS as u32);
    let number = (1..=count).contains(&number).then_some(number as usize)?;
    let track = &tracks[FIRST_TRACKS.get(slot)? + number - 1];
    track.text.get(item as usize).map(|text| text.place)
}

/// Changes an area's record, or what is lent, so that they do not agree.
fn lie(rng: &mut Rng, area: &mut Area, lent: &mut Lent) {
    let sectors = usize::from(area.origin.toc_sectors).min(MOST_SECTORS);
    let (end, any) = (sectors * DATA, rng.below(6000));
    let places = [end.saturating_sub(1), end, end + 1, MOST - 1, MOST, u32::MAX as usize, any];
    let text = TextPlace { place: rng.pick(&places) as u32, end: rng.byte() };
    match rng.below(11) {
        0 => area.origin.toc_sectors = rng.pick(&[127, 128, 129, 200, 65_535]),
        1 => area.origin.toc_sectors = rng.below(sectors + 1) as u16,
        2 => area.track_count = rng.pick(&[0, 1, 255, 256, 300, 65_535]),
        3 => area.text.fill(text),
        4 | 5 => lent.tracks.iter_mut().for_each(|track| track.text.fill(text)),
        6 => area.present = rng.pick(&[0, 1, 2, 255]),
        7 => area.origin.slot = rng.pick(&[0, 1, 2, 2, 3, 255]),
        8 => area.text_charset = rng.byte(),
        9 => {
            let region = rng.pick(&REGIONS[..2]);
            put(&mut lent.work, region + end.saturating_sub(2), b"cut");
            area.text.fill(TextPlace { place: end.saturating_sub(1) as u32, ..text });
        }
        _ => {
            let at = rng.below(WORK_BYTES - 64);
            rng.fill(&mut lent.work[at..at + 64]);
        }
    }
}

/// The same for the master record.
fn lie_of_disc(rng: &mut Rng, master: &mut MasterToc, lent: &mut Lent) {
    let any = rng.below(DATA);
    let place = rng.pick(&[DATA - 2, DATA - 1, DATA, DATA + 1, 65_535, u32::MAX as usize, any]);
    let end = rng.byte();
    match rng.below(4) {
        0 => master.text.fill(TextPlace { place: place as u32, end }),
        1 => {
            put(&mut lent.work, REGIONS[2] + 2 * DATA - 3, b"cut here");
            master.text.fill(TextPlace { place: (DATA - 2) as u32, end });
        }
        2 => master.text_charset = rng.byte(),
        _ => {}
    }
}

fn any_which(rng: &mut Rng, master: MasterToc, area: Area) -> Which {
    let count = u32::from(area.track_count);
    let number = match rng.below(8) {
        0 => rng.pick(&[0, 255, 256, u32::MAX]),
        1 => count + 1,
        2 | 3 => count,
        _ => 1 + rng.below(usize::from(area.track_count).max(1)) as u32,
    };
    let texts = rng.pick(&[DISC_TEXTS, AREA_TEXTS, TRACK_TEXTS, TRACK_TEXTS]);
    let any = rng.below(texts) as u32;
    let out = rng.pick(&[texts as u32, 16, 256, u32::MAX]);
    let item = if rng.below(16) == 0 { out } else { any };
    match texts {
        DISC_TEXTS => Which::Disc(master, item),
        AREA_TEXTS => Which::Area(area, item),
        _ => Which::Track(area, number, item),
    }
}

fn count(kind: &mut Kind, work: &[u8], tracks: &[Track], which: &Which, found: (u8, &[u8])) {
    let refusal = found.0;
    let present = refusal == 0 && !found.1.is_empty();
    kind.class_if("544,767 bytes", refusal == 2 && work.len() == WORK_BYTES - 1);
    let list = refusal == 2 && work.len() >= WORK_BYTES;
    kind.class_if("509 records", list && tracks.len() == TRACK_RECORDS - 1);
    kind.class_if("longer work", present && work.len() > WORK_BYTES);
    kind.class_if("longer list", present && tracks.len() > TRACK_RECORDS);
    kind.class_if("8 before 9", refusal == 8 && held::is_mapped(which.charset()));
    match which {
        Which::Disc(master, item) => count_disc(kind, work, master, *item, found),
        Which::Area(area, item) => {
            let place = area.text.get(*item as usize).map(|text| text.place);
            kind.class_if("no such area item", refusal == 8 && place.is_none());
            count_area(kind, work, area, place, found);
        }
        Which::Track(area, number, item) => {
            count_track(kind, area, *number, *item, refusal);
            let whole = tracks.len() >= TRACK_RECORDS;
            let place = whole.then(|| track_place(area, tracks, *number, *item)).flatten();
            count_area(kind, work, area, place, found);
        }
    }
}

fn count_disc(kind: &mut Kind, work: &[u8], master: &MasterToc, item: u32, found: (u8, &[u8])) {
    let (refusal, string) = found;
    kind.class_if("no such disc item", refusal == 8);
    let Some(text) = master.text.get(item as usize).filter(|_| refusal == 0) else { return };
    let place = text.place as usize;
    let whole = plain::string_at(&work[REGIONS[2] + DATA..], place).len();
    kind.class_if("disc text", !string.is_empty());
    kind.class_if("cut disc text", !string.is_empty() && string.len() < whole);
    kind.class_if("disc place 2,048", place == DATA);
    kind.class_if("disc place past it", place > DATA);
}

fn count_track(kind: &mut Kind, area: &Area, number: u32, item: u32, refusal: u8) {
    let known = area.present == 1 && matches!(area.origin.slot, 1 | 2);
    let many = area.track_count > 255;
    kind.class_if("above 255 tracks", refusal == 0 && many);
    kind.class_if("track 255 of more", refusal == 0 && many && number == 255);
    let sound = refusal == 8 && known && item < TRACK_TEXTS as u32;
    kind.class_if("track 256", sound && many && number == 256);
    kind.class_if("track 0", sound && number == 0);
    let out = item >= TRACK_TEXTS as u32 && (1..=area.track_count.into()).contains(&number);
    kind.class_if("no such track item", refusal == 8 && known && out);
    kind.class_if("2 before 8", refusal == 2 && (!known || number == 0));
}

fn count_area(kind: &mut Kind, work: &[u8], area: &Area, place: Option<u32>, found: (u8, &[u8])) {
    let (refusal, string) = found;
    let (slot, sectors) = (area.origin.slot, usize::from(area.origin.toc_sectors));
    kind.class_if("flag 0", refusal == 8 && area.present == 0);
    kind.class_if("flag above 1", refusal == 8 && area.present > 1);
    kind.class_if("slot 0", refusal == 8 && area.present == 1 && slot == 0);
    kind.class_if("slot 3", refusal == 8 && area.present == 1 && slot == 3);
    let Some(place) = place.map(|place| place as usize).filter(|_| refusal == 0) else { return };
    let size = sectors.min(MOST_SECTORS) * DATA;
    let present = !string.is_empty();
    kind.class_if("above 128 sectors", present && sectors > MOST_SECTORS);
    kind.class_if("128 sectors", present && sectors == MOST_SECTORS);
    kind.class_if("sectors 0", sectors == 0);
    kind.class_if("slot 1", present && slot == 1);
    kind.class_if("slot 2", present && slot == 2);
    kind.class_if("place at the end", place == size && place > 0);
    kind.class_if("place past the end", place == size + 1);
    kind.class_if("largest place", place == u32::MAX as usize);
    let whole = plain::string_at(&work[REGIONS[usize::from(slot) - 1]..], place).len();
    kind.class_if("cut text", present && string.len() < whole);
}
