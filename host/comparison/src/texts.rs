//! The texts of lone tables: every item of every area and track, and records that lie.

use crate::guard::{Guarded, patterned_tracks};
use crate::held::{self, Words};
use crate::lone::Lone;
use crate::plain;
use crate::rust;
use crate::sectors::Buffer;
use crate::strings::{Decoded, MAPPED, count_mapped, expected_text};
use crate::tables::write;
use crate::tally::Kind;
use generate::Rng;
use generate::layout::DATA;
use generate::table::{MOST_SECTORS, put};
use generate::text::any_page_length;
use oracle::toc::{AreaTextItem, TrackTextItem};
use scarletbook::raw::{AREA_TEXTS, Area, DecodeAnswer, MAX_TRACKS, TRACK_TEXTS, TextPlace, Track};

/// Which text is asked for: of the area or of a track.
#[derive(Clone, Copy, Debug, PartialEq)]
enum Which {
    Area(u32),
    Track(u32, u32),
}

/// What decoding is lent, but for the words of a mapping.
struct Lent<'a> {
    table: &'a [u8],
    area: Area,
    tracks: &'a [Track],
}

impl Lent<'_> {
    fn decode(&self, which: Which, mapping: &[u32], page: &mut [u8]) -> DecodeAnswer {
        let Lent { table, area, tracks } = self;
        match which {
            Which::Area(item) => {
                scarletbook::raw::decode_area_text(table, area, item, mapping, page)
            }
            Which::Track(number, item) => scarletbook::raw::decode_track_text(
                table, area, tracks, number, item, mapping, page,
            ),
        }
    }
}

#[derive(Debug)]
#[allow(dead_code)] // its fields are printed
struct Question {
    bytes: usize,
    area: Area,
    tracks: usize,
    which: Which,
    words: Words,
    page: usize,
}

pub struct Texts {
    pub area: Kind,
    pub track: Kind,
    pub lies: Kind,
}

impl Texts {
    pub fn new() -> Self {
        let texts = ["accepted", "present", "absent", "absent in set 3 to 6", "high bytes"];
        let pages = ["refusal 9", "refusal 12", "refusal 10", "one byte short", "page to the byte"];
        let sectors = ["above 128 sectors", "sectors 0", "fewer sectors", "longer table"];
        let counts = ["above 255 tracks", "track 255 of more", "track 256", "track 0", "slot 2"];
        let entries = ["flag 0", "flag above 1", "slot 0", "slot 3", "no such item"];
        let places = ["place at the end", "place past the end", "largest place", "cut text"];
        let short = ["short table", "254 records", "2 before 8", "8 before 9", "longer list"];
        let lies = ["accepted", "refusal 2", "refusal 8", "refusal 9", "refusal 12", "refusal 10"];
        let order = ["2 before 12", "8 before 12"];
        let common = [&texts[..], &pages[..], &MAPPED].concat();
        Texts {
            area: Kind::new("area texts", &common),
            track: Kind::new("track texts", &[&common[..], &["track 255"]].concat()),
            lies: Kind::new(
                "texts by lies",
                &[&lies[..], &sectors, &counts, &entries, &places, &short, &order].concat(),
            ),
        }
    }

    /// Every text of an accepted table, and a few by records that lie.
    pub fn cases(&mut self, rng: &mut Rng, table: &[u8], lone: &Lone) {
        let Some(rust) = &lone.rust else { return };
        let mut tracks = patterned_tracks(rng.below(256), MAX_TRACKS);
        write(&mut tracks, &lone.tracks);
        let lent = Lent { table, area: lone.area, tracks: &tracks };
        for (item, &name) in AreaTextItem::ALL.iter().enumerate() {
            let which = Which::Area(item as u32);
            text_case(&mut self.area, rng, &lent, which, rust.text.get(name));
        }
        for track in &rust.tracks {
            for (item, &name) in TrackTextItem::ALL.iter().enumerate() {
                let which = Which::Track(track.number.into(), item as u32);
                text_case(&mut self.track, rng, &lent, which, track.text.get(name));
            }
        }
        for _ in 0..6 {
            self.lie_case(rng, table, lone.area, &tracks);
        }
    }

    fn lie_case(&mut self, rng: &mut Rng, table: &[u8], area: Area, tracks: &[Track]) {
        let mut area = area;
        let mut lent = table.to_vec();
        let mut tracks = tracks.to_vec();
        for _ in 0..1 + rng.below(2) {
            lie(rng, &mut area, &mut tracks, &mut lent);
        }
        lent.shrink_to_fit();
        tracks.shrink_to_fit();
        self.record_case(rng, &lent, area, &tracks);
    }

    /// Any text by any records.
    pub fn record_case(&mut self, rng: &mut Rng, table: &[u8], area: Area, tracks: &[Track]) {
        let lent = Lent { table, area, tracks };
        let which = any_which(rng, &area);
        let (refusal, string) = found(&lent, which);
        let text = rust::decode(string, area.text_charset);
        let page = any_page_length(rng, text.as_ref().map_or(2, String::len));
        let words = held::any(rng, area.text_charset);
        decode_case(&mut self.lies, rng, &lent, (which, words), page, |page| match refusal {
            0 => expected_text(text.as_deref(), (area.text_charset, words), page),
            refusal => DecodeAnswer { refusal, len: 0 },
        });
        count_lie(&mut self.lies, &lent, which, (refusal, string));
        let bad = held::is_mapped(area.text_charset) && words.refusal == 12;
        self.lies.class_if("2 before 12", bad && refusal == 2);
        self.lies.class_if("8 before 12", bad && refusal == 8);
    }
}

/// A text that the Rust has or has not.
fn text_case(kind: &mut Kind, rng: &mut Rng, lent: &Lent, which: Which, text: Option<&str>) {
    let code = lent.area.text_charset;
    let need = text.map_or(2, str::len);
    let page = any_page_length(rng, need);
    let words = held::any(rng, code);
    let expected = |page: &mut [u8]| expected_text(text, (code, words), page);
    let answer = decode_case(kind, rng, lent, (which, words), page, expected);
    let mapped = held::is_mapped(code);
    count_mapped(kind, code, answer);
    kind.class_if("present", answer.len > 0);
    kind.class_if("absent", text.is_none() && !mapped);
    kind.class_if("absent in set 3 to 6", text.is_none() && mapped);
    kind.class_if("high bytes", answer.len > 0 && text.is_some_and(|text| !text.is_ascii()));
    kind.class_if("one byte short", answer.refusal == 10 && page + 1 == need);
    kind.class_if("page to the byte", answer.len > 0 && page == need);
    kind.class_if("track 255", answer.len > 0 && matches!(which, Which::Track(255, _)));
}

/// Decodes into a page of so many bytes; the expected answer.
fn decode_case(
    kind: &mut Kind,
    rng: &mut Rng,
    lent: &Lent,
    (which, words): (Which, Words),
    page: usize,
    expected: impl Fn(&mut [u8]) -> DecodeAnswer,
) -> DecodeAnswer {
    let mut ours = Guarded::bytes(rng.below(256), page);
    let mut theirs = ours.clone();
    let answer = lent.decode(which, words.list, &mut ours);
    let library = Decoded { answer, page: Buffer(ours.all()) };
    let answer = expected(&mut theirs);
    let rust = Decoded { answer, page: Buffer(theirs.all()) };
    let (bytes, tracks) = (lent.table.len(), lent.tracks.len());
    let question = Question { bytes, area: lent.area, tracks, which, words, page };
    kind.values.note(&library.answer, &rust.answer);
    kind.case(&question, answer.refusal, library, rust);
    answer
}

/// By the document: the refusal, 2 or 8, or the bytes of the text's string.
fn found<'a>(lent: &Lent<'a>, which: Which) -> (u8, &'a [u8]) {
    let Lent { table, area, tracks } = lent;
    let sectors = usize::from(area.origin.toc_sectors).min(MOST_SECTORS);
    let Some(table) = table.get(..sectors * DATA) else { return (2, &[]) };
    if matches!(which, Which::Track(..)) && tracks.len() < MAX_TRACKS {
        return (2, &[]);
    }
    let count = u32::from(area.track_count).min(MAX_TRACKS as u32);
    let text = match which {
        Which::Area(item) => area.text.get(item as usize),
        Which::Track(number, item) if (1..=count).contains(&number) => {
            tracks[number as usize - 1].text.get(item as usize)
        }
        Which::Track(..) => None,
    };
    match text {
        Some(text) if area.present == 1 && matches!(area.origin.slot, 1 | 2) => match text.place {
            0 => (0, &[]),
            place => (0, plain::string_at(table, place as usize)),
        },
        _ => (8, &[]),
    }
}

/// Changes a record or what is lent so that they do not agree.
fn lie(rng: &mut Rng, area: &mut Area, tracks: &mut Vec<Track>, table: &mut Vec<u8>) {
    let (end, any) = (table.len(), rng.below(6000));
    let places = [end, end + 1, end.saturating_sub(1), u32::MAX as usize, any];
    let text = TextPlace { place: rng.pick(&places) as u32, end: rng.byte() };
    match rng.below(12) {
        0 => area.origin.toc_sectors = rng.pick(&[129, 200, 65_535]),
        1 => {
            area.origin.toc_sectors = rng.pick(&[128, 129, 65_535]);
            table.resize(MOST_SECTORS * DATA, 0);
        }
        2 => {
            let sectors = rng.below(1 + end / DATA);
            area.origin.toc_sectors = sectors as u16;
            put(table, (sectors * DATA).saturating_sub(2), b"cut");
            let place = (sectors * DATA).saturating_sub(1) as u32;
            area.text.fill(TextPlace { place, ..text });
        }
        3 => table.truncate(end.saturating_sub(1)),
        4 => table.extend(b"behind the table"),
        5 => area.track_count = rng.pick(&[255, 256, 300, 65_535]),
        6 => area.text.fill(text),
        7 | 8 => tracks.iter_mut().for_each(|track| track.text.fill(text)),
        9 => area.present = rng.pick(&[0, 2, 255]),
        10 => area.origin.slot = rng.pick(&[0, 2, 3, 255]),
        _ => tracks.resize(rng.pick(&[0, 254, 254, 256]), Track::default()),
    }
}

fn any_which(rng: &mut Rng, area: &Area) -> Which {
    let count = u32::from(area.track_count);
    let number = match rng.below(8) {
        0 => rng.pick(&[0, 255, 256, u32::MAX]),
        1 => count + 1,
        2 | 3 => count,
        _ => 1 + rng.below(usize::from(area.track_count).max(1)) as u32,
    };
    let texts = rng.pick(&[AREA_TEXTS, TRACK_TEXTS, TRACK_TEXTS]);
    let any = rng.below(texts) as u32;
    let out = rng.pick(&[texts as u32, 16, 256, u32::MAX]);
    let item = if rng.below(16) == 0 { out } else { any };
    if texts == AREA_TEXTS { Which::Area(item) } else { Which::Track(number, item) }
}

fn count_lie(kind: &mut Kind, lent: &Lent, which: Which, found: (u8, &[u8])) {
    let Lent { table, area, tracks } = lent;
    let (refusal, string) = found;
    let sectors = usize::from(area.origin.toc_sectors);
    let size = sectors.min(MOST_SECTORS) * DATA;
    let present = refusal == 0 && !string.is_empty();
    kind.class_if("above 128 sectors", present && sectors > MOST_SECTORS);
    kind.class_if("sectors 0", refusal == 0 && sectors == 0);
    kind.class_if("fewer sectors", present && size < table.len());
    kind.class_if("longer table", present && table.len() > size && table.len() - size < DATA);
    kind.class_if("longer list", present && tracks.len() > MAX_TRACKS);
    kind.class_if("slot 2", present && area.origin.slot == 2);
    let item = match which {
        Which::Area(item) => item < AREA_TEXTS as u32,
        Which::Track(_, item) => item < TRACK_TEXTS as u32,
    };
    let sound = area.present == 1 && area.origin.slot == 1;
    if let Which::Track(number, _) = which {
        let many = area.track_count > 255;
        kind.class_if("above 255 tracks", refusal == 0 && many);
        kind.class_if("track 255 of more", refusal == 0 && many && number == 255);
        kind.class_if("track 256", refusal == 8 && sound && item && many && number == 256);
        kind.class_if("track 0", refusal == 8 && sound && item && number == 0);
        kind.class_if("254 records", refusal == 2 && tracks.len() == 254 && size <= table.len());
    }
    kind.class_if("flag 0", refusal == 8 && area.present == 0);
    kind.class_if("flag above 1", refusal == 8 && area.present > 1);
    kind.class_if("slot 0", refusal == 8 && area.origin.slot == 0);
    kind.class_if("slot 3", refusal == 8 && area.origin.slot == 3);
    kind.class_if("no such item", refusal == 8 && sound && !item);
    kind.class_if("short table", refusal == 2 && table.len() < size);
    kind.class_if("2 before 8", refusal == 2 && !(sound && item));
    kind.class_if("8 before 9", refusal == 8 && held::is_mapped(area.text_charset));
    count_place(kind, lent, which, found, size);
}

fn count_place(kind: &mut Kind, lent: &Lent, which: Which, found: (u8, &[u8]), size: usize) {
    let place = match which {
        _ if found.0 != 0 => return,
        Which::Area(item) => lent.area.text[item as usize].place as usize,
        Which::Track(number, item) => {
            lent.tracks[number as usize - 1].text[item as usize].place as usize
        }
    };
    let length = found.1.len();
    kind.class_if("place at the end", place == size && place > 0);
    kind.class_if("place past the end", place == size + 1);
    kind.class_if("largest place", place == u32::MAX as usize);
    let whole = plain::string_at(lent.table, place).len();
    kind.class_if("cut text", 0 < length && place > 0 && length < whole);
}
