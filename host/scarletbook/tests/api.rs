//! The safe interface, on a small disc.

#[allow(dead_code)]
#[path = "../examples/small_disc.rs"]
mod small_disc;

use scarletbook::record::{self, Chain, Lsn, SECTOR_SIZE, Timecode};
use scarletbook::{
    AreaTextItem, Disc, DiscTextItem, Header, Items, Memory, Refusal, Refused, SectorFormat, Table,
    TextEnd, TextItem, Track, TrackTextItem, Warning, WarningCode,
};
use small_disc::{area_table, plain, put, put_in, stored};
use std::error::Error;
use std::mem::offset_of;

const MASTER: usize = 510;

fn read(image: &[u8]) -> Disc<'static> {
    Disc::read(SectorFormat::Plain, image).expect("accepted")
}

/// The small disc with other tables, in both slots and with one copy each.
fn disc_of(table: &[u8]) -> Vec<u8> {
    let sectors = (table.len() / SECTOR_SIZE) as u16;
    let mut image = plain();
    let lsn = image.len() / SECTOR_SIZE;
    image.extend_from_slice(table);
    let pointer = (lsn as u32).to_be_bytes();
    let slots = [&pointer[..], &[0; 4], &pointer, &[0; 4]].concat();
    put_in(&mut image, MASTER, 64, &slots);
    put_in(&mut image, MASTER, 84, &[sectors.to_be_bytes(), sectors.to_be_bytes()].concat());
    image
}

/// The small disc without an area.
fn silent_disc() -> Vec<u8> {
    let mut image = plain();
    put_in(&mut image, MASTER, 84, &[0; 4]);
    image
}

struct Lent {
    work: Vec<u8>,
    tracks: Vec<record::Track>,
    words: Vec<u32>,
}

fn lent(work: usize, tracks: usize, words: usize) -> Lent {
    let tracks = vec![record::Track { number: 9, ..Default::default() }; tracks];
    Lent { work: vec![9; work], tracks, words: vec![9; words] }
}

impl Lent {
    fn memory(&mut self) -> Memory<'_> {
        Memory { work: &mut self.work, tracks: &mut self.tracks, words: &mut self.words }
    }

    fn is_untouched(&self) -> bool {
        self.work.iter().all(|&byte| byte == 9)
            && self.tracks.iter().all(|track| track.number == 9 && track.start_lsn == Lsn(0))
            && self.words.iter().all(|&word| word == 9)
    }
}

#[test]
fn the_small_disc_in_every_format() {
    for format in SectorFormat::ALL {
        let image = stored(format, &plain());
        assert_eq!(SectorFormat::detect(&image), Ok(format));
        let disc = Disc::read(format, &image).expect("accepted");
        assert_eq!(disc.sectors(), 570);
        assert_eq!(format.sector_count(image.len()), 570);
        assert_eq!(disc.master().album_catalog_number.to_string(), "ABC-1");
        assert_eq!(disc.master().album_catalog_number_stored.to_string(), " ABC-1");
        assert_eq!(disc.master().date, record::Date { year: 2026, month: 11, day: 16 });
        assert_eq!(disc.master().locales[0].language.to_string(), "en");
        assert_eq!(disc.manufacturer(), Some(&[0; 2040][..]));
        let slots: Vec<_> = disc.areas().map(|area| (area.slot(), area.kind)).collect();
        assert_eq!(slots, [(1, 1), (2, 2)]);
    }
}

#[test]
fn an_area_and_its_tracks() {
    let image = plain();
    let disc = read(&image);
    let area = disc.area(1).expect("slot 1");
    assert_eq!((area.origin.toc_lsn, area.track_count), (Lsn(540), 2));
    assert_eq!(area.playtime, Timecode { minutes: 5, seconds: 0, frames: 0 });
    assert_eq!(area.table(), &image[540 * SECTOR_SIZE..547 * SECTOR_SIZE]);
    assert_eq!(area.chain(), Chain { ttxt: 2048, trl1: 4096, trl2: 6144, igl: 8192 });
    let numbers: Vec<_> = area.tracks().map(|track| (track.number, track.start_lsn)).collect();
    assert_eq!(numbers, [(1, Lsn(1000)), (2, Lsn(1100))]);
    let second = area.track(2).expect("track 2");
    assert_eq!(second.isrc().as_deref(), Some("JPABC2600002"));
    assert_eq!(second.genre(), Some(record::Genre { category: 1, index: 7 }));
    let (times, one_second) = (second.times, Timecode { minutes: 0, seconds: 1, frames: 0 });
    assert_eq!((times.start_frame.0, times.duration_frames.0), (75, 75));
    assert_eq!((times.stored_start, times.stored_duration), (one_second, one_second));
    assert!(area.track(0).is_none() && area.track(3).is_none());
    assert!(disc.area(0).is_none() && disc.area(3).is_none());
}

#[test]
fn a_track_past_the_play_time_has_its_stored_times_too() {
    let mut table = area_table(b"TWOCHTOC", 1, &[b"One", b"Two"], 7);
    // The second track starts with the second second of five minutes.
    put(&mut table, 3 * SECTOR_SIZE + 1028 + 4, &[4, 58, 76]);
    let (disc, lone) = (read(&disc_of(&table)), Table::read(&table).expect("accepted"));
    for area in disc.areas().chain(lone.area()) {
        let times = area.track(2).expect("track 2").times;
        assert_eq!((times.start_frame.0, times.duration_frames.0), (75, 299 * 75));
        assert_eq!(times.stored_start, Timecode { minutes: 0, seconds: 1, frames: 0 });
        assert_eq!(times.stored_duration, Timecode { minutes: 4, seconds: 58, frames: 76 });
    }
    let past = |slot| Warning { code: WarningCode::TrackPastPlaytime, slot, track: 2 };
    let warnings = disc.warnings().filter(|warning| warning.code == WarningCode::TrackPastPlaytime);
    assert!(warnings.eq([past(1), past(2)]) && lone.warnings().eq([past(1)]));
}

#[test]
fn texts_that_are_there() {
    let disc = read(&plain());
    let texts: Vec<_> = disc.texts().collect();
    assert_eq!(texts, [(DiscTextItem::AlbumTitle, Ok("Café concert".to_owned()))]);
    assert_eq!(disc.text(DiscTextItem::DiscTitle), Ok(None));
    let [first, second] = [1, 2].map(|slot| disc.area(slot).expect("both slots"));
    assert_eq!(first.texts().count(), 0);
    assert_eq!(first.text(AreaTextItem::Copyright), Ok(None));
    let title = first.track(2).expect("track 2").text(TrackTextItem::Title);
    assert_eq!(title, Ok(Some("Entr'acte été".to_owned())));
    let track = second.track(1).expect("track 1");
    assert_eq!(track.text(TrackTextItem::Title), Err(Refusal::SetNotHeld));
    assert_eq!(track.text_end(TrackTextItem::Title), Some(TextEnd::ZeroByte));
    assert_eq!(track.text(TrackTextItem::Performer), Ok(None));
    let texts: Vec<_> = track.texts().collect();
    assert_eq!(texts, [(TrackTextItem::Title, Err(Refusal::SetNotHeld))]);
}

#[test]
fn how_texts_ended() {
    // A title of 4,096 bytes; a text of the area that ends with its table, before it an empty one.
    let mut table = area_table(b"TWOCHTOC", 1, &[b"One", &[b'a'; 4096], b"Three"], 9);
    put(&mut table, 146, &[71, 255, 71, 254]);
    put(&mut table, 9 * SECTOR_SIZE - 2, b"\0C");
    // A text of the disc that ends with its sector.
    let mut image = disc_of(&table);
    put_in(&mut image, MASTER + 1, 18, &[7, 252]);
    put_in(&mut image, MASTER + 1, 2044, b"Trio");
    let (disc, lone) = (read(&image), Table::read(&table).expect("accepted"));
    assert_eq!(disc.text_end(DiscTextItem::AlbumTitle), Some(TextEnd::ZeroByte));
    assert_eq!(disc.text_end(DiscTextItem::AlbumArtist), Some(TextEnd::TableEnd));
    assert_eq!(disc.text_end(DiscTextItem::DiscTitle), None);
    for area in disc.areas().chain(lone.area()) {
        let ends = AreaTextItem::ALL.map(|item| area.text_end(item));
        assert_eq!(ends, [None, Some(TextEnd::TableEnd), None, None]);
        let titles = area.tracks().map(|track| track.text_end(TrackTextItem::Title));
        let [zero_byte, max_bytes] = [TextEnd::ZeroByte, TextEnd::MaxBytes].map(Some);
        assert!(titles.eq([zero_byte, max_bytes, zero_byte]));
        assert!(area.tracks().all(|track| track.text_end(TrackTextItem::Performer).is_none()));
    }
    let unterminated = |slot| Warning { code: WarningCode::TrackTextUnterminated, slot, track: 2 };
    let warnings = disc.warnings().filter(|w| w.code == WarningCode::TrackTextUnterminated);
    assert!(warnings.eq([1, 2].map(unterminated)) && lone.warnings().eq([unterminated(1)]));
}

#[test]
fn warnings_in_words() {
    let disc = read(&plain());
    let warnings: Vec<_> = disc.warnings().map(|warning| warning.to_string()).collect();
    assert_eq!(
        warnings,
        [
            "disc: a copy of the master table differs",
            "area 2, track 1: starts outside the area's sectors",
        ]
    );
    let words = Warning { code: WarningCode::AreaTocUnreadable, slot: 2, track: 0 }.to_string();
    assert_eq!(words, "area 2: no copy of its table can be read; left out");
    let last = Warning::from_word(19 * 65_536 + 256 + 255).expect("code 19");
    assert_eq!(last.to_string(), "area 1, track 255: has a text not ended by a zero byte");
    assert_eq!(last.code.code(), "track-text-unterminated");
    assert_eq!([0, 20, 255].map(|code| Warning::from_word(code * 65_536 + 256 + 1)), [None; 3]);
    for (code, number) in WarningCode::ALL.into_iter().zip(1..) {
        assert_eq!(code as u32, number);
    }
}

/// A disc with as many warnings as there can be: 3 of it, and of each slot one of its copies, one of
/// its table and four of each of 255 tracks.
fn disc_of_warnings() -> Vec<u8> {
    let mut table = area_table(b"TWOCHTOC", 1, &[&b"One"[..]; 255], 8);
    let items = b"\x02\0\0\0\x08\0One\0\x01\0Two";
    let place = table.len() - items.len();
    put(&mut table, place, items);
    put(&mut table, SECTOR_SIZE + 8, &((place - SECTOR_SIZE) as u16).to_be_bytes().repeat(255));
    // An unknown frequency; no play time; an area of one sector, where no track starts.
    put(&mut table, 20, &[5]);
    put(&mut table, 64, &[0]);
    put(&mut table, 72, &[1; 8]);
    let mut image = disc_of(&table);
    // Second copies behind the image; a text channel without texts; no manufacturer's sector.
    put_in(&mut image, MASTER, 68, &[1; 4]);
    put_in(&mut image, MASTER, 76, &[1; 4]);
    put_in(&mut image, MASTER, 128, &[1]);
    put_in(&mut image, MASTER + 1, 0, &[0]);
    put_in(&mut image, MASTER + 9, 0, &[0]);
    image
}

#[test]
fn every_warning_that_a_disc_can_have() {
    let image = disc_of_warnings();
    let disc = read(&image);
    let of_slot = |slot: u32| {
        let tracks = (1..=255).flat_map(|track| [14, 15, 13, 19].map(|code| (code, track)));
        let warnings = [(5, 0), (18, 0)].into_iter().chain(tracks);
        warnings.map(move |(code, track)| code * 65_536 + slot * 256 + track)
    };
    let of_disc = [17, 1, 2].map(|code| code * 65_536).into_iter();
    let words: Vec<u32> = of_disc.chain(of_slot(1)).chain(of_slot(2)).collect();
    assert_eq!(words.len(), 2047);
    assert!(disc.warnings().eq(words.iter().filter_map(|&word| Warning::from_word(word))));
    let mut lent = lent(544_768, 510, 2047);
    let read = Disc::read_in(0u32, &image, lent.memory()).expect("accepted");
    assert!(read.warnings().eq(disc.warnings()));
    assert_eq!(lent.words, words);
}

#[test]
fn lent_memory_holds_what_own_memory_does() {
    let image = plain();
    let mut lent = lent(544_769, 511, 2048);
    let disc = Disc::read_in(0u32, &image, lent.memory()).expect("accepted");
    let own = read(&image);
    assert_eq!((disc.master(), disc.sectors()), (own.master(), own.sectors()));
    assert!(disc.warnings().eq(own.warnings()) && disc.texts().eq(own.texts()));
    for (area, other) in disc.areas().zip(own.areas()) {
        assert_eq!((*area, area.table()), (*other, other.table()));
        assert!(area.tracks().map(|track| *track).eq(other.tracks().map(|track| *track)));
        assert!(area.tracks().zip(other.tracks()).all(|(a, b)| a.texts().eq(b.texts())));
    }
    assert_eq!((lent.work[544_768], lent.words[2], lent.tracks[510].number), (9, 9, 9));
}

#[test]
fn memory_that_is_too_small() {
    let image = plain();
    for (work, tracks, words) in
        [(544_767, 510, 2047), (544_768, 509, 2047), (544_768, 510, 2046), (0, 0, 0)]
    {
        let mut lent = lent(work, tracks, words);
        let read = Disc::read_in(SectorFormat::Plain, &image, lent.memory());
        let refused = read.expect_err("refused");
        assert_eq!(refused.refusal(), Refusal::ShortBuffer);
        assert!(refused.silent().is_none());
        assert!(lent.is_untouched());
    }
}

fn refusal_of(format: u32, image: &[u8]) -> Refusal {
    let refused = Disc::read(format, image).expect_err("refused");
    assert_eq!(refused.silent().is_some(), refused.refusal() == Refusal::NoArea);
    assert_eq!(refused.to_string(), refused.refusal().to_string());
    refused.into()
}

#[test]
fn refusals_of_a_disc() {
    let image = plain();
    assert_eq!(refusal_of(3, &image), Refusal::ForeignFormat);
    assert_eq!(refusal_of(u32::MAX, &[]), Refusal::ForeignFormat);
    assert_eq!(refusal_of(0, &[]), Refusal::CutMaster);
    assert_eq!(refusal_of(0, &image[..520 * SECTOR_SIZE - 1]), Refusal::CutMaster);
    assert_eq!(refusal_of(1, &image), Refusal::NotScarletBook);
    let mut newer = image.clone();
    put_in(&mut newer, MASTER, 8, &[2]);
    assert_eq!(refusal_of(0, &newer), Refusal::NewerEdition);
    assert_eq!(refusal_of(0, &image[..520 * SECTOR_SIZE]), Refusal::NoArea);
}

#[test]
fn a_silent_disc_has_its_master_record_and_warnings() {
    let mut lent = lent(544_768, 510, 2047);
    let image = silent_disc();
    for refused in [
        Disc::read(0u32, &image).expect_err("refused"),
        Disc::read_in(0u32, &image, lent.memory()).expect_err("refused"),
    ] {
        assert_eq!(refused.refusal(), Refusal::NoArea);
        let disc = refused.silent().expect("a silent disc");
        assert_eq!(disc.text(DiscTextItem::AlbumTitle), Ok(Some("Café concert".to_owned())));
        assert_eq!(disc.master().album_catalog_number.text(), b"ABC-1");
        assert_eq!((disc.areas().count(), disc.sectors()), (0, 0));
        assert!(disc.area(1).is_none());
        assert_eq!(disc.manufacturer().map(<[u8]>::len), Some(2040));
        let codes: Vec<_> = disc.warnings().map(|warning| warning.code).collect();
        assert_eq!(codes, [WarningCode::MasterTocCopiesDiffer]);
    }
}

#[test]
fn the_largest_tables() {
    let titles = vec![&b"Title"[..]; 255];
    let table = area_table(b"MULCHTOC", 1, &titles, 128);
    let disc = read(&disc_of(&table));
    assert_eq!(disc.areas().count(), 2);
    let lone = Table::read(&table).expect("accepted");
    for area in disc.areas().chain(lone.area()) {
        assert_eq!(area.table(), table);
        assert_eq!(area.chain().igl, 8192);
        assert!(area.tracks().map(|track| track.number).eq(1..=255));
        let last = area.track(255).expect("track 255");
        assert_eq!(last.isrc().as_deref(), Some("JPABC2600255"));
        assert_eq!(last.text(TrackTextItem::Title), Ok(Some("Title".to_owned())));
        assert!(area.tracks().all(|track| track.texts().count() == 1));
    }
}

#[test]
fn an_area_without_tracks() {
    let table = area_table(b"TWOCHTOC", 1, &[], 7);
    let disc = read(&disc_of(&table));
    let area = disc.area(2).expect("slot 2");
    assert_eq!((area.kind, area.tracks().count()), (1, 0));
    assert!(area.track(1).is_none());
}

#[test]
fn a_lone_table() {
    let bytes = area_table(b"TWOCHTOC", 1, &[b"One", b"Two"], 7);
    let (mut tracks, mut words) = (vec![record::Track::default(); 255], vec![9; 1021]);
    for table in [Table::read(&bytes), Table::read_in(&bytes, &mut tracks, &mut words)] {
        let table = table.expect("accepted");
        assert_eq!(table.warnings().count(), 0);
        let area = table.area().expect("an area");
        assert_eq!((area.slot(), area.origin.toc_lsn, area.table()), (1, Lsn(0), &bytes[..]));
        let title = |number| area.track(number)?.text(TrackTextItem::Title).ok()?;
        assert_eq!(title(2).as_deref(), Some("Two"));
        assert_eq!(area.texts().count(), 0);
    }
    let refused = Table::read_in(&bytes, &mut tracks[1..], &mut words).expect_err("refused");
    assert_eq!(refused.refusal(), Refusal::ShortBuffer);
    assert!(refused.silent().is_none());
    let refused = Table::read_in(&bytes, &mut tracks, &mut words[1..]).expect_err("refused");
    assert_eq!(refused.refusal(), Refusal::ShortBuffer);
}

#[test]
fn a_lone_table_that_is_refused() {
    for bytes in [0, 1, 2047, 2049, 129 * SECTOR_SIZE] {
        let table = vec![0; bytes];
        let refused = Table::read(&table).expect_err("refused");
        assert_eq!((refused.refusal(), refused.silent().is_some()), (Refusal::OddTable, false));
    }
    let table = vec![0; 128 * SECTOR_SIZE];
    let refused = Table::read(&table).expect_err("refused");
    let silent = refused.silent().expect("a silent table");
    let warning = Warning { code: WarningCode::AreaSignatureInvalid, slot: 1, track: 0 };
    assert!(silent.area().is_none() && silent.warnings().eq([warning]));
}

#[test]
fn items_drawn_one_by_one() {
    let table = b"\x01\0One\0\x09\0\0\x02\0Two";
    let items: Vec<_> = Items::new(table, 0, 9).collect();
    let item = |kind, bytes, end| TextItem { kind, bytes, end };
    let [one, empty] = [item(1, &b"One"[..], TextEnd::ZeroByte), item(9, b"", TextEnd::ZeroByte)];
    assert_eq!(items, [one, empty, item(2, b"Two", TextEnd::TableEnd)]);
    assert_eq!(Items::new(table, 0, 2).count(), 2);
    let mut drawn = Items::new(table, 0, usize::MAX);
    assert_eq!(drawn.by_ref().count(), 3);
    assert_eq!(drawn.next(), None);
    for place in [13, 14, usize::MAX] {
        assert_eq!(Items::new(table, place, usize::MAX).next(), None);
    }
    assert_eq!(Items::new(&[], 0, 1).next(), None);
}

#[test]
fn items_ended_by_4096_bytes_and_by_the_table_s_end() {
    // The item behind 4,096 bytes begins with the next byte that is not zero.
    let table = [b"\x01\0", &[b'a'; 4096][..], b"\x02\0Two\0\x03\0"].concat();
    let ends: Vec<_> = Items::new(&table, 0, 9).map(|item| (item.kind, item.end)).collect();
    assert_eq!(ends, [(1, TextEnd::MaxBytes), (2, TextEnd::ZeroByte), (3, TextEnd::TableEnd)]);
}

#[test]
fn numbers_of_ends() {
    assert_eq!(TextEnd::ALL.map(TextEnd::number), [1, 2, 3]);
    let [zero_byte, max_bytes, table_end] = TextEnd::ALL.map(Some);
    assert_eq!(
        [0, 1, 2, 3, 4, 255].map(TextEnd::of_number),
        [None, zero_byte, max_bytes, table_end, None, None]
    );
    let end = |end| record::TextPlace { place: 1, end }.end();
    assert_eq!([0, 1, 2, 3, 4].map(end), [None, zero_byte, max_bytes, table_end, None]);
}

#[test]
fn numbers_and_words_of_refusals() {
    let words = [
        "foreign format",
        "short bench",
        "cut master",
        "not Scarlet Book",
        "newer edition",
        "silent disc",
        "odd table",
        "no such entry",
        "set not held",
        "short page",
        "no header",
        "bad mapping",
        "beyond mending",
        "unequal lengths",
    ];
    assert_eq!(Refusal::ALL.map(Refusal::word), words);
    // 13 and 15 to 19 are no refusals.
    for (refusal, number) in Refusal::ALL.into_iter().zip((1..13).chain([14, 20])) {
        assert_eq!((refusal.number(), Refusal::of_number(number)), (number, Some(refusal)));
        assert_eq!(refusal.to_string(), format!("refused {number}: {}", refusal.word()));
    }
    assert_eq!([0, 13, 15, 19, 21, 255].map(Refusal::of_number), [None; 6]);
}

#[test]
fn refusals_are_errors() {
    fn boxed(image: &[u8]) -> Result<usize, Box<dyn Error>> {
        Ok(Disc::read(SectorFormat::detect(image)?, image)?.sectors())
    }
    fn plain_refusal(table: &[u8]) -> Result<bool, Refusal> {
        Ok(Table::read(table)?.area().is_some())
    }
    assert_eq!(boxed(&plain()).expect("accepted"), 570);
    let words = |image: &[u8]| boxed(image).expect_err("refused").to_string();
    assert_eq!(words(&[]), "refused 4: not Scarlet Book");
    assert_eq!(words(&silent_disc()), "refused 6: silent disc");
    assert_eq!(plain_refusal(&[]), Err(Refusal::OddTable));
    let refused: Refused<Disc> = Disc::read(9u32, &[]).expect_err("refused");
    assert_eq!(refused.clone().refusal(), Refusal::ForeignFormat);
}

#[test]
fn what_is_printed_for_debugging_leaves_memory_out() {
    let disc = read(&plain());
    let area = disc.area(1).expect("slot 1");
    let refused = Disc::read(0u32, &silent_disc()).expect_err("refused");
    assert_eq!(format!("{refused:?}"), "Refused { refusal: NoArea, .. }");
    let track = area.track(1).expect("track 1");
    let printed = [format!("{disc:?}"), format!("{area:?}"), format!("{track:?}")];
    assert!(printed.iter().all(|text| text.len() < 20_000));
}

#[test]
fn sizes_of_records_with_texts() {
    assert_eq!((size_of::<record::TextPlace>(), offset_of!(record::TextPlace, end)), (8, 4));
    assert_eq!((size_of::<record::Track>(), offset_of!(record::Track, text)), (164, 52));
    assert_eq!((size_of::<record::Area>(), offset_of!(record::Area, text)), (144, 112));
    assert_eq!((size_of::<record::MasterToc>(), offset_of!(record::MasterToc, text)), (304, 172));
}

#[test]
fn small_conveniences() {
    let disc = read(&plain());
    let area = disc.area(1).expect("slot 1");
    assert_eq!((area.tracks().len(), area.locales().len()), (2, 1));
    assert_eq!(area.tracks().next_back().expect("track 2").area().slot(), 1);
    assert_eq!(disc.master().locales()[0].charset, 2);
    let silent = Disc::read(0u32, &silent_disc()).err().and_then(Refused::into_silent);
    assert_eq!(silent.expect("a silent disc").warnings().count(), 1);
    assert_eq!(WarningCode::ALL.map(WarningCode::number)[18], 19);
}

#[test]
fn formats_and_their_detection() {
    let formats = [SectorFormat::Plain, SectorFormat::Raw2054, SectorFormat::Raw2064];
    for (format, number) in formats.into_iter().zip(0..) {
        assert_eq!((format.number(), u32::from(format)), (number, number));
        assert_eq!(SectorFormat::of_number(number), Ok(format));
    }
    assert_eq!(SectorFormat::ALL, formats);
    assert_eq!(SectorFormat::of_number(3), Err(Refusal::ForeignFormat));
    let mut image = vec![0; 511 * 2064];
    assert_eq!(SectorFormat::detect(&image), Err(Refusal::NotScarletBook));
    for (at, format) in [
        (510 * 2054 + 6, SectorFormat::Raw2054),
        (510 * 2064 + 12, SectorFormat::Raw2064),
        (510 * 2048, SectorFormat::Plain),
    ] {
        put(&mut image, at, b"SACDMTOC");
        assert_eq!(SectorFormat::detect(&image), Ok(format));
    }
}

#[test]
fn fingerprints_and_headers() {
    let image = plain();
    let raw = stored(SectorFormat::Raw2064, &image);
    let sector = &image[MASTER * SECTOR_SIZE..][..SECTOR_SIZE];
    let fingerprint = scarletbook::fingerprint(SectorFormat::Raw2064, &raw, 510);
    assert_eq!(fingerprint, Ok(scarletbook::digest(sector)));
    assert_eq!(scarletbook::fingerprint(0u32, &image, 570), Err(Refusal::NoSuchEntry));
    assert_eq!(scarletbook::fingerprint(7u32, &image, 0), Err(Refusal::ForeignFormat));
    assert_eq!(scarletbook::audit(SectorFormat::Raw2064, &raw, 570), Err(Refusal::NoSuchEntry));
    assert_eq!(scarletbook::audit(SectorFormat::Raw2054, &raw, 0), Err(Refusal::NoHeader));
    assert_eq!(scarletbook::audit(3u32, &raw, 0), Err(Refusal::ForeignFormat));
}

#[test]
fn a_header_is_sound_blank_or_unsound() {
    let mut raw = stored(SectorFormat::Raw2064, &plain());
    let master = MASTER * 2064;
    for (header, expected) in [
        ([0, 0, 0, 1, 3, 2], Header::Sound),
        ([0, 0, 0, 0, 0, 0], Header::Blank),
        ([0, 0, 0, 1, 2, 3], Header::Unsound),
    ] {
        put(&mut raw, master, &header);
        assert_eq!(scarletbook::audit(SectorFormat::Raw2064, &raw, 510), Ok(expected));
    }
    assert_eq!(Header::ALL.map(Header::number), [1, 2, 3]);
    let headers = [0, 1, 2, 3, 4, 255].map(Header::of_number);
    let [sound, blank, unsound] = Header::ALL.map(Some);
    assert_eq!(headers, [None, sound, blank, unsound, None, None]);
}

#[test]
fn a_header_mends_or_is_beyond_mending() {
    let mut raw = stored(SectorFormat::Raw2064, &plain());
    for (header, expected) in [
        ([0, 0, 0, 1, 3, 2], Ok([0, 0, 0, 1, 3, 2])),
        ([0, 9, 0, 1, 3, 2], Ok([0, 0, 0, 1, 3, 2])),
        ([0, 0, 0, 0, 0, 1], Ok([0; 6])),
        ([0; 6], Ok([0; 6])),
        ([0, 0, 0, 1, 2, 3], Err(Refusal::BeyondMending)),
    ] {
        put(&mut raw, MASTER * 2064, &header);
        let before = raw.clone();
        assert_eq!(scarletbook::mend(SectorFormat::Raw2064, &raw, 510), expected);
        assert!(raw == before);
    }
    assert_eq!(scarletbook::mend(SectorFormat::Raw2064, &raw, 570), Err(Refusal::NoSuchEntry));
    assert_eq!(scarletbook::mend(SectorFormat::Raw2054, &raw, 570), Err(Refusal::NoHeader));
    assert_eq!(scarletbook::mend(3u32, &raw, 570), Err(Refusal::ForeignFormat));
}

/// Whether just those of some texts say how they ended that are there.
fn told<I: Copy>(
    items: impl IntoIterator<Item = I>,
    text: impl Fn(I) -> Result<Option<String>, Refusal>,
    end: impl Fn(I) -> Option<TextEnd>,
) -> bool {
    items.into_iter().all(|item| end(item).is_some() == (text(item) != Ok(None)))
}

/// Whether a track has warning 19 once if one of its texts ended otherwise than by a zero byte, else
/// not at all.
fn warned(disc: &Disc, track: &Track) -> bool {
    let mut ends = TrackTextItem::ALL.into_iter().filter_map(|item| track.text_end(item));
    let (slot, number) = (track.area().slot(), track.number);
    let warning = Warning { code: WarningCode::TrackTextUnterminated, slot, track: number };
    let count = disc.warnings().filter(|met| *met == warning).count();
    count == usize::from(ends.any(|end| end != TextEnd::ZeroByte))
}

/// Asks everything that there is to ask of a disc, and counts the answers.
fn ask_all(disc: &Disc) -> usize {
    let mut answers =
        disc.texts().count() + disc.warnings().map(|w| w.to_string().len()).sum::<usize>();
    answers += disc.manufacturer().map_or(0, <[u8]>::len);
    assert!(told(DiscTextItem::ALL, |item| disc.text(item), |item| disc.text_end(item)));
    for area in disc.areas() {
        answers += area.texts().count() + area.table().len() + area.chain().trl1 as usize;
        assert!(told(AreaTextItem::ALL, |item| area.text(item), |item| area.text_end(item)));
        for track in area.tracks() {
            answers += track.texts().count() + track.isrc().map_or(0, |isrc| isrc.len());
            answers += usize::from(track.genre().is_some());
            assert!(told(TrackTextItem::ALL, |item| track.text(item), |item| track.text_end(item)));
            assert!(warned(disc, &track), "{track:?}");
        }
    }
    answers
}

#[test]
fn no_damaged_disc_panics() {
    // The last title ends with its table.
    let sound = disc_of(&area_table(b"TWOCHTOC", 1, &[b"One", b"Two", &[b'a'; 4070]], 8));
    let mut state = 1u64;
    let mut below = |bound: usize| {
        state =
            state.wrapping_mul(6_364_136_223_846_793_005).wrapping_add(1_442_695_040_888_963_407);
        (state >> 33) as usize % bound
    };
    let (mut accepted, mut silent) = (0, 0);
    for _ in 0..400 {
        let mut image = sound.clone();
        for _ in 0..below(12) {
            let lsn = [MASTER, MASTER + 1, 570, 571, 572, 573, 576][below(7)];
            let at = [below(150), below(SECTOR_SIZE)][below(2)];
            image[lsn * SECTOR_SIZE + at] = [0, 1, 255, below(256) as u8][below(4)];
        }
        match Disc::read(SectorFormat::Plain, &image) {
            Ok(disc) => accepted += usize::from(ask_all(&disc) > 0),
            Err(refused) => silent += refused.silent().map_or(0, |disc| ask_all(disc).min(1)),
        }
    }
    assert!(accepted > 100 && silent > 10, "{accepted} accepted, {silent} silent");
}
