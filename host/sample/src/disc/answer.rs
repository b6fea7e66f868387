//! The lines of a disc, by the Rust's answer; how texts ended, and the warnings 19, by the plain walk.

use super::{Stored, chosen};
use generate::disc::Disc;
use generate::endings::{Warning, area_ends, disc_ends, put_in, track_ends, unterminated};
use oracle::disc::{Disc as Answer, Stored as StoredTimes, read_stored};
use oracle::error::Slot;
use oracle::image::SectorFormat;
use oracle::lone::{Times, numbers, slot_number};
use oracle::text::Charset;
use oracle::toc::{
    Area, AreaKind, AreaPointer, AreaTextItem, DiscTextItem, Genre, Locale, MasterToc, Timecode,
    Toc, Track, TrackTextItem,
};
use std::fmt::Display;

/// Where the regions of the work bytes begin: those of the slots, and the master table's.
const REGIONS: [usize; 2] = [0, 262_144];
const MASTER_REGION: usize = 524_288;
const WORK_BYTES: usize = 544_768;
/// What every work byte is before a disc is read.
const UNREAD: u8 = 90;
/// The numbers of a master record and of an area's.
const MASTER_NUMBERS: usize = 166;
const AREA_NUMBERS: usize = 89;
/// Locales that they hold.
const MASTER_LOCALES: usize = 8;
const AREA_LOCALES: usize = 10;

/// What the Rust gives of a disc: the refusal or 0, the records, and the table that it has read for each
/// slot; and all warnings.
struct Reading<'a> {
    refusal: u8,
    toc: Option<&'a Toc>,
    master: Option<&'a MasterToc>,
    tables: [Vec<u8>; 2],
    warnings: Vec<Warning>,
}

impl<'a> Reading<'a> {
    fn new(disc: &Disc, answer: &'a Answer) -> Self {
        let refusal = answer.refusal().expect("the Rust refuses by a rule of the document");
        let (toc, master, rust) = match answer {
            Answer::Accepted(toc, warnings) => (Some(toc), Some(&toc.master), &warnings[..]),
            Answer::Silent(master, warnings) => (None, Some(master), &warnings[..]),
            Answer::Refused(_) => (None, None, &[][..]),
        };
        let table = |slot| master.map(|master| chosen(disc, slot, master.pointer(slot), rust));
        let tables = Slot::ALL.map(|slot| table(slot).unwrap_or_default());
        let areas = Slot::ALL.into_iter().zip(&tables).flat_map(|(slot, table)| {
            let tracks = toc.and_then(|toc| toc.area(slot)).map_or(0, |area| area.tracks.len());
            unterminated(table, slot_number(slot), tracks)
        });
        let rust: Vec<_> = rust.iter().map(numbers).collect();
        let warnings = put_in(&rust, &areas.collect::<Vec<_>>());
        Reading { refusal, toc, master, tables, warnings }
    }
}

/// The lines of a stored disc.
pub fn lines(stored: &Stored) -> String {
    let disc = &stored.disc;
    let (answer, times) = read_stored(sector_format(disc.format), &disc.bytes);
    let reading = Reading::new(disc, &answer);
    let mut text = String::new();
    put_head(&mut text, &stored.name, disc, &reading);
    match reading.master {
        Some(master) => put_master(&mut text, master, &disc.master()),
        None => line(&mut text, "master", [0; MASTER_NUMBERS]),
    }
    for (slot, table) in Slot::ALL.into_iter().zip(&reading.tables) {
        match reading.toc.and_then(|toc| toc.area(slot)) {
            Some(area) => put_area(&mut text, area, table, &times),
            None => line(&mut text, "area", [0; AREA_NUMBERS]),
        }
    }
    line(&mut text, "work", [digest(&work(disc, &reading))]);
    text
}

fn sector_format(number: u32) -> SectorFormat {
    match number {
        0 => SectorFormat::Plain,
        1 => SectorFormat::Raw2054,
        _ => SectorFormat::Raw2064,
    }
}

/// A line of a word and numbers, one blank between.
fn line<N: Display>(text: &mut String, word: &str, numbers: impl IntoIterator<Item = N>) {
    *text += word;
    for number in numbers {
        *text += &format!(" {number}");
    }
    *text += "\n";
}

fn put_head(text: &mut String, name: &str, disc: &Disc, reading: &Reading) {
    let Reading { refusal, toc, warnings, .. } = reading;
    let format = toc.map_or(0, |_| u64::from(disc.format));
    let sectors = toc.map_or(0, |toc| toc.sectors);
    let head = [u64::from(*refusal), warnings.len() as u64, format, sectors];
    line(text, &format!("disc {name}"), head);
    for warning in warnings {
        line(text, "warning", warning);
    }
}

fn put_master(text: &mut String, master: &MasterToc, table: &[u8]) {
    let numbers = master_numbers(master, table);
    assert_eq!(numbers.len(), MASTER_NUMBERS);
    line(text, "master", numbers);
    let texts = DiscTextItem::ALL.iter().map(|&item| master.text.get(item));
    put_texts(text, texts, master.text_charset);
}

fn put_area(text: &mut String, area: &Area, table: &[u8], times: &StoredTimes) {
    let numbers = area_numbers(area, table);
    assert_eq!(numbers.len(), AREA_NUMBERS);
    line(text, "area", numbers);
    let texts = AreaTextItem::ALL.iter().map(|&item| area.text.get(item));
    put_texts(text, texts, area.text_charset);
    for (at, track) in area.tracks.iter().enumerate() {
        let times = times.timecodes(area.slot, track.number).expect("every track has its times");
        let ends = track_ends(table, at).map(u64::from);
        line(text, "track", [track_numbers(track, times), ends.to_vec()].concat());
        let texts = TrackTextItem::ALL.iter().map(|&item| track.text.get(item));
        put_texts(text, texts, area.text_charset);
    }
}

/// The texts that are there: item index, refusal, length and digest. The program lends no mapping:
/// the document's refusal 9 stands for texts of sets 3 to 6.
fn put_texts<'a>(text: &mut String, texts: impl Iterator<Item = Option<&'a str>>, code: u8) {
    let held = Charset::from_code(code) == Charset::Latin1;
    for (item, found) in texts.enumerate() {
        let Some(found) = found else { continue };
        let (refusal, found) = if held { (0, found) } else { (9, "") };
        let numbers = [item as u64, refusal, found.len() as u64, digest(found.as_bytes())];
        line(text, "text", numbers);
    }
}

/// The ends of the texts stand where the record has the texts.
fn master_numbers(master: &MasterToc, table: &[u8]) -> Vec<u64> {
    let version = [master.version.major, master.version.minor];
    let album = [master.album_set_size, master.album_sequence_number];
    let date = [master.date.month, master.date.day];
    [
        version.map(u64::from).to_vec(),
        album.map(u64::from).to_vec(),
        fixed(&one_a_character(&master.album_catalog_number)),
        fixed(&master.album_catalog_number_stored),
        master.album_genres.into_iter().flat_map(genre).collect(),
        pointer(master.two_channel).to_vec(),
        pointer(master.multichannel).to_vec(),
        vec![master.disc_flags.into()],
        fixed(&one_a_character(&master.disc_catalog_number)),
        fixed(&master.disc_catalog_number_stored),
        master.disc_genres.into_iter().flat_map(genre).collect(),
        vec![master.date.year.into()],
        date.map(u64::from).to_vec(),
        vec![master.text_channel_count.into()],
        locales(&master.locales, MASTER_LOCALES),
        vec![master.text_charset.into()],
        disc_ends(table).map(u64::from).to_vec(),
        vec![master.manufacturer.is_some().into()],
    ]
    .concat()
}

fn area_numbers(area: &Area, table: &[u8]) -> Vec<u64> {
    let kind = match area.kind {
        AreaKind::TwoChannel => 1,
        AreaKind::Multichannel => 2,
    };
    let origin = [slot_number(area.slot).into(), area.toc_lsn.into(), area.toc_sectors.into()];
    let version = [area.version.major, area.version.minor];
    let audio = [
        area.sample_frequency_code,
        area.frame_format,
        area.channel_count,
        area.area_config,
        area.max_available_channels,
        area.area_mute_flags,
        area.track_attribute,
        area.playtime.minutes,
        area.playtime.seconds,
        area.playtime.frames,
        area.track_offset,
    ];
    [
        vec![1],
        origin.to_vec(),
        vec![kind],
        version.map(u64::from).to_vec(),
        vec![area.max_byte_rate.into()],
        audio.map(u64::from).to_vec(),
        vec![area.tracks.len() as u64, area.audio_start_lsn.into(), area.audio_end_lsn.into()],
        vec![area.text_channel_count.into()],
        locales(&area.locales, AREA_LOCALES),
        vec![area.text_charset.into()],
        area_ends(table).map(u64::from).to_vec(),
    ]
    .concat()
}

/// An absent ISRC or genre is zero, behind a flag.
fn track_numbers(track: &Track, (start, duration): Times) -> Vec<u64> {
    let times = [track.start_lsn, track.length_sectors, track.start_frame, track.duration_frames];
    let isrc = track.isrc.as_deref().unwrap_or_default();
    [
        vec![track.number.into()],
        times.map(u64::from).to_vec(),
        timecode(start),
        timecode(duration),
        vec![track.start_flags.into(), track.duration_flags.into()],
        vec![track.isrc.is_some().into()],
        fixed(&one_a_character(isrc)),
        vec![track.genre.is_some().into()],
        track.genre.map_or([0; 2], genre).to_vec(),
    ]
    .concat()
}

fn timecode(time: Timecode) -> Vec<u64> {
    [time.minutes, time.seconds, time.frames].map(u64::from).to_vec()
}

fn genre(genre: Genre) -> [u64; 2] {
    [genre.category, genre.index].map(u64::from)
}

fn pointer(pointer: AreaPointer) -> [u64; 3] {
    [pointer.toc1_lsn.into(), pointer.toc2_lsn.into(), pointer.toc_sectors.into()]
}

/// How many there are, and so many as a record holds, zero past them.
fn locales(locales: &[Locale], most: usize) -> Vec<u64> {
    let mut numbers = vec![locales.len() as u64];
    for locale in locales {
        numbers.extend(padded::<2>(&one_a_character(&locale.language)));
        numbers.extend(locale.language_code.map(u64::from));
        numbers.push(locale.charset.into());
    }
    numbers.resize(1 + 6 * most, 0);
    numbers
}

/// A text of 16 bytes at most.
fn fixed(text: &[u8]) -> Vec<u64> {
    padded::<16>(text)
}

/// The length, and the bytes with zeros behind them.
fn padded<const SIZE: usize>(text: &[u8]) -> Vec<u64> {
    let mut numbers = vec![text.len() as u64];
    numbers.extend(text.iter().copied().map(u64::from));
    assert!(text.len() <= SIZE);
    numbers.resize(1 + SIZE, 0);
    numbers
}

/// A text of Latin-1 characters, a byte for each.
fn one_a_character(text: &str) -> Vec<u8> {
    text.chars().map(|c| u8::try_from(u32::from(c)).expect("a Latin-1 character")).collect()
}

/// The work bytes after a reading.
fn work(disc: &Disc, reading: &Reading) -> Vec<u8> {
    let mut work = vec![UNREAD; WORK_BYTES];
    if reading.master.is_none() {
        return work;
    }
    generate::table::put(&mut work, MASTER_REGION, &disc.master());
    for (table, region) in reading.tables.iter().zip(REGIONS) {
        generate::table::put(&mut work, region, table);
    }
    work
}

/// FNV-1a, 64 bits.
pub fn digest(bytes: &[u8]) -> u64 {
    let basis = 0xcbf2_9ce4_8422_2325;
    bytes
        .iter()
        .fold(basis, |hash, &byte| (hash ^ u64::from(byte)).wrapping_mul(0x0000_0100_0000_01b3))
}

#[test]
fn digests_are_those_of_the_rust() {
    let sector: [u8; 2048] = std::array::from_fn(|i| (i * 7 + i / 256) as u8);
    assert_eq!(digest(&sector), oracle::digest(&sector));
}
