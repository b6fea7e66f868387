//! The Rust's answer to a lone table, in the records of the library.

use crate::plain;
use crate::rust::{FAILED, one_a_character, padded};
use generate::endings::{Warning, put_in, unterminated};
use generate::table::Structure;
use oracle::lone::{Times, numbers, read_timed, slot_number};
use oracle::toc::{self, AreaKind};
use scarletbook::raw::{
    Area, FixedText, Frame, Genre, LanguageCode, Locale, Lsn, TableAnswer, TableOrigin, Timecode,
    Track, TrackTimes, Version,
};

/// What a table of whole sectors gives: the Rust's own answer, and its records.
pub struct Lone {
    refusal: u8,
    /// Nothing for a table that is skipped.
    pub rust: Option<toc::Area>,
    /// The words of the Rust's warnings, and of all: with those of 19 by the walk.
    pub rust_words: Vec<u32>,
    pub words: Vec<u32>,
    pub area: Area,
    pub tracks: Vec<Track>,
}

impl Lone {
    pub fn read(table: &[u8]) -> Self {
        let (refusal, read, warnings) = match read_timed(table) {
            Ok((Some(read), warnings)) => (0, Some(read), warnings),
            Ok((None, warnings)) => (6, None, warnings),
            Err(_) => (FAILED, None, vec![]),
        };
        let tracks = read.as_ref().map_or(0, |(area, _)| area.tracks.len());
        let warnings: Vec<_> = warnings.iter().map(numbers).collect();
        let rust_words = warnings.iter().copied().map(word).collect();
        let all = put_in(&warnings, &unterminated(table, 1, tracks));
        let words = all.into_iter().map(word).collect();
        let Some((rust, times)) = read else {
            let (area, tracks) = (Area::default(), vec![]);
            return Lone { refusal, rust: None, rust_words, words, area, tracks };
        };
        let (area, tracks) = (area_record(table, &rust), track_records(table, &rust, &times));
        Lone { refusal, rust: Some(rust), rust_words, words, area, tracks }
    }

    pub fn answer(&self) -> TableAnswer {
        TableAnswer { refusal: self.refusal, warnings: self.words.len(), area: self.area }
    }
}

pub fn word(warning: Warning) -> u32 {
    let [code, slot, track] = warning.map(u32::from);
    code * 65_536 + slot * 256 + track
}

pub fn area_record(table: &[u8], area: &toc::Area) -> Area {
    let mut locales = [Locale::default(); scarletbook::raw::MAX_LOCALES];
    for (record, locale) in locales.iter_mut().zip(&area.locales) {
        *record = locale_record(locale);
    }
    let toc::Version { major, minor } = area.version;
    Area {
        present: 1,
        origin: TableOrigin {
            slot: slot_number(area.slot),
            toc_lsn: Lsn(area.toc_lsn),
            toc_sectors: area.toc_sectors,
        },
        kind: match area.kind {
            AreaKind::TwoChannel => 1,
            AreaKind::Multichannel => 2,
        },
        version: Version { major, minor },
        max_byte_rate: area.max_byte_rate,
        sample_frequency_code: area.sample_frequency_code,
        frame_format: area.frame_format,
        channel_count: area.channel_count,
        area_config: area.area_config,
        max_available_channels: area.max_available_channels,
        area_mute_flags: area.area_mute_flags,
        track_attribute: area.track_attribute,
        playtime: timecode(area.playtime),
        track_offset: area.track_offset,
        track_count: area.tracks.len() as u16,
        audio_start_lsn: Lsn(area.audio_start_lsn),
        audio_end_lsn: Lsn(area.audio_end_lsn),
        text_channel_count: area.text_channel_count,
        locale_count: area.locales.len() as u8,
        locales,
        text_charset: area.text_charset,
        text: std::array::from_fn(|item| plain::area_text(table, item)),
    }
}

pub fn locale_record(locale: &toc::Locale) -> Locale {
    let (bytes, len) = padded(&one_a_character(&locale.language));
    let language = LanguageCode { bytes, len };
    Locale { language, language_code: locale.language_code, charset: locale.charset }
}

fn timecode(time: toc::Timecode) -> Timecode {
    let toc::Timecode { minutes, seconds, frames } = time;
    Timecode { minutes, seconds, frames }
}

/// The records of the tracks that the Rust gives stored times of.
pub fn track_records(table: &[u8], area: &toc::Area, times: &[Times]) -> Vec<Track> {
    let block = plain::first_of(&plain::met(table), Structure::TrackText);
    let records = area.tracks.iter().zip(times).enumerate().map(|(i, (track, times))| Track {
        text: plain::places(table, &plain::track_items(table, plain::text_at(table, block, i))),
        ..track_record(track, *times)
    });
    records.collect()
}

/// The record of a track, without its texts.
fn track_record(track: &toc::Track, (start, duration): Times) -> Track {
    let (bytes, len) = padded(&one_a_character(track.isrc.as_deref().unwrap_or_default()));
    let genre = track.genre.map(|toc::Genre { category, index }| Genre { category, index });
    Track {
        number: track.number,
        start_lsn: Lsn(track.start_lsn),
        length_sectors: track.length_sectors,
        times: TrackTimes {
            start_frame: Frame(track.start_frame),
            duration_frames: Frame(track.duration_frames),
            stored_start: timecode(start),
            stored_duration: timecode(duration),
        },
        start_flags: track.start_flags,
        duration_flags: track.duration_flags,
        has_isrc: track.isrc.is_some().into(),
        isrc: FixedText { bytes, len },
        has_genre: genre.is_some().into(),
        genre: genre.unwrap_or_default(),
        text: Default::default(),
    }
}
