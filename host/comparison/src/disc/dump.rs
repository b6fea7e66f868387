//! The canonical dump of a disc, written from the structures of the customer's Rust.

use crate::rust::FAILED;
use crate::sectors::plain_digest;
use oracle::disc::{Disc, Stored};
use oracle::error::{Slot, Warning};
use oracle::lone::{numbers, slot_number};
use oracle::text::Charset;
use oracle::toc::{
    Area, AreaKind, AreaPointer, AreaTextItem, DiscTextItem, Genre, Locale, MasterToc, Timecode,
    Toc, Track, TrackTextItem,
};
use std::fmt::{Display, Write};

/// The dump of what an image gives, of nothing for a foreign format, and how many texts of sets 3 to 6 it has. With
/// mappings these are shown.
pub fn dump(rust: Option<&(Disc, Stored)>, mapped: bool) -> (String, usize) {
    let (text, owner) = (String::with_capacity(1 << 15), String::new());
    let mut lines = Lines { text, owner, mapped, texts: 0 };
    match rust {
        None => lines.put("refused", 1),
        Some((Disc::Refused(_), _)) => lines.put("refused", refusal(rust)),
        Some((Disc::Silent(master, warnings), _)) => {
            lines.put("refused", 6);
            lines.put_master(master);
            lines.put("areas", 0);
            lines.put_warnings(warnings);
        }
        Some((Disc::Accepted(toc, warnings), stored)) => {
            lines.text.push_str("accepted\n");
            lines.put_master(&toc.master);
            lines.put_areas(toc, stored);
            lines.put_warnings(warnings);
        }
    }
    (lines.text, lines.texts)
}

/// The number of the refusal, 0 for none.
pub fn refusal(rust: Option<&(Disc, Stored)>) -> u8 {
    rust.map_or(1, |(rust, _)| rust.refusal().unwrap_or(FAILED))
}

struct Lines {
    text: String,
    /// What keys begin with.
    owner: String,
    /// Whether texts of sets 3 to 6 are shown, and how many there are.
    mapped: bool,
    texts: usize,
}

impl Lines {
    fn put(&mut self, key: &str, value: impl Display) {
        let Lines { text, owner, .. } = self;
        writeln!(text, "{owner}{key} {value}").expect("a string takes any text");
    }

    fn put_master(&mut self, master: &MasterToc) {
        self.owner = "master.".to_string();
        self.put_pair("version", master.version.major, master.version.minor);
        self.put("album_set_size", master.album_set_size);
        self.put("album_sequence_number", master.album_sequence_number);
        self.put("album_catalog_number", hex(master.album_catalog_number.as_bytes()));
        self.put("album_catalog_number_stored", hex(&master.album_catalog_number_stored));
        self.put_genres("album_genre", &master.album_genres);
        self.put_pointer("two_channel", master.two_channel);
        self.put_pointer("multichannel", master.multichannel);
        self.put("disc_flags", master.disc_flags);
        self.put("disc_catalog_number", hex(master.disc_catalog_number.as_bytes()));
        self.put("disc_catalog_number_stored", hex(&master.disc_catalog_number_stored));
        self.put_genres("disc_genre", &master.disc_genres);
        let date = master.date;
        self.put("date", format_args!("{} {} {}", date.year, date.month, date.day));
        self.put("text_channel_count", master.text_channel_count);
        self.put_locales(&master.locales);
        self.put("text_charset", master.text_charset);
        for &item in DiscTextItem::ALL {
            self.put_text(item.name(), master.text.get(item), master.text_charset);
        }
        let manufacturer = master.manufacturer.as_deref();
        let digest = manufacturer.map(|bytes| format!("{:016x}", plain_digest(bytes)));
        self.put("manufacturer", digest.as_deref().unwrap_or("-"));
        self.owner.clear();
    }

    fn put_areas(&mut self, toc: &Toc, stored: &Stored) {
        self.put("areas", toc.areas.len());
        for area in &toc.areas {
            let owner = format!("area{}.", slot_number(area.slot));
            self.owner.clone_from(&owner);
            self.put_area_head(area);
            self.put_area(area);
            for track in &area.tracks {
                self.owner = format!("{owner}track{}.", track.number);
                self.put_track(track, area.text_charset);
                self.put_stored(stored, area.slot, track.number);
            }
            self.owner.clear();
        }
    }

    fn put_area_head(&mut self, area: &Area) {
        self.put("slot", slot_number(area.slot));
        self.put(
            "kind",
            match area.kind {
                AreaKind::TwoChannel => 1,
                AreaKind::Multichannel => 2,
            },
        );
        self.put_pair("version", area.version.major, area.version.minor);
        self.put("toc_lsn", area.toc_lsn);
        self.put("toc_sectors", area.toc_sectors);
    }

    fn put_area(&mut self, area: &Area) {
        self.put("max_byte_rate", area.max_byte_rate);
        self.put("sample_frequency_code", area.sample_frequency_code);
        self.put("frame_format", area.frame_format);
        self.put("channel_count", area.channel_count);
        self.put("area_config", area.area_config);
        self.put("max_available_channels", area.max_available_channels);
        self.put("area_mute_flags", area.area_mute_flags);
        self.put("track_attribute", area.track_attribute);
        self.put_time("playtime", area.playtime);
        self.put("track_offset", area.track_offset);
        self.put("audio_start_lsn", area.audio_start_lsn);
        self.put("audio_end_lsn", area.audio_end_lsn);
        self.put("text_channel_count", area.text_channel_count);
        self.put_locales(&area.locales);
        self.put("text_charset", area.text_charset);
        for &item in AreaTextItem::ALL {
            self.put_text(item.name(), area.text.get(item), area.text_charset);
        }
        self.put("tracks", area.tracks.len());
    }

    fn put_track(&mut self, track: &Track, code: u8) {
        self.put("number", track.number);
        self.put("start_lsn", track.start_lsn);
        self.put("length_sectors", track.length_sectors);
        self.put("start_frame", track.start_frame);
        self.put("duration_frames", track.duration_frames);
        self.put("start_flags", track.start_flags);
        self.put("duration_flags", track.duration_flags);
        self.put(
            "isrc",
            track.isrc.as_deref().map_or("-".to_string(), |isrc| hex(isrc.as_bytes())),
        );
        match track.genre {
            Some(genre) => self.put_pair("genre", genre.category, genre.index),
            None => self.put("genre", "-"),
        }
        for &item in TrackTextItem::ALL {
            self.put_text(item.name(), track.text.get(item), code);
        }
    }

    fn put_stored(&mut self, stored: &Stored, slot: Slot, number: u8) {
        match stored.timecodes(slot, number) {
            Some((start, duration)) => {
                self.put_time("stored_start", start);
                self.put_time("stored_duration", duration);
            }
            None => self.put("stored_start", "none"),
        }
    }

    fn put_warnings(&mut self, warnings: &[Warning]) {
        self.put("warnings", warnings.len());
        for [code, slot, track] in warnings.iter().map(numbers) {
            self.put(&code.to_string(), format_args!("{slot} {track}"));
        }
    }

    fn put_pair(&mut self, key: &str, first: u8, second: u8) {
        self.put(key, format_args!("{first} {second}"));
    }

    fn put_genres(&mut self, key: &str, genres: &[Genre]) {
        for (i, genre) in genres.iter().enumerate() {
            self.put_pair(&format!("{key}{i}"), genre.category, genre.index);
        }
    }

    fn put_pointer(&mut self, key: &str, pointer: AreaPointer) {
        let AreaPointer { toc1_lsn, toc2_lsn, toc_sectors } = pointer;
        self.put(key, format_args!("{toc1_lsn} {toc2_lsn} {toc_sectors}"));
    }

    fn put_time(&mut self, key: &str, time: Timecode) {
        let Timecode { minutes, seconds, frames } = time;
        self.put(key, format_args!("{minutes} {seconds} {frames}"));
    }

    fn put_locales(&mut self, locales: &[Locale]) {
        self.put("locales", locales.len());
        for (i, locale) in locales.iter().enumerate() {
            let [language, stored] = [locale.language.as_bytes(), &locale.language_code].map(hex);
            self.put(&format!("locale{i}"), format_args!("{language} {stored} {}", locale.charset));
        }
    }

    /// A text of the set that a code names.
    fn put_text(&mut self, name: &str, text: Option<&str>, code: u8) {
        let latin_1 = Charset::from_code(code) == Charset::Latin1;
        self.texts += usize::from(!latin_1 && text.is_some());
        let value = match text {
            None => "-".to_string(),
            Some(text) if latin_1 || self.mapped => hex(text.as_bytes()),
            Some(_) => "present".to_string(),
        };
        self.put(&format!("text.{name}"), value);
    }
}

/// Bytes that are there.
fn hex(bytes: &[u8]) -> String {
    if bytes.is_empty() {
        return "empty".to_string();
    }
    let digits = bytes.iter().flat_map(|byte| [byte >> 4, byte & 15]);
    digits.map(|digit| char::from(b"0123456789abcdef"[usize::from(digit)])).collect()
}

#[test]
fn bytes_are_lower_case_digits() {
    assert_eq!([&b""[..], b"\0", b"A\xe9\xff"].map(hex), ["empty", "00", "41e9ff"]);
}
