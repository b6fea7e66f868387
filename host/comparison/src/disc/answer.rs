//! The Rust's answer to a disc, in the records of the library.

use crate::lone::{area_record, locale_record, track_records, word};
use crate::plain;
use crate::rust::{FAILED, format_number, one_a_character, padded, sector_format};
use generate::disc::{Disc, MASTER, MASTER_SECTORS};
use generate::endings::{self, put_in};
use generate::layout::DATA;
use generate::table::MOST_SECTORS;
use oracle::disc::{Disc as Rust, Stored, read_stored};
use oracle::error::{Slot, Warning};
use oracle::lone::{numbers, slot_number};
use oracle::toc::{self, DiscText, Toc};
use scarletbook::raw::{
    Area, AreaPointer, Date, DiscAnswer, FixedText, GENRES, Genre, Locale, Lsn, MASTER_LOCALES,
    MasterToc, Track, Version,
};

/// What a disc of a known format gives.
pub struct Answer {
    pub refusal: u8,
    /// Nothing for a disc that is refused.
    pub toc: Option<Toc>,
    /// All zero with a refusal other than 6; its texts are the next.
    pub master: MasterToc,
    pub text: DiscText,
    /// The words of the Rust's warnings, and of all: with those of 19 by the walk.
    pub rust_words: Vec<u32>,
    pub words: Vec<u32>,
    /// The chosen table copy of each slot, as the next two.
    pub tables: [Option<Vec<u8>>; 2],
    pub areas: [Area; 2],
    pub tracks: [Vec<Track>; 2],
}

/// What the Rust gives of a disc; nothing for a foreign format.
pub fn read(disc: &Disc) -> Option<(Rust, Stored)> {
    sector_format(disc.format).map(|format| read_stored(format, &disc.bytes))
}

impl Answer {
    /// By what the Rust gives of a disc.
    pub fn of(disc: &Disc, (rust, stored): (Rust, Stored)) -> Self {
        let refusal = rust.refusal().unwrap_or(FAILED);
        let cut = disc.sectors() < MASTER + MASTER_SECTORS;
        match rust {
            // By no rule: there is no master table.
            _ if cut && refusal != 3 => Answer::refused(FAILED),
            Rust::Accepted(toc, warnings) => Answer::accepted(disc, toc, &stored, &warnings),
            Rust::Silent(master, warnings) => Answer::silent(disc, &master, &warnings),
            Rust::Refused(_) => Answer::refused(refusal),
        }
    }

    /// What nothing but a refusal is known of.
    pub fn refused(refusal: u8) -> Self {
        let (master, text) = Default::default();
        let (rust_words, words) = Default::default();
        let (tables, areas, tracks) = Default::default();
        Answer { refusal, toc: None, master, text, rust_words, words, tables, areas, tracks }
    }

    fn silent(disc: &Disc, master: &toc::MasterToc, warnings: &[Warning]) -> Self {
        let words: Vec<_> = warnings.iter().map(|warning| word(numbers(warning))).collect();
        Answer {
            master: master_record(disc, master),
            text: master.text.clone(),
            rust_words: words.clone(),
            words,
            tables: Slot::ALL.map(|slot| chosen(disc, pointer_record(master.pointer(slot)))),
            ..Answer::refused(6)
        }
    }

    fn accepted(disc: &Disc, toc: Toc, stored: &Stored, warnings: &[Warning]) -> Self {
        let mut answer = Answer { refusal: 0, ..Answer::silent(disc, &toc.master, warnings) };
        for (at, slot) in Slot::ALL.into_iter().enumerate() {
            if let Some(area) = toc.area(slot) {
                let table = answer.tables[at].as_deref().unwrap_or_default();
                answer.areas[at] = area_record(table, area);
                answer.tracks[at] = track_records(table, area, &stored.times(area));
            }
        }
        let warnings: Vec<_> = warnings.iter().map(numbers).collect();
        let all = put_in(&warnings, &unterminated(disc, &toc));
        answer.words = all.into_iter().map(word).collect();
        answer.toc = Some(toc);
        answer
    }

    pub fn record(&self) -> DiscAnswer {
        let [two_channel, multichannel] = self.areas;
        let (sector_format, sectors) = match &self.toc {
            Some(toc) => (format_number(toc.sector_format), toc.sectors as usize),
            None => (0, 0),
        };
        DiscAnswer {
            refusal: self.refusal,
            warnings: self.words.len(),
            sector_format,
            sectors,
            master: self.master,
            two_channel,
            multichannel,
        }
    }
}

/// The warnings 19 of an accepted disc, by the walk.
pub fn unterminated(disc: &Disc, toc: &Toc) -> Vec<endings::Warning> {
    let areas = Slot::ALL.into_iter().filter_map(|slot| toc.area(slot));
    let warnings = areas.flat_map(|area| {
        let table = chosen(disc, pointer_record(toc.master.pointer(area.slot)));
        let table = table.as_deref().unwrap_or_default();
        endings::unterminated(table, slot_number(area.slot), area.tracks.len())
    });
    warnings.collect()
}

/// Whether the sectors from an address on are all in the image.
pub fn readable(disc: &Disc, lsn: Lsn, count: u16) -> bool {
    lsn.0 as usize + usize::from(count) <= disc.sectors()
}

/// The data of sectors that are in the image.
pub fn data(disc: &Disc, lsn: Lsn, count: u16) -> Vec<u8> {
    let lsns = (lsn.0 as usize..).take(count.into());
    lsns.flat_map(|lsn| disc.data(lsn)).copied().collect()
}

/// Whether a slot is used, with at most 128 sectors.
pub fn is_read(pointer: &AreaPointer) -> bool {
    let sectors = usize::from(pointer.toc_sectors);
    pointer.toc1_lsn != Lsn(0) && (1..=MOST_SECTORS).contains(&sectors)
}

/// By the document: TOC-1 if it is readable, else TOC-2 if it is one and is readable.
fn chosen(disc: &Disc, pointer: AreaPointer) -> Option<Vec<u8>> {
    let AreaPointer { toc1_lsn, toc2_lsn, toc_sectors } = pointer;
    let named = [toc1_lsn, toc2_lsn].into_iter().filter(|&lsn| is_read(&pointer) && lsn != Lsn(0));
    let mut found = named.filter(|&lsn| readable(disc, lsn, toc_sectors));
    found.next().map(|lsn| data(disc, lsn, toc_sectors))
}

/// The record of a master table; the places of its texts by the document.
pub fn master_record(disc: &Disc, master: &toc::MasterToc) -> MasterToc {
    let mut locales = [Locale::default(); MASTER_LOCALES];
    for (record, locale) in locales.iter_mut().zip(&master.locales) {
        *record = locale_record(locale);
    }
    let toc::Version { major, minor } = master.version;
    let toc::Date { year, month, day } = master.date;
    let texts = disc.data(MASTER + 1);
    let manufacturer = disc.data(MASTER + 9)[8..].to_vec();
    let given = master.manufacturer.as_ref().is_none_or(|given| *given == manufacturer);
    MasterToc {
        version: Version { major, minor },
        album_set_size: master.album_set_size,
        album_sequence_number: master.album_sequence_number,
        album_catalog_number: fixed(&one_a_character(&master.album_catalog_number)),
        album_catalog_number_stored: fixed(&master.album_catalog_number_stored),
        album_genres: genre_records(master.album_genres),
        two_channel: pointer_record(master.two_channel),
        multichannel: pointer_record(master.multichannel),
        disc_flags: master.disc_flags,
        disc_catalog_number: fixed(&one_a_character(&master.disc_catalog_number)),
        disc_catalog_number_stored: fixed(&master.disc_catalog_number_stored),
        disc_genres: genre_records(master.disc_genres),
        date: Date { year, month, day },
        text_channel_count: master.text_channel_count,
        locale_count: master.locales.len() as u8,
        locales,
        text_charset: master.text_charset,
        text: std::array::from_fn(|item| plain::disc_text(&texts[..DATA], item)),
        manufacturer: if given { master.manufacturer.is_some().into() } else { FAILED },
    }
}

fn pointer_record(pointer: toc::AreaPointer) -> AreaPointer {
    let toc::AreaPointer { toc1_lsn, toc2_lsn, toc_sectors } = pointer;
    AreaPointer { toc1_lsn: Lsn(toc1_lsn), toc2_lsn: Lsn(toc2_lsn), toc_sectors }
}

fn genre_records(genres: [toc::Genre; GENRES]) -> [Genre; GENRES] {
    genres.map(|toc::Genre { category, index }| Genre { category, index })
}

/// A text of at most 16 bytes; a longer one is none that a record can hold.
fn fixed(text: &[u8]) -> FixedText {
    match text.len() {
        0..=16 => {
            let (bytes, len) = padded(text);
            FixedText { bytes, len }
        }
        _ => FixedText { bytes: [0; 16], len: FAILED },
    }
}
