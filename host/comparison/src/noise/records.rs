//! Records of any bytes.

use crate::guard::track_of;
use generate::Rng;
use scarletbook::raw::{
    Area, AreaPointer, Date, FixedText, Genre, LanguageCode, Locale, Lsn, MasterToc, TableOrigin,
    TextPlace, Timecode, Track, Version,
};

pub fn any_track(rng: &mut Rng) -> Track {
    let text = std::array::from_fn(|_| any_place(rng));
    Track { text, ..track_of(&std::array::from_fn(|_| rng.word() as u32)) }
}

/// Mostly of a slot that there is.
pub fn any_area(rng: &mut Rng) -> Area {
    let (flag, slot, few) = (rng.byte(), rng.byte(), 1 + rng.below(8) as u16);
    let (sectors, tracks) = (rng.word() as u16, rng.word() as u16);
    Area {
        present: rng.pick(&[1, 1, 1, 1, 1, 0, 2, flag]),
        origin: TableOrigin {
            slot: rng.pick(&[1, 1, 1, 2, 2, 2, 0, 3, slot]),
            toc_lsn: Lsn(rng.word() as u32),
            toc_sectors: rng.pick(&[few, few, 128, sectors]),
        },
        kind: rng.byte(),
        version: Version { major: rng.byte(), minor: rng.byte() },
        max_byte_rate: rng.word() as u32,
        sample_frequency_code: rng.byte(),
        frame_format: rng.byte(),
        channel_count: rng.byte(),
        area_config: rng.byte(),
        max_available_channels: rng.byte(),
        area_mute_flags: rng.byte(),
        track_attribute: rng.byte(),
        playtime: Timecode { minutes: rng.byte(), seconds: rng.byte(), frames: rng.byte() },
        track_offset: rng.byte(),
        track_count: rng.pick(&[1, 255, 256, tracks]),
        audio_start_lsn: Lsn(rng.word() as u32),
        audio_end_lsn: Lsn(rng.word() as u32),
        text_channel_count: rng.byte(),
        locale_count: rng.byte(),
        locales: std::array::from_fn(|_| any_locale(rng)),
        text_charset: rng.byte(),
        text: std::array::from_fn(|_| any_place(rng)),
    }
}

pub fn any_master(rng: &mut Rng) -> MasterToc {
    MasterToc {
        version: Version { major: rng.byte(), minor: rng.byte() },
        album_set_size: rng.word() as u16,
        album_sequence_number: rng.word() as u16,
        album_catalog_number: any_fixed(rng),
        album_catalog_number_stored: any_fixed(rng),
        album_genres: std::array::from_fn(|_| any_genre(rng)),
        two_channel: any_pointer(rng),
        multichannel: any_pointer(rng),
        disc_flags: rng.byte(),
        disc_catalog_number: any_fixed(rng),
        disc_catalog_number_stored: any_fixed(rng),
        disc_genres: std::array::from_fn(|_| any_genre(rng)),
        date: Date { year: rng.word() as u16, month: rng.byte(), day: rng.byte() },
        text_channel_count: rng.byte(),
        locale_count: rng.byte(),
        locales: std::array::from_fn(|_| any_locale(rng)),
        text_charset: rng.byte(),
        text: std::array::from_fn(|_| any_place(rng)),
        manufacturer: rng.byte(),
    }
}

/// Small as often as large, and with any end.
fn any_place(rng: &mut Rng) -> TextPlace {
    let bits = rng.below(32);
    TextPlace { place: rng.word() as u32 >> bits, end: rng.byte() }
}

fn any_locale(rng: &mut Rng) -> Locale {
    let language = LanguageCode { bytes: [rng.byte(), rng.byte()], len: rng.byte() };
    Locale { language, language_code: [rng.byte(), rng.byte()], charset: rng.byte() }
}

fn any_fixed(rng: &mut Rng) -> FixedText {
    FixedText { bytes: std::array::from_fn(|_| rng.byte()), len: rng.byte() }
}

fn any_genre(rng: &mut Rng) -> Genre {
    Genre { category: rng.byte(), index: rng.byte() }
}

fn any_pointer(rng: &mut Rng) -> AreaPointer {
    let [toc1_lsn, toc2_lsn] = [(); 2].map(|()| Lsn(rng.word() as u32));
    AreaPointer { toc1_lsn, toc2_lsn, toc_sectors: rng.word() as u16 }
}
