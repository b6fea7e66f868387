//! The fields of a disc, its areas and their tracks, by name, in the order of the dump.

use scarletbook::raw::charset;
use scarletbook::record::{AreaPointer, Date, FixedText, Genre, Locale, Timecode, Version};
use scarletbook::{Area, AreaTextItem, Disc, DiscTextItem, Refusal, Track, TrackTextItem, digest};

/// The value of a field.
#[derive(Clone, Copy, Debug)]
pub enum Value<'a> {
    Number(u32),
    Version(Version),
    Pointer(AreaPointer),
    Timecode(Timecode),
    Date(Date),
    Genre(Option<Genre>),
    /// 1 for `TWOCHTOC`, 2 for `MULCHTOC`.
    Kind(u8),
    Bytes(&'a [u8]),
    Fixed(Option<&'a FixedText>),
    Digest(Option<u64>),
}

/// A text.
#[derive(Clone, Debug, PartialEq, Eq)]
pub enum Text {
    Absent,
    Decoded(String),
    /// It is there, in a set of which no mapping is held.
    NotHeld(u8),
    /// It is there, and what is held for its set is no mapping.
    BadMapping(u8),
}

impl Text {
    /// The text that decoding gave; the code names its set.
    pub fn new(decoded: Result<Option<String>, Refusal>, code: u8) -> Self {
        match decoded {
            Ok(None) => Text::Absent,
            Ok(Some(text)) => Text::Decoded(text),
            Err(Refusal::BadMapping) => Text::BadMapping(charset(code)),
            Err(_) => Text::NotHeld(charset(code)),
        }
    }
}

/// Takes the fields of a record, one by one.
pub trait Fields {
    fn value(&mut self, key: &str, value: Value);
    fn locales(&mut self, locales: &[Locale]);
    fn texts(&mut self, texts: impl Iterator<Item = (&'static str, Text)>);

    fn values<'a>(&mut self, values: impl IntoIterator<Item = (&'static str, Value<'a>)>) {
        for (key, value) in values {
            self.value(key, value);
        }
    }
}

/// The fields of the master record.
pub fn master(disc: &Disc, to: &mut impl Fields) {
    let master = disc.master();
    let album_genre = |i: usize| Value::Genre(Some(master.album_genres[i]));
    let disc_genre = |i: usize| Value::Genre(Some(master.disc_genres[i]));
    to.values([
        ("version", Value::Version(master.version)),
        ("album_set_size", Value::Number(master.album_set_size.into())),
        ("album_sequence_number", Value::Number(master.album_sequence_number.into())),
        ("album_catalog_number", Value::Fixed(Some(&master.album_catalog_number))),
        ("album_catalog_number_stored", Value::Bytes(master.album_catalog_number_stored.text())),
        ("album_genre0", album_genre(0)),
        ("album_genre1", album_genre(1)),
        ("album_genre2", album_genre(2)),
        ("album_genre3", album_genre(3)),
        ("two_channel", Value::Pointer(master.two_channel)),
        ("multichannel", Value::Pointer(master.multichannel)),
        ("disc_flags", Value::Number(master.disc_flags.into())),
        ("disc_catalog_number", Value::Fixed(Some(&master.disc_catalog_number))),
        ("disc_catalog_number_stored", Value::Bytes(master.disc_catalog_number_stored.text())),
        ("disc_genre0", disc_genre(0)),
        ("disc_genre1", disc_genre(1)),
        ("disc_genre2", disc_genre(2)),
        ("disc_genre3", disc_genre(3)),
        ("date", Value::Date(master.date)),
        ("text_channel_count", Value::Number(master.text_channel_count.into())),
    ]);
    to.locales(&master.locales[..master.locale_count.into()]);
    to.value("text_charset", Value::Number(master.text_charset.into()));
    let text = |item: DiscTextItem| Text::new(disc.text(item), master.text_charset);
    to.texts(DiscTextItem::ALL.into_iter().map(|item| (item.name(), text(item))));
    to.value("manufacturer", Value::Digest(disc.manufacturer().map(digest)));
}

/// The fields of an area, without its tracks.
pub fn area(area: &Area, to: &mut impl Fields) {
    to.values([
        ("slot", Value::Number(area.slot().into())),
        ("kind", Value::Kind(area.kind)),
        ("version", Value::Version(area.version)),
        ("toc_lsn", Value::Number(area.origin.toc_lsn.0)),
        ("toc_sectors", Value::Number(area.origin.toc_sectors.into())),
        ("max_byte_rate", Value::Number(area.max_byte_rate)),
        ("sample_frequency_code", Value::Number(area.sample_frequency_code.into())),
        ("frame_format", Value::Number(area.frame_format.into())),
        ("channel_count", Value::Number(area.channel_count.into())),
        ("area_config", Value::Number(area.area_config.into())),
        ("max_available_channels", Value::Number(area.max_available_channels.into())),
        ("area_mute_flags", Value::Number(area.area_mute_flags.into())),
        ("track_attribute", Value::Number(area.track_attribute.into())),
        ("playtime", Value::Timecode(area.playtime)),
        ("track_offset", Value::Number(area.track_offset.into())),
        ("audio_start_lsn", Value::Number(area.audio_start_lsn.0)),
        ("audio_end_lsn", Value::Number(area.audio_end_lsn.0)),
        ("text_channel_count", Value::Number(area.text_channel_count.into())),
    ]);
    to.locales(&area.locales[..area.locale_count.into()]);
    to.value("text_charset", Value::Number(area.text_charset.into()));
    let text = |item: AreaTextItem| Text::new(area.text(item), area.text_charset);
    to.texts(AreaTextItem::ALL.into_iter().map(|item| (item.name(), text(item))));
}

/// The fields of a track.
pub fn track(track: &Track, to: &mut impl Fields) {
    to.values([
        ("number", Value::Number(track.number.into())),
        ("start_lsn", Value::Number(track.start_lsn.0)),
        ("length_sectors", Value::Number(track.length_sectors)),
        ("start_frame", Value::Number(track.times.start_frame.0)),
        ("duration_frames", Value::Number(track.times.duration_frames.0)),
        ("start_flags", Value::Number(track.start_flags.into())),
        ("duration_flags", Value::Number(track.duration_flags.into())),
        ("isrc", Value::Fixed((track.has_isrc == 1).then_some(&track.isrc))),
        ("genre", Value::Genre(track.genre())),
    ]);
    let text = |item: TrackTextItem| Text::new(track.text(item), track.area().text_charset);
    to.texts(TrackTextItem::ALL.into_iter().map(|item| (item.name(), text(item))));
    to.value("stored_start", Value::Timecode(track.times.stored_start));
    to.value("stored_duration", Value::Timecode(track.times.stored_duration));
}
