//! The records of the library, laid out as in C, with the names of aclater/scarletbook-rs, the sizes of lent memory, the
//! verdicts on headers, and the ends of strings. Flags are bytes, 0 or 1.

use crate::end::TextEnd;
use std::fmt::{self, Write};

/// The bytes of data in a sector.
pub const SECTOR_SIZE: usize = 2048;
/// A page of so many bytes has room for every text: 4,096 bytes, each of which gives at most 8, which are two code points of
/// four bytes each. Latin-1 gives at most two for each.
pub const PAGE_BYTES: usize = 32_768;
/// The track records that [`read_table`](crate::raw::read_table) and [`decode_track_text`](crate::raw::decode_track_text) are lent at least.
pub const MAX_TRACKS: usize = 255;
/// The warning words that [`read_table`](crate::raw::read_table) is lent at least.
pub const TABLE_WORDS: usize = 1021;
/// The locales of a record at most.
pub const MAX_LOCALES: usize = 10;
/// The texts of an area.
pub const AREA_TEXTS: usize = 4;
/// The texts of a track.
pub const TRACK_TEXTS: usize = 14;
/// The work bytes that [`read_disc`](crate::raw::read_disc) and the decoding functions are lent at least.
pub const WORK_BYTES: usize = 544_768;
/// The track records that [`read_disc`](crate::raw::read_disc) and its decoding of track texts are lent at least.
pub const TRACK_RECORDS: usize = 510;
/// The warning words that [`read_disc`](crate::raw::read_disc) is lent at least.
pub const WARNING_WORDS: usize = 2047;
/// Where the tables of the two slots and the master table begin in the work bytes.
pub const REGIONS: [usize; 3] = [0, 262_144, 524_288];
/// The first track record of each slot.
pub const FIRST_TRACKS: [usize; 2] = [0, 255];
/// The locales of a master record at most.
pub const MASTER_LOCALES: usize = 8;
/// The genres of an album and of a disc.
pub const GENRES: usize = 4;
/// The texts of a disc.
pub const DISC_TEXTS: usize = 16;

/// The verdict on a header that is a multiple of (x + 1)(x + α), and not blank.
pub const SOUND: u8 = 1;
/// The verdict on a header of six zero bytes.
pub const BLANK: u8 = 2;
/// The verdict on a header that is no multiple.
pub const UNSOUND: u8 = 3;

/// The end of a stored string that a zero byte ended.
pub const ENDED_BY_ZERO_BYTE: u8 = 1;
/// The end of one that has 4,096 bytes, the most there are, whatever stands behind them.
pub const ENDED_BY_MAX_BYTES: u8 = 2;
/// The end of one that the end of its table ended.
pub const ENDED_BY_TABLE_END: u8 = 3;

/// The answer of [`fingerprint`](crate::raw::fingerprint).
#[repr(C)]
#[derive(Clone, Copy, Debug, PartialEq, Eq)]
pub struct FingerprintAnswer {
    pub refusal: u8,
    /// FNV-1a of the sector's data; 0 with a refusal.
    pub digest: u64,
}

/// The answer of [`compare_sectors`](crate::raw::compare_sectors).
#[repr(C)]
#[derive(Clone, Copy, Debug, PartialEq, Eq)]
pub struct Comparison {
    pub refusal: u8,
    /// 1 when all bytes are equal, else 0; 0 with a refusal.
    pub equal: u8,
}

/// The answer of [`audit`](crate::raw::audit).
#[repr(C)]
#[derive(Clone, Copy, Debug, PartialEq, Eq)]
pub struct AuditAnswer {
    pub refusal: u8,
    /// [`SOUND`], [`BLANK`] or [`UNSOUND`]; 0 with a refusal.
    pub verdict: u8,
}

/// The answer of [`mend`](crate::raw::mend).
#[repr(C)]
#[derive(Clone, Copy, Debug, PartialEq, Eq)]
pub struct Mended {
    pub refusal: u8,
    /// The mended header, which can be six zeros; all zero with a refusal.
    pub header: [u8; 6],
}

/// The answer of [`decode`](crate::raw::decode).
#[repr(C)]
#[derive(Clone, Copy, Debug, PartialEq, Eq)]
pub struct DecodeAnswer {
    pub refusal: u8,
    /// The bytes of the text at the start of the page; 0 with a refusal.
    pub len: usize,
}

/// The text of a fixed field, one byte a character.
#[repr(C)]
#[derive(Clone, Copy, Debug, Default, PartialEq, Eq)]
pub struct FixedText {
    /// The text, and zeros past it.
    pub bytes: [u8; 16],
    pub len: u8,
}

impl FixedText {
    /// The bytes of the text alone.
    pub fn text(&self) -> &[u8] {
        front(&self.bytes, self.len)
    }
}

/// A language code, one byte a character.
#[repr(C)]
#[derive(Clone, Copy, Debug, Default, PartialEq, Eq)]
pub struct LanguageCode {
    /// The code, and zeros past it.
    pub bytes: [u8; 2],
    pub len: u8,
}

impl LanguageCode {
    /// The bytes of the code alone.
    pub fn text(&self) -> &[u8] {
        front(&self.bytes, self.len)
    }
}

/// The first `len` elements; all, if they are fewer.
fn front<T>(elements: &[T], len: u8) -> &[T] {
    elements.get(..usize::from(len)).unwrap_or(elements)
}

/// A sector address.
#[repr(C)]
#[derive(Clone, Copy, Debug, Default, PartialEq, Eq, PartialOrd, Ord)]
pub struct Lsn(pub u32);

/// A frame number.
#[repr(C)]
#[derive(Clone, Copy, Debug, Default, PartialEq, Eq, PartialOrd, Ord)]
pub struct Frame(pub u32);

/// A timecode, as stored: its seconds may be above 59, its frames above 74.
#[repr(C)]
#[derive(Clone, Copy, Debug, Default, PartialEq, Eq)]
pub struct Timecode {
    pub minutes: u8,
    pub seconds: u8,
    pub frames: u8,
}

/// Where an area's table came from.
#[repr(C)]
#[derive(Clone, Copy, Debug, Default, PartialEq, Eq)]
pub struct TableOrigin {
    pub slot: u8,
    pub toc_lsn: Lsn,
    pub toc_sectors: u16,
}

/// A structure version number.
#[repr(C)]
#[derive(Clone, Copy, Debug, Default, PartialEq, Eq)]
pub struct Version {
    pub major: u8,
    pub minor: u8,
}

/// A locale.
#[repr(C)]
#[derive(Clone, Copy, Debug, Default, PartialEq, Eq)]
pub struct Locale {
    pub language: LanguageCode,
    /// The two bytes of the language, as stored.
    pub language_code: [u8; 2],
    pub charset: u8,
}

/// The place of a text's string in its table, and how the string ended; both 0 for an absent text.
#[repr(C)]
#[derive(Clone, Copy, Debug, Default, PartialEq, Eq)]
pub struct TextPlace {
    pub place: u32,
    /// [`ENDED_BY_ZERO_BYTE`], [`ENDED_BY_MAX_BYTES`] or [`ENDED_BY_TABLE_END`].
    pub end: u8,
}

impl TextPlace {
    /// How the string ended; nothing for an absent text.
    pub fn end(&self) -> Option<TextEnd> {
        TextEnd::of_number(self.end)
    }
}

/// The record of an area; all zero where there is none.
#[repr(C)]
#[derive(Clone, Copy, Debug, Default, PartialEq, Eq)]
pub struct Area {
    /// 1 for an area.
    pub present: u8,
    pub origin: TableOrigin,
    /// 1 for `TWOCHTOC`, 2 for `MULCHTOC`.
    pub kind: u8,
    pub version: Version,
    pub max_byte_rate: u32,
    pub sample_frequency_code: u8,
    pub frame_format: u8,
    pub channel_count: u8,
    pub area_config: u8,
    pub max_available_channels: u8,
    pub area_mute_flags: u8,
    pub track_attribute: u8,
    pub playtime: Timecode,
    pub track_offset: u8,
    pub track_count: u16,
    pub audio_start_lsn: Lsn,
    pub audio_end_lsn: Lsn,
    pub text_channel_count: u8,
    /// How many locales are listed.
    pub locale_count: u8,
    /// The locales, and zero past them.
    pub locales: [Locale; MAX_LOCALES],
    pub text_charset: u8,
    pub text: [TextPlace; AREA_TEXTS],
}

impl Area {
    /// The locales that are listed.
    pub fn locales(&self) -> &[Locale] {
        front(&self.locales, self.locale_count)
    }
}

/// When a track starts and how long it lasts: capped at the play time of its area, and as stored.
///
/// The frame numbers are those of the stored timecodes, unless these together exceed the play time.
/// Exactly then the start is capped at it, the duration at what is left of it, and the track has the
/// warning [`TrackPastPlaytime`](crate::WarningCode::TrackPastPlaytime).
///
/// ```
/// # mod small_disc { include!(concat!(env!("CARGO_MANIFEST_DIR"), "/examples/small_disc.rs")); }
/// # let mut table = small_disc::area_table(b"TWOCHTOC", 2, &[b"Overture"], 7);
/// # small_disc::put(&mut table, 3 * 2048 + 8, &[4, 0, 0]);
/// # small_disc::put(&mut table, 3 * 2048 + 1028, &[0, 61, 80]);
/// use scarletbook::Table;
/// use scarletbook::raw::frame_number;
/// use scarletbook::record::{Frame, Timecode};
///
/// // In `table` is the table of an area that plays 5:00.00; its track starts at 4:00.00.
/// let read = Table::read(&table)?;
/// let times = read.area().unwrap().track(1).unwrap().times;
/// assert_eq!(times.stored_start, Timecode { minutes: 4, seconds: 0, frames: 0 });
/// assert_eq!(times.start_frame, frame_number(times.stored_start));
/// assert_eq!(times.stored_duration, Timecode { minutes: 0, seconds: 61, frames: 80 });
/// assert_eq!(frame_number(times.stored_duration), Frame(4655));
/// assert_eq!(times.duration_frames, Frame(4500));
/// # Ok::<(), scarletbook::Refusal>(())
/// ```
#[repr(C)]
#[derive(Clone, Copy, Debug, Default, PartialEq, Eq)]
pub struct TrackTimes {
    /// Capped.
    pub start_frame: Frame,
    /// Capped.
    pub duration_frames: Frame,
    /// Before the cap.
    pub stored_start: Timecode,
    /// Before the cap.
    pub stored_duration: Timecode,
}

/// A genre entry.
#[repr(C)]
#[derive(Clone, Copy, Debug, Default, PartialEq, Eq)]
pub struct Genre {
    pub category: u8,
    pub index: u8,
}

/// A track; an absent ISRC or genre is zero.
#[repr(C)]
#[derive(Clone, Copy, Debug, Default, PartialEq, Eq)]
pub struct Track {
    pub number: u8,
    pub start_lsn: Lsn,
    pub length_sectors: u32,
    pub times: TrackTimes,
    pub start_flags: u8,
    pub duration_flags: u8,
    /// 1 for a track with an ISRC, else 0.
    pub has_isrc: u8,
    pub isrc: FixedText,
    /// 1 for a track with a genre, else 0.
    pub has_genre: u8,
    pub genre: Genre,
    pub text: [TextPlace; TRACK_TEXTS],
}

/// The answer of [`read_table`](crate::raw::read_table).
#[repr(C)]
#[derive(Clone, Copy, Debug, Default, PartialEq, Eq)]
pub struct TableAnswer {
    pub refusal: u8,
    /// The warnings at the start of the words; 0 with a refusal other than 6.
    pub warnings: usize,
    /// All zero with a refusal.
    pub area: Area,
}

/// The answer of [`draw_at`](crate::raw::draw_at): an item, or none.
#[repr(C)]
#[derive(Clone, Copy, Debug, Default, PartialEq, Eq)]
pub struct DrawAnswer {
    /// 1 if an item was found, else 0.
    pub found: u8,
    /// The item's type byte.
    pub kind: u8,
    /// Where the item's string begins in the table.
    pub place: usize,
    /// The bytes of the item's string.
    pub len: usize,
    /// Where the next draw is from.
    pub next: usize,
    /// How many items are left for it.
    pub left: usize,
}

/// The answer of [`cap`](crate::raw::cap).
#[repr(C)]
#[derive(Clone, Copy, Debug, Default, PartialEq, Eq)]
pub struct CapAnswer {
    pub start_frame: Frame,
    pub duration_frames: Frame,
    /// 1 if the times went past the play time, else 0.
    pub past_playtime: u8,
}

/// Where the master table says that a slot's table copies are.
#[repr(C)]
#[derive(Clone, Copy, Debug, Default, PartialEq, Eq)]
pub struct AreaPointer {
    /// 0 for an unused slot.
    pub toc1_lsn: Lsn,
    /// 0 for no second copy.
    pub toc2_lsn: Lsn,
    /// 0 for an unused slot.
    pub toc_sectors: u16,
}

/// A date, as stored.
#[repr(C)]
#[derive(Clone, Copy, Debug, Default, PartialEq, Eq)]
pub struct Date {
    pub year: u16,
    pub month: u8,
    pub day: u8,
}

/// The master record of a disc.
#[repr(C)]
#[derive(Clone, Copy, Debug, Default, PartialEq, Eq)]
pub struct MasterToc {
    pub version: Version,
    pub album_set_size: u16,
    pub album_sequence_number: u16,
    pub album_catalog_number: FixedText,
    /// The same, untrimmed.
    pub album_catalog_number_stored: FixedText,
    pub album_genres: [Genre; GENRES],
    pub two_channel: AreaPointer,
    pub multichannel: AreaPointer,
    pub disc_flags: u8,
    pub disc_catalog_number: FixedText,
    /// The same, untrimmed.
    pub disc_catalog_number_stored: FixedText,
    pub disc_genres: [Genre; GENRES],
    pub date: Date,
    pub text_channel_count: u8,
    /// How many locales are listed.
    pub locale_count: u8,
    /// The locales, and zero past them.
    pub locales: [Locale; MASTER_LOCALES],
    pub text_charset: u8,
    /// Places in sector 1 of the master table.
    pub text: [TextPlace; DISC_TEXTS],
    /// 1 if sector 9 of the master table is the manufacturer's, else 0.
    pub manufacturer: u8,
}

impl MasterToc {
    /// The locales that are listed.
    pub fn locales(&self) -> &[Locale] {
        front(&self.locales, self.locale_count)
    }
}

/// The answer of [`read_disc`](crate::raw::read_disc).
#[repr(C)]
#[derive(Clone, Copy, Debug, Default, PartialEq, Eq)]
pub struct DiscAnswer {
    pub refusal: u8,
    /// The warnings at the start of the words; 0 with a refusal other than 6.
    pub warnings: usize,
    pub sector_format: u32,
    /// The whole sectors of the image.
    pub sectors: usize,
    /// All zero with a refusal other than 6.
    pub master: MasterToc,
    /// All zero without an area, as is the next.
    pub two_channel: Area,
    pub multichannel: Area,
}

impl DiscAnswer {
    /// The areas of the two slots.
    pub fn areas(&self) -> [Area; 2] {
        [self.two_channel, self.multichannel]
    }
}

/// Where a table's sub-structures begin that the walk keeps; 0 for one that it did not meet.
#[repr(C)]
#[derive(Clone, Copy, Debug, Default, PartialEq, Eq)]
pub struct Chain {
    /// The first `SACDTTxt`.
    pub ttxt: u32,
    /// The last `SACD_IGL`.
    pub igl: u32,
    /// The last `SACDTRL1`.
    pub trl1: u32,
    /// The last `SACDTRL2`.
    pub trl2: u32,
}

/// The answer of [`table_head`](crate::raw::table_head).
#[repr(C)]
#[derive(Clone, Copy, Debug, Default, PartialEq, Eq)]
pub struct TableHead {
    /// The code of the warning by which the table is skipped, or 0.
    pub skip: u8,
    /// All zero for a table that is skipped.
    pub area: Area,
    pub chain: Chain,
}

/// The answer of [`detect_format`](crate::raw::detect_format).
#[repr(C)]
#[derive(Clone, Copy, Debug, Default, PartialEq, Eq)]
pub struct DetectAnswer {
    pub refusal: u8,
    /// 0 with a refusal.
    pub sector_format: u32,
}

/// One character a byte.
impl fmt::Display for FixedText {
    fn fmt(&self, f: &mut fmt::Formatter<'_>) -> fmt::Result {
        write_latin1(f, self.text())
    }
}

/// One character a byte.
impl fmt::Display for LanguageCode {
    fn fmt(&self, f: &mut fmt::Formatter<'_>) -> fmt::Result {
        write_latin1(f, self.text())
    }
}

fn write_latin1(f: &mut fmt::Formatter<'_>, bytes: &[u8]) -> fmt::Result {
    bytes.iter().try_for_each(|&byte| f.write_char(char::from(byte)))
}
