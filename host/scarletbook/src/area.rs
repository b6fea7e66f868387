//! An area and its tracks, where a reading left them.

use crate::calls;
use crate::end::TextEnd;
use crate::item::{AreaTextItem, TrackTextItem};
use crate::mapping::Mappings;
use crate::record;
use crate::refusal::Refusal;
use std::fmt;
use std::ops::Deref;

/// A page that has room for every text of Latin-1, and for one of any set of up to 1,024 bytes.
const SHORT_PAGE: usize = 8192;

/// The text that a decoding call gives: nothing for an absent one, refused by 9 or 12 where a text is
/// there that cannot be decoded. A page for every text is made only for one that needs it.
pub(crate) fn decoded(
    decode: impl Fn(&mut [u8]) -> record::DecodeAnswer,
) -> Result<Option<String>, Refusal> {
    match decoded_on(&mut [0; SHORT_PAGE], &decode) {
        Err(Refusal::ShortPage) => decoded_on(&mut vec![0; record::PAGE_BYTES], &decode),
        decoded => decoded,
    }
}

/// The text that a decoding call puts on a page.
fn decoded_on(
    page: &mut [u8],
    decode: impl Fn(&mut [u8]) -> record::DecodeAnswer,
) -> Result<Option<String>, Refusal> {
    let answer = decode(page);
    Refusal::check(answer.refusal)?;
    let text = str::from_utf8(&page[..answer.len]).expect("decoding gives UTF-8");
    Ok((!text.is_empty()).then(|| text.to_owned()))
}

/// The present ones of some texts.
pub(crate) fn present<I: Copy>(
    items: impl IntoIterator<Item = I>,
    text: impl Fn(I) -> Result<Option<String>, Refusal>,
) -> impl Iterator<Item = (I, Result<String, Refusal>)> {
    items.into_iter().filter_map(move |item| Some((item, text(item).transpose()?)))
}

/// What decoding is lent: the memory of a disc reading, or a lone table and its list of tracks.
#[derive(Clone, Copy)]
pub(crate) enum Lent<'a> {
    Disc { work: &'a [u8], tracks: &'a [record::Track] },
    Table { table: &'a [u8], tracks: &'a [record::Track] },
}

/// An area; its fields are those of [`record::Area`].
#[derive(Clone, Copy)]
pub struct Area<'a> {
    record: &'a record::Area,
    lent: Lent<'a>,
    /// The words of the mapping for its set, which is that of its tracks too.
    mapping: &'a [u32],
}

/// Its record.
impl fmt::Debug for Area<'_> {
    fn fmt(&self, f: &mut fmt::Formatter<'_>) -> fmt::Result {
        self.record.fmt(f)
    }
}

impl Deref for Area<'_> {
    type Target = record::Area;

    fn deref(&self) -> &record::Area {
        self.record
    }
}

impl<'a> Area<'a> {
    pub(crate) fn new(record: &'a record::Area, lent: Lent<'a>, mappings: Mappings<'a>) -> Self {
        Area { record, lent, mapping: mappings.of(record.text_charset) }
    }

    /// The slot it came from, 1 or 2.
    pub fn slot(&self) -> u8 {
        self.record.origin.slot
    }

    /// The bytes of the table copy that was read.
    pub fn table(&self) -> &'a [u8] {
        let (lent, from) = match self.lent {
            Lent::Disc { work, .. } => (work, record::REGIONS[self.at()]),
            Lent::Table { table, .. } => (table, 0),
        };
        &lent[from..][..usize::from(self.record.origin.toc_sectors) * record::SECTOR_SIZE]
    }

    /// Where the sub-structures of its table begin.
    pub fn chain(&self) -> record::Chain {
        let record::TableOrigin { slot, toc_lsn, toc_sectors } = self.record.origin;
        calls::table_head(self.table(), slot, toc_lsn, toc_sectors).chain
    }

    /// Its tracks, in order.
    pub fn tracks(
        &self,
    ) -> impl ExactSizeIterator<Item = Track<'a>> + DoubleEndedIterator + use<'a> {
        let area = *self;
        let (tracks, first) = match self.lent {
            Lent::Disc { tracks, .. } => (tracks, record::FIRST_TRACKS[self.at()]),
            Lent::Table { tracks, .. } => (tracks, 0),
        };
        let tracks = &tracks[first..][..usize::from(self.record.track_count)];
        tracks.iter().map(move |record| Track { record, area })
    }

    /// The track of a number, from 1.
    pub fn track(&self, number: u8) -> Option<Track<'a>> {
        self.tracks().find(|track| track.number == number)
    }

    /// One of its texts, if there is one. Refused by 9 if it is of set 3 to 6 and no mapping of its set
    /// is lent, by 12 if the words lent for its set are no mapping.
    pub fn text(&self, item: AreaTextItem) -> Result<Option<String>, Refusal> {
        let (area, item, mapping) = (self.record, item.index(), self.mapping);
        decoded(|page| match self.lent {
            Lent::Disc { work, .. } => {
                calls::decode_disc_area_text(work, area, item, mapping, page)
            }
            Lent::Table { table, .. } => calls::decode_area_text(table, area, item, mapping, page),
        })
    }

    /// How one of its texts ended, if there is one, also if it cannot be decoded.
    ///
    /// ```
    /// # mod small_disc { include!(concat!(env!("CARGO_MANIFEST_DIR"), "/examples/small_disc.rs")); }
    /// # let mut table = small_disc::area_table(b"TWOCHTOC", 2, &[], 7);
    /// # small_disc::put(&mut table, 144, &(7 * 2048 - 6u16).to_be_bytes());
    /// # small_disc::put(&mut table, 7 * 2048 - 6, b"Studio");
    /// use scarletbook::{AreaTextItem, Table, TextEnd};
    ///
    /// // In `table` is the table of an area whose description ends with its last byte.
    /// let read = Table::read(&table)?;
    /// let area = read.area().unwrap();
    /// assert_eq!(area.text(AreaTextItem::Description)?.as_deref(), Some("Studio"));
    /// assert_eq!(area.text_end(AreaTextItem::Description), Some(TextEnd::TableEnd));
    /// assert_eq!(area.text_end(AreaTextItem::Copyright), None);
    /// # Ok::<(), scarletbook::Refusal>(())
    /// ```
    pub fn text_end(&self, item: AreaTextItem) -> Option<TextEnd> {
        self.record.text[item.index() as usize].end()
    }

    /// All its texts that are there.
    pub fn texts(&self) -> impl Iterator<Item = (AreaTextItem, Result<String, Refusal>)> + use<'a> {
        let area = *self;
        present(AreaTextItem::ALL, move |item| area.text(item))
    }

    /// Its place among the areas of a disc, from 0.
    fn at(&self) -> usize {
        usize::from(self.slot()) - 1
    }
}

/// A track; its fields are those of [`record::Track`].
///
/// ```
/// # mod small_disc { include!(concat!(env!("CARGO_MANIFEST_DIR"), "/examples/small_disc.rs")); }
/// # let image = small_disc::plain();
/// # let disc = scarletbook::Disc::read(0u32, &image)?;
/// use scarletbook::{Refusal, TrackTextItem};
///
/// let track = disc.area(2).unwrap().track(1).unwrap();
/// assert_eq!((track.number, track.start_lsn.0, track.length_sectors), (1, 1000, 100));
/// assert_eq!(track.text(TrackTextItem::Performer), Ok(None));
/// assert_eq!(track.text(TrackTextItem::Title), Err(Refusal::SetNotHeld));
/// # Ok::<(), scarletbook::Refusal>(())
/// ```
#[derive(Clone, Copy)]
pub struct Track<'a> {
    record: &'a record::Track,
    area: Area<'a>,
}

/// Its record.
impl fmt::Debug for Track<'_> {
    fn fmt(&self, f: &mut fmt::Formatter<'_>) -> fmt::Result {
        self.record.fmt(f)
    }
}

impl Deref for Track<'_> {
    type Target = record::Track;

    fn deref(&self) -> &record::Track {
        self.record
    }
}

impl<'a> Track<'a> {
    /// The area that it is of.
    pub fn area(&self) -> Area<'a> {
        self.area
    }

    /// Its ISRC, if it has one.
    pub fn isrc(&self) -> Option<String> {
        (self.record.has_isrc == 1).then(|| self.record.isrc.to_string())
    }

    /// Its genre, if it has one.
    pub fn genre(&self) -> Option<record::Genre> {
        (self.record.has_genre == 1).then_some(self.record.genre)
    }

    /// One of its texts, if there is one. Refused by 9 if it is of set 3 to 6 and no mapping of its set
    /// is lent, by 12 if the words lent for its set are no mapping.
    pub fn text(&self, item: TrackTextItem) -> Result<Option<String>, Refusal> {
        let (number, item) = (self.record.number.into(), item.index());
        let Area { record: area, lent, mapping } = self.area;
        decoded(|page| match lent {
            Lent::Disc { work, tracks } => {
                calls::decode_disc_track_text(work, area, tracks, number, item, mapping, page)
            }
            Lent::Table { table, tracks } => {
                calls::decode_track_text(table, area, tracks, number, item, mapping, page)
            }
        })
    }

    /// How one of its texts ended, if there is one, also if it cannot be decoded. A track with a text
    /// that ended otherwise than by a zero byte has the warning
    /// [`TrackTextUnterminated`](crate::WarningCode::TrackTextUnterminated), once.
    ///
    /// ```
    /// # mod small_disc { include!(concat!(env!("CARGO_MANIFEST_DIR"), "/examples/small_disc.rs")); }
    /// # let table = small_disc::area_table(b"TWOCHTOC", 2, &[b"Overture", &[b'a'; 5000]], 9);
    /// use scarletbook::{Table, TextEnd, TrackTextItem};
    ///
    /// // In `table` is the table of an area; the title of its second track has 5,000 bytes.
    /// let read = Table::read(&table)?;
    /// let area = read.area().unwrap();
    /// let ends = area.tracks().map(|track| track.text_end(TrackTextItem::Title));
    /// assert!(ends.eq([Some(TextEnd::ZeroByte), Some(TextEnd::MaxBytes)]));
    /// let warnings: Vec<_> = read.warnings().map(|warning| warning.to_string()).collect();
    /// assert_eq!(warnings, ["area 1, track 2: has a text not ended by a zero byte"]);
    /// # Ok::<(), scarletbook::Refusal>(())
    /// ```
    pub fn text_end(&self, item: TrackTextItem) -> Option<TextEnd> {
        self.record.text[item.index() as usize].end()
    }

    /// All its texts that are there.
    pub fn texts(
        &self,
    ) -> impl Iterator<Item = (TrackTextItem, Result<String, Refusal>)> + use<'a> {
        let track = *self;
        present(TrackTextItem::ALL, move |item| track.text(item))
    }
}
