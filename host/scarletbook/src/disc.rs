//! A disc, read from an image.

use crate::area::{Area, Lent, decoded, present};
use crate::calls;
use crate::end::TextEnd;
use crate::item::DiscTextItem;
use crate::mapping::Mappings;
use crate::record::{self, REGIONS, SECTOR_SIZE, TRACK_RECORDS, WARNING_WORDS, WORK_BYTES};
use crate::refusal::{Refusal, Refused};
use crate::warning::Warning;
use std::borrow::Cow;
use std::fmt;

/// The sector of the master table that is the manufacturer's, and where its bytes begin there.
const MANUFACTURER_SECTOR: usize = 9;
const MANUFACTURER_AT: usize = 8;

/// The memory that a disc reading is lent: at least 544,768 work bytes, 510 track records and 2,047
/// warning words.
#[derive(Debug)]
pub struct Memory<'m> {
    pub work: &'m mut [u8],
    pub tracks: &'m mut [record::Track],
    pub words: &'m mut [u32],
}

/// A disc that was read, in memory of its own or in memory that was lent.
#[derive(Clone)]
pub struct Disc<'m> {
    answer: record::DiscAnswer,
    work: Cow<'m, [u8]>,
    tracks: Cow<'m, [record::Track]>,
    words: Cow<'m, [u32]>,
    mappings: Mappings<'m>,
}

/// Without its memory.
impl fmt::Debug for Disc<'_> {
    fn fmt(&self, f: &mut fmt::Formatter<'_>) -> fmt::Result {
        f.debug_struct("Disc").field("answer", &self.answer).finish_non_exhaustive()
    }
}

impl Disc<'static> {
    /// Reads a disc from an image, into memory of its own. The format is a [`SectorFormat`] or its
    /// number; any other number is refused by 1.
    ///
    /// ```
    /// # mod small_disc { include!(concat!(env!("CARGO_MANIFEST_DIR"), "/examples/small_disc.rs")); }
    /// # let image = small_disc::plain();
    /// use scarletbook::{Disc, SectorFormat, TrackTextItem};
    ///
    /// let disc = Disc::read(SectorFormat::detect(&image)?, &image)?;
    /// let area = disc.area(1).unwrap();
    /// let titles: Result<Vec<_>, _> =
    ///     area.tracks().map(|track| track.text(TrackTextItem::Title)).collect();
    /// assert_eq!(titles?, [Some("Overture".to_owned()), Some("Entr'acte été".to_owned())]);
    /// # Ok::<(), scarletbook::Refusal>(())
    /// ```
    ///
    /// [`SectorFormat`]: crate::SectorFormat
    pub fn read(format: impl Into<u32>, image: &[u8]) -> Result<Self, Refused<Self>> {
        let mut work = vec![0; WORK_BYTES];
        let mut tracks = vec![record::Track::default(); TRACK_RECORDS];
        let mut words = vec![0; WARNING_WORDS];
        let answer = calls::read_disc(format, image, &mut work, &mut tracks, &mut words);
        Disc::checked(answer, work, tracks, words)
    }
}

impl<'m> Disc<'m> {
    /// Reads a disc from an image, into memory that is lent: refused by 2 if that is too small.
    ///
    /// ```
    /// # mod small_disc { include!(concat!(env!("CARGO_MANIFEST_DIR"), "/examples/small_disc.rs")); }
    /// # let image = small_disc::plain();
    /// use scarletbook::record::{TRACK_RECORDS, WARNING_WORDS, Track, WORK_BYTES};
    /// use scarletbook::{Disc, Memory, SectorFormat};
    ///
    /// let mut work = vec![0; WORK_BYTES];
    /// let mut tracks = vec![Track::default(); TRACK_RECORDS];
    /// let mut words = vec![0; WARNING_WORDS];
    /// for image in [&image, &image] {
    ///     let memory = Memory { work: &mut work, tracks: &mut tracks, words: &mut words };
    ///     let disc = Disc::read_in(SectorFormat::Plain, image, memory)?;
    ///     assert_eq!(disc.areas().count(), 2);
    /// }
    /// # Ok::<(), scarletbook::Refusal>(())
    /// ```
    pub fn read_in(
        format: impl Into<u32>,
        image: &[u8],
        memory: Memory<'m>,
    ) -> Result<Self, Refused<Self>> {
        let Memory { work, tracks, words } = memory;
        let answer = calls::read_disc(format, image, work, tracks, words);
        let (work, tracks, words): (&[u8], &[record::Track], &[u32]) = (work, tracks, words);
        Disc::checked(answer, work, tracks, words)
    }

    /// The disc, or why it was refused; 6 keeps what was read.
    fn checked(
        answer: record::DiscAnswer,
        work: impl Into<Cow<'m, [u8]>>,
        tracks: impl Into<Cow<'m, [record::Track]>>,
        words: impl Into<Cow<'m, [u32]>>,
    ) -> Result<Self, Refused<Self>> {
        let (work, tracks, words) = (work.into(), tracks.into(), words.into());
        let disc = Disc { answer, work, tracks, words, mappings: Mappings::new() };
        match Refusal::check(answer.refusal) {
            Ok(()) => Ok(disc),
            Err(refusal) => {
                let silent = (refusal == Refusal::NoArea).then(|| Box::new(disc));
                Err(Refused { refusal, silent })
            }
        }
    }

    /// The same disc, with mappings by which its texts of sets 3 to 6, and those of its areas and
    /// tracks, are decoded: see [`Mappings`]. They take the place of any that were lent before.
    ///
    /// ```
    /// # mod small_disc { include!(concat!(env!("CARGO_MANIFEST_DIR"), "/examples/small_disc.rs")); }
    /// # let mut image = small_disc::plain();
    /// # small_disc::put_in(&mut image, 510, 138, &[6]);
    /// # small_disc::put_in(&mut image, 511, 1024, b"\xa4\xa4 1\0");
    /// use scarletbook::{Disc, DiscTextItem, Mappings};
    ///
    /// // In `image` is a disc whose texts are of set 6: its album is A4 A4 20 31.
    /// let big5 = [2, 0x20, 0x20, 0x31, 0x31, 1, 0xa4a4, 0x4e2d, 0];
    /// let mappings = Mappings::new().with(6, &big5)?;
    /// let disc = Disc::read(0u32, &image)?.with_mappings(mappings);
    /// assert_eq!(disc.text(DiscTextItem::AlbumTitle)?.as_deref(), Some("中 1"));
    /// # Ok::<(), scarletbook::Refusal>(())
    /// ```
    pub fn with_mappings(self, mappings: Mappings<'m>) -> Self {
        Disc { mappings, ..self }
    }

    /// The master record.
    pub fn master(&self) -> &record::MasterToc {
        &self.answer.master
    }

    /// The format it was read in, by number; 0 after refusal 6.
    pub fn sector_format(&self) -> u32 {
        self.answer.sector_format
    }

    /// The whole sectors of the image; 0 after refusal 6.
    pub fn sectors(&self) -> usize {
        self.answer.sectors
    }

    /// The areas, in the order of their slots: none after refusal 6, else one or two.
    pub fn areas(&self) -> impl Iterator<Item = Area<'_>> {
        let lent = Lent::Disc { work: &self.work, tracks: &self.tracks };
        let areas = [&self.answer.two_channel, &self.answer.multichannel].into_iter();
        let areas = areas.filter(|area| area.present == 1);
        areas.map(move |record| Area::new(record, lent, self.mappings))
    }

    /// The area of a slot, 1 or 2.
    pub fn area(&self, slot: u8) -> Option<Area<'_>> {
        self.areas().find(|area| area.slot() == slot)
    }

    /// The warnings, in order.
    pub fn warnings(&self) -> impl Iterator<Item = Warning> {
        self.words[..self.answer.warnings]
            .iter()
            .map(|&word| Warning::from_word(word).expect("a word of the library"))
    }

    /// One of its texts, if there is one. Refused by 9 if it is of set 3 to 6 and no mapping of its set
    /// is lent, by 12 if the words lent for its set are no mapping.
    pub fn text(&self, item: DiscTextItem) -> Result<Option<String>, Refusal> {
        let (master, item) = (self.master(), item.index());
        let mapping = self.mappings.of(master.text_charset);
        decoded(|page| calls::decode_disc_text(&self.work, master, item, mapping, page))
    }

    /// How one of its texts ended, if there is one, also if it cannot be decoded.
    ///
    /// ```
    /// # mod small_disc { include!(concat!(env!("CARGO_MANIFEST_DIR"), "/examples/small_disc.rs")); }
    /// # let image = small_disc::plain();
    /// # let disc = scarletbook::Disc::read(0u32, &image)?;
    /// use scarletbook::{DiscTextItem, TextEnd};
    ///
    /// assert_eq!(disc.text_end(DiscTextItem::AlbumTitle), Some(TextEnd::ZeroByte));
    /// assert_eq!(disc.text_end(DiscTextItem::DiscTitle), None);
    /// # Ok::<(), scarletbook::Refusal>(())
    /// ```
    pub fn text_end(&self, item: DiscTextItem) -> Option<TextEnd> {
        self.master().text[item.index() as usize].end()
    }

    /// All its texts that are there.
    ///
    /// ```
    /// # mod small_disc { include!(concat!(env!("CARGO_MANIFEST_DIR"), "/examples/small_disc.rs")); }
    /// # let image = small_disc::plain();
    /// # let disc = scarletbook::Disc::read(0u32, &image)?;
    /// for (item, text) in disc.texts() {
    ///     assert_eq!((item.name(), text?.as_str()), ("album_title", "Café concert"));
    /// }
    /// # Ok::<(), scarletbook::Refusal>(())
    /// ```
    pub fn texts(&self) -> impl Iterator<Item = (DiscTextItem, Result<String, Refusal>)> {
        present(DiscTextItem::ALL, |item| self.text(item))
    }

    /// The 2,040 bytes of the manufacturer's sector, if there is one.
    pub fn manufacturer(&self) -> Option<&[u8]> {
        let sector = REGIONS[2] + MANUFACTURER_SECTOR * SECTOR_SIZE;
        let bytes = &self.work[sector + MANUFACTURER_AT..sector + SECTOR_SIZE];
        (self.master().manufacturer == 1).then_some(bytes)
    }
}
