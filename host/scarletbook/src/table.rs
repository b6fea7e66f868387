//! A lone area table, read without a disc.

use crate::area::{Area, Lent};
use crate::calls;
use crate::end::TextEnd;
use crate::mapping::Mappings;
use crate::record::{self, MAX_TRACKS, TABLE_WORDS};
use crate::refusal::{Refusal, Refused};
use crate::warning::Warning;
use std::borrow::Cow;
use std::fmt;

/// A lone table that was read as slot 1 with address 0, its tracks in memory of its own or in memory
/// that was lent.
#[derive(Clone)]
pub struct Table<'m> {
    answer: record::TableAnswer,
    table: &'m [u8],
    tracks: Cow<'m, [record::Track]>,
    words: Cow<'m, [u32]>,
    mappings: Mappings<'m>,
}

/// Without its memory.
impl fmt::Debug for Table<'_> {
    fn fmt(&self, f: &mut fmt::Formatter<'_>) -> fmt::Result {
        f.debug_struct("Table").field("answer", &self.answer).finish_non_exhaustive()
    }
}

impl<'m> Table<'m> {
    /// Reads a table of whole sectors, 128 at most, into memory of its own.
    ///
    /// ```
    /// # mod small_disc { include!(concat!(env!("CARGO_MANIFEST_DIR"), "/examples/small_disc.rs")); }
    /// # let image = small_disc::plain();
    /// # let bytes = &image[540 * 2048..547 * 2048];
    /// use scarletbook::Table;
    ///
    /// let table = Table::read(bytes)?;
    /// let area = table.area().unwrap();
    /// assert_eq!(area.track(2).unwrap().isrc().as_deref(), Some("JPABC2600002"));
    /// # Ok::<(), scarletbook::Refusal>(())
    /// ```
    pub fn read(table: &'m [u8]) -> Result<Self, Refused<Self>> {
        let mut tracks = vec![record::Track::default(); MAX_TRACKS];
        let mut words = vec![0; TABLE_WORDS];
        let answer = calls::read_table(table, &mut tracks, &mut words);
        Table::checked(answer, table, tracks, words)
    }

    /// Reads a table into memory that is lent: refused by 2 with fewer than 255 track records or
    /// 1,021 warning words.
    pub fn read_in(
        table: &'m [u8],
        tracks: &'m mut [record::Track],
        words: &'m mut [u32],
    ) -> Result<Self, Refused<Self>> {
        let answer = calls::read_table(table, tracks, words);
        let (tracks, words): (&[record::Track], &[u32]) = (tracks, words);
        Table::checked(answer, table, tracks, words)
    }

    /// The table, or why it was refused; 6 keeps its warnings.
    fn checked(
        answer: record::TableAnswer,
        table: &'m [u8],
        tracks: impl Into<Cow<'m, [record::Track]>>,
        words: impl Into<Cow<'m, [u32]>>,
    ) -> Result<Self, Refused<Self>> {
        let (tracks, words) = (tracks.into(), words.into());
        let table = Table { answer, table, tracks, words, mappings: Mappings::new() };
        match Refusal::check(answer.refusal) {
            Ok(()) => Ok(table),
            Err(refusal) => {
                let silent = (refusal == Refusal::NoArea).then(|| Box::new(table));
                Err(Refused { refusal, silent })
            }
        }
    }

    /// The same table, with mappings by which its texts of sets 3 to 6, and those of its tracks, are
    /// decoded: see [`Mappings`]. They take the place of any that were lent before.
    ///
    /// ```
    /// # mod small_disc { include!(concat!(env!("CARGO_MANIFEST_DIR"), "/examples/small_disc.rs")); }
    /// # let bytes = small_disc::area_table(b"TWOCHTOC", 4, &[b"\xb0\xa1"], 7);
    /// use scarletbook::{Mappings, Table, TrackTextItem};
    ///
    /// // In `bytes` is a table whose texts are of set 4: the title of its track is B0 A1.
    /// let euc_kr = [0, 1, 0xb0a1, 0xac00, 0];
    /// let table = Table::read(&bytes)?.with_mappings(Mappings::new().with(4, &euc_kr)?);
    /// let track = table.area().unwrap().track(1).unwrap();
    /// assert_eq!(track.text(TrackTextItem::Title)?.as_deref(), Some("가"));
    /// # Ok::<(), scarletbook::Refusal>(())
    /// ```
    pub fn with_mappings(self, mappings: Mappings<'m>) -> Self {
        Table { mappings, ..self }
    }

    /// Its area; nothing after refusal 6.
    pub fn area(&self) -> Option<Area<'_>> {
        let lent = Lent::Table { table: self.table, tracks: &self.tracks };
        let area = || Area::new(&self.answer.area, lent, self.mappings);
        (self.answer.area.present == 1).then(area)
    }

    /// The warnings, in order.
    pub fn warnings(&self) -> impl Iterator<Item = Warning> {
        self.words[..self.answer.warnings]
            .iter()
            .map(|&word| Warning::from_word(word).expect("a word of the library"))
    }
}

/// An item of a track's text: its type byte, its string, as stored, and how that ended.
#[derive(Clone, Copy, Debug, PartialEq, Eq)]
pub struct TextItem<'a> {
    pub kind: u8,
    pub bytes: &'a [u8],
    pub end: TextEnd,
}

/// The items of a track's text, drawn one by one from a table, a place and a count of items, empty
/// and unknown ones included.
///
/// ```
/// use scarletbook::{Items, TextEnd};
///
/// let table = b"\x01\0Title\0\x02\0Performer";
/// let items: Vec<_> =
///     Items::new(table, 0, 2).map(|item| (item.kind, item.bytes, item.end)).collect();
/// let title = (1, &b"Title"[..], TextEnd::ZeroByte);
/// assert_eq!(items, [title, (2, b"Performer", TextEnd::TableEnd)]);
/// ```
#[derive(Clone, Debug)]
pub struct Items<'a> {
    table: &'a [u8],
    next: usize,
    left: usize,
}

impl<'a> Items<'a> {
    /// Draws so many items at most, from a place on.
    pub fn new(table: &'a [u8], place: usize, items: usize) -> Self {
        Items { table, next: place, left: items }
    }
}

impl<'a> Iterator for Items<'a> {
    type Item = TextItem<'a>;

    fn next(&mut self) -> Option<TextItem<'a>> {
        let drawn = calls::draw_at(self.table, self.next, self.left);
        (self.next, self.left) = (drawn.next, drawn.left);
        if drawn.found == 0 {
            return None;
        }
        let bytes = self.table.get(drawn.place..)?.get(..drawn.len)?;
        let end = TextEnd::of_number(calls::string_end(self.table, drawn.place));
        Some(TextItem { kind: drawn.kind, bytes, end: end.expect("an end of the library") })
    }
}
