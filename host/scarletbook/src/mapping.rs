//! Mappings: what texts of the character sets 3 to 6 are decoded by.

use crate::calls;
use crate::refusal::Refusal;
use std::fmt;

/// The sets that are decoded by a mapping are so many from this one on.
const FIRST_SET: u8 = 3;
const SETS: usize = 4;

/// A mapping for each of the character sets 3 (Shift JIS X 0213), 4 (EUC-KR), 5 (EUC-CN) and 6 (Big5), or
/// none. They are lent once to a disc ([`Disc::with_mappings`](crate::Disc::with_mappings)) or to a lone
/// table ([`Table::with_mappings`](crate::Table::with_mappings)), whose texts are then decoded by the mapping
/// of the set that their record names.
///
/// ```
/// # mod small_disc { include!(concat!(env!("CARGO_MANIFEST_DIR"), "/examples/small_disc.rs")); }
/// # let image = small_disc::plain();
/// use scarletbook::{Disc, Mappings, Refusal, SectorFormat, TrackTextItem};
///
/// // No singles; two pairs, the first of which has a double as its value; that double.
/// let shift_jis = [0, 2, 0x82f5, 0x8000_0000, 0x8f91, 0x66f8, 1, 0x304b, 0x309a];
/// let mappings = Mappings::new().with(3, &shift_jis)?;
///
/// let disc = Disc::read(SectorFormat::Plain, &image)?;
/// let title = |disc: &Disc| disc.area(2).unwrap().track(1).unwrap().text(TrackTextItem::Title);
/// assert_eq!(title(&disc), Err(Refusal::SetNotHeld));
/// assert_eq!(title(&disc.with_mappings(mappings)), Ok(Some("書".to_owned())));
/// # Ok::<(), scarletbook::Refusal>(())
/// ```
///
/// The words of a mapping are a count of singles, then for each its byte and its value; a count of pairs,
/// then for each its key, 256 times the first byte + the second, and its value; a count of doubles, then for
/// each two code points. A value is a code point, or 2³¹ + the place of a double, from 0. Keys rise strictly
/// in each list. What is no such list, or has a key beyond its width, a surrogate or a code point above
/// 10FFFF, is refused by 12 where a text needs it, and only there.
///
/// Each decoding of a text of set 3 to 6 checks the whole mapping: about 0.25 ns a word, 3 µs for 7,000
/// pairs and 10 µs for 24,000. Latin-1 and absent texts are decoded without a look at it.
#[derive(Clone, Copy, Default, PartialEq, Eq)]
pub struct Mappings<'a>([&'a [u32]; SETS]);

impl<'a> Mappings<'a> {
    /// None yet: texts of sets 3 to 6 are refused by 9.
    pub const fn new() -> Self {
        Mappings([&[]; SETS])
    }

    /// These, with the words of a mapping for a set; no words are none. Refused by 8 for a set other
    /// than 3, 4, 5 and 6.
    ///
    /// ```
    /// use scarletbook::{Mappings, Refusal};
    ///
    /// let empty = [0, 0, 0];
    /// assert_eq!(Mappings::new().with(6, &empty)?.of(6), empty);
    /// assert_eq!(Mappings::new().with(2, &empty), Err(Refusal::NoSuchEntry));
    /// # Ok::<(), scarletbook::Refusal>(())
    /// ```
    pub fn with(mut self, set: u8, words: &'a [u32]) -> Result<Self, Refusal> {
        let place = set.checked_sub(FIRST_SET).map(usize::from);
        let held = place.and_then(|place| self.0.get_mut(place)).ok_or(Refusal::NoSuchEntry)?;
        *held = words;
        Ok(self)
    }

    /// The words for the set that a record's code names; none for a code of Latin-1.
    pub fn of(&self, code: u8) -> &'a [u32] {
        let place = calls::charset(code).checked_sub(FIRST_SET).map(usize::from);
        place.and_then(|place| self.0.get(place)).copied().unwrap_or_default()
    }
}

/// How many words there are for each set.
impl fmt::Debug for Mappings<'_> {
    fn fmt(&self, f: &mut fmt::Formatter<'_>) -> fmt::Result {
        f.debug_map().entries((FIRST_SET..).zip(self.0.map(<[u32]>::len))).finish()
    }
}
