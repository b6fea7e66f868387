//! Refusals: their numbers and words.

use std::error::Error;
use std::fmt;

/// Why a call was refused, by its number.
#[derive(Clone, Copy, Debug, PartialEq, Eq, Hash, PartialOrd, Ord)]
#[repr(u8)]
pub enum Refusal {
    /// The format is not 0, 1 or 2.
    ForeignFormat = 1,
    /// A lent buffer is too short.
    ShortBuffer = 2,
    /// The image has fewer than 520 whole sectors.
    CutMaster = 3,
    /// LSN 510 does not begin `SACDMTOC`.
    NotScarletBook = 4,
    /// The major version of the master table is above 1.
    NewerEdition = 5,
    /// The lone table, or neither slot of the disc, yields an area.
    NoArea = 6,
    /// The table has 0 bytes, over 262,144 or no multiple of 2,048.
    OddTable = 7,
    /// A sector is not in the image, or there is no such track, item or area; of
    /// [`Mappings`](crate::Mappings), no such set.
    NoSuchEntry = 8,
    /// The text is of set 3, 4, 5 or 6, and no mapping of its set is lent.
    SetNotHeld = 9,
    /// The decoded text is longer than the lent page.
    ShortPage = 10,
    /// Sectors of this format have no header.
    NoHeader = 11,
    /// The text is of set 3, 4, 5 or 6, and the words lent for its set are no mapping.
    BadMapping = 12,
    /// No correct header differs from this one in at most one place.
    BeyondMending = 14,
    /// The two buffers are not of equal length.
    UnequalLengths = 20,
}

impl Refusal {
    /// Every refusal, by number.
    pub const ALL: [Refusal; 14] = [
        Refusal::ForeignFormat,
        Refusal::ShortBuffer,
        Refusal::CutMaster,
        Refusal::NotScarletBook,
        Refusal::NewerEdition,
        Refusal::NoArea,
        Refusal::OddTable,
        Refusal::NoSuchEntry,
        Refusal::SetNotHeld,
        Refusal::ShortPage,
        Refusal::NoHeader,
        Refusal::BadMapping,
        Refusal::BeyondMending,
        Refusal::UnequalLengths,
    ];

    /// Its number, 1 to 12, 14 or 20.
    pub fn number(self) -> u8 {
        self as u8
    }

    /// Its word.
    pub fn word(self) -> &'static str {
        match self {
            Refusal::ForeignFormat => "foreign format",
            Refusal::ShortBuffer => "short bench",
            Refusal::CutMaster => "cut master",
            Refusal::NotScarletBook => "not Scarlet Book",
            Refusal::NewerEdition => "newer edition",
            Refusal::NoArea => "silent disc",
            Refusal::OddTable => "odd table",
            Refusal::NoSuchEntry => "no such entry",
            Refusal::SetNotHeld => "set not held",
            Refusal::ShortPage => "short page",
            Refusal::NoHeader => "no header",
            Refusal::BadMapping => "bad mapping",
            Refusal::BeyondMending => "beyond mending",
            Refusal::UnequalLengths => "unequal lengths",
        }
    }

    /// The refusal of a number; nothing for a number that no refusal has.
    ///
    /// ```
    /// use scarletbook::{Refusal, raw};
    ///
    /// let answer = raw::audit(0u32, &[], 0);
    /// assert_eq!(Refusal::of_number(answer.refusal), Some(Refusal::NoHeader));
    /// ```
    pub fn of_number(number: u8) -> Option<Refusal> {
        Refusal::ALL.into_iter().find(|refusal| refusal.number() == number)
    }

    /// The refusal of an answer, whose number is 0 for none.
    pub(crate) fn check(number: u8) -> Result<(), Refusal> {
        match number {
            0 => Ok(()),
            number => Err(Refusal::of_number(number).expect("a number of the library")),
        }
    }
}

/// As in `refused 4: not Scarlet Book`.
impl fmt::Display for Refusal {
    fn fmt(&self, f: &mut fmt::Formatter<'_>) -> fmt::Result {
        write!(f, "refused {}: {}", self.number(), self.word())
    }
}

impl Error for Refusal {}

/// A reading that was refused. Refusal 6 ([`Refusal::NoArea`]) has what was read: a disc's master
/// record and warnings, a lone table's warnings, without an area.
///
/// `?` makes it a [`Refusal`]. Where the error is a `Box<dyn Error>` and memory or a table is lent,
/// `map_err(Refusal::from)` comes first, since the box must not borrow.
///
/// ```
/// # mod small_disc { include!(concat!(env!("CARGO_MANIFEST_DIR"), "/examples/small_disc.rs")); }
/// # let mut image = small_disc::plain();
/// # small_disc::put_in(&mut image, 510, 84, &[0; 4]);
/// use scarletbook::{Disc, DiscTextItem, Refusal, SectorFormat};
///
/// let refused = Disc::read(SectorFormat::Plain, &image).unwrap_err();
/// assert_eq!(refused.refusal(), Refusal::NoArea);
/// assert_eq!(refused.to_string(), "refused 6: silent disc");
/// let disc = refused.silent().unwrap();
/// assert_eq!(disc.text(DiscTextItem::AlbumTitle)?.as_deref(), Some("Café concert"));
/// assert_eq!(disc.warnings().count(), 1);
/// # Ok::<(), scarletbook::Refusal>(())
/// ```
#[derive(Clone)]
pub struct Refused<T> {
    pub(crate) refusal: Refusal,
    pub(crate) silent: Option<Box<T>>,
}

impl<T> Refused<T> {
    /// Why.
    pub fn refusal(&self) -> Refusal {
        self.refusal
    }

    /// What refusal 6 has.
    pub fn silent(&self) -> Option<&T> {
        self.silent.as_deref()
    }

    /// What refusal 6 has, by value.
    pub fn into_silent(self) -> Option<T> {
        self.silent.map(|silent| *silent)
    }

    /// The same refusal, with a change made to what refusal 6 has.
    pub fn map(self, change: impl FnOnce(T) -> T) -> Self {
        Refused { silent: self.silent.map(|silent| Box::new(change(*silent))), ..self }
    }
}

impl<T> fmt::Display for Refused<T> {
    fn fmt(&self, f: &mut fmt::Formatter<'_>) -> fmt::Result {
        self.refusal.fmt(f)
    }
}

/// Without what refusal 6 has.
impl<T> fmt::Debug for Refused<T> {
    fn fmt(&self, f: &mut fmt::Formatter<'_>) -> fmt::Result {
        f.debug_struct("Refused").field("refusal", &self.refusal).finish_non_exhaustive()
    }
}

impl<T> Error for Refused<T> {}

impl<T> From<Refused<T>> for Refusal {
    fn from(refused: Refused<T>) -> Refusal {
        refused.refusal
    }
}
