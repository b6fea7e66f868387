//! Warnings: what was met in a reading that did not refuse it.

use std::fmt;

/// A warning: its code, and the slot and the track that it is about.
#[derive(Clone, Copy, Debug, PartialEq, Eq, Hash)]
pub struct Warning {
    pub code: WarningCode,
    /// 1 or 2; 0 for a warning of the disc.
    pub slot: u8,
    /// The track's number; 0 for none.
    pub track: u8,
}

impl Warning {
    /// The warning of a word, code times 65,536 + slot times 256 + track; nothing if no warning has
    /// the code.
    ///
    /// ```
    /// use scarletbook::Warning;
    ///
    /// let warning = Warning::from_word(15 * 65_536 + 256 + 3).unwrap();
    /// assert_eq!(warning.to_string(), "area 1, track 3: starts outside the area's sectors");
    /// assert_eq!(Warning::from_word(0), None);
    /// ```
    pub fn from_word(word: u32) -> Option<Self> {
        let [_, number, slot, track] = word.to_be_bytes();
        let code = WarningCode::ALL.into_iter().find(|code| code.number() == number)?;
        Some(Warning { code, slot, track })
    }
}

/// In words, as in `area 1, track 3: starts outside the area's sectors`.
impl fmt::Display for Warning {
    fn fmt(&self, f: &mut fmt::Formatter<'_>) -> fmt::Result {
        match (self.slot, self.track) {
            (0, _) => write!(f, "disc: {}", self.code.words()),
            (slot, 0) => write!(f, "area {slot}: {}", self.code.words()),
            (slot, track) => write!(f, "area {slot}, track {track}: {}", self.code.words()),
        }
    }
}

macro_rules! codes {
    ($($(#[doc = $words:literal])* $name:ident = $number:literal $code:literal,)*) => {
        /// What a warning says: 1 to 18 in the order of `WarningCode` of aclater/scarletbook-rs, which has no 19.
        #[derive(Clone, Copy, Debug, PartialEq, Eq, Hash, PartialOrd, Ord)]
        #[repr(u8)]
        pub enum WarningCode {
            $($(#[doc = $words])* $name = $number,)*
        }

        impl WarningCode {
            /// Every code, by number.
            pub const ALL: [WarningCode; 19] = [$(WarningCode::$name),*];

            /// Its number, 1 to 19.
            pub fn number(self) -> u8 {
                self as u8
            }

            /// Its name in a catalogue; of 1 to 18, as aclater/scarletbook-rs has it.
            pub fn code(self) -> &'static str {
                match self { $(WarningCode::$name => $code,)* }
            }

            /// What it says, in words.
            pub fn words(self) -> &'static str {
                match self { $(WarningCode::$name => concat!($($words),*).trim_ascii(),)* }
            }
        }
    };
}

codes! {
    /// no disc texts, though text channels are counted
    MasterTextMissing = 1 "master-text-missing",
    /// no manufacturer's sector
    ManufacturerMissing = 2 "manufacturer-missing",
    /// its table has more than 128 sectors; left out
    AreaTocTooLarge = 3 "area-toc-too-large",
    /// the first copy of its table cannot be read
    AreaToc1Unreadable = 4 "area-toc1-unreadable",
    /// the second copy of its table cannot be read
    AreaToc2Unreadable = 5 "area-toc2-unreadable",
    /// the two copies of its table differ
    AreaTocCopiesDiffer = 6 "area-toc-copies-differ",
    /// no copy of its table can be read; left out
    AreaTocUnreadable = 7 "area-toc-unreadable",
    /// its table begins with neither TWOCHTOC nor MULCHTOC; left out
    AreaSignatureInvalid = 8 "area-signature-invalid",
    /// its table has no list of tracks; left out
    AreaTrackListMissing = 9 "area-track-list-missing",
    /// its list of ISRCs and genres ends behind its table; left out
    AreaTocMalformed = 10 "area-toc-malformed",
    /// its audio ends before it starts; left out
    AreaAudioRangeReversed = 11 "area-audio-range-reversed",
    /// its texts are placed behind the table
    TrackTextOffsetInvalid = 12 "track-text-offset-invalid",
    /// has a text of an unknown type
    TrackTextTypeUnknown = 13 "track-text-type-unknown",
    /// ends after the area's play time; cut to it
    TrackPastPlaytime = 14 "track-past-playtime",
    /// starts outside the area's sectors
    TrackLsnOutsideArea = 15 "track-lsn-outside-area",
    /// a malformed audio sector
    AudioSectorMalformed = 16 "audio-sector-malformed",
    /// a copy of the master table differs
    MasterTocCopiesDiffer = 17 "master-toc-copies-differ",
    /// its sample frequency code is not that of DSD64
    SampleFrequencyUnknown = 18 "sample-frequency-unknown",
    /// has a text not ended by a zero byte
    TrackTextUnterminated = 19 "track-text-unterminated",
}
