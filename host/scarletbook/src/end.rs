//! How a stored string ended.

use crate::record::{ENDED_BY_MAX_BYTES, ENDED_BY_TABLE_END, ENDED_BY_ZERO_BYTE};

/// How the stored string of a text ended. One that ended otherwise than by a zero byte may not be
/// all that was meant to be stored.
///
/// ```
/// use scarletbook::{TextEnd, raw};
///
/// let end = |table: &[u8]| TextEnd::of_number(raw::string_end(table, 0));
/// assert_eq!(end(b"Title\0"), Some(TextEnd::ZeroByte));
/// assert_eq!(end(&[b'a'; 4097]), Some(TextEnd::MaxBytes));
/// assert_eq!(end(b"Title"), Some(TextEnd::TableEnd));
/// ```
#[derive(Clone, Copy, Debug, PartialEq, Eq, Hash)]
#[repr(u8)]
pub enum TextEnd {
    /// By a zero byte.
    ZeroByte = ENDED_BY_ZERO_BYTE,
    /// By its 4,096 bytes, the most that a string has, whatever stands behind them: a zero byte or
    /// the end of the table too.
    MaxBytes = ENDED_BY_MAX_BYTES,
    /// By the end of its table; of a text of the disc, that of sector 1 of the master table.
    TableEnd = ENDED_BY_TABLE_END,
}

impl TextEnd {
    /// Each, by number.
    pub const ALL: [TextEnd; 3] = [TextEnd::ZeroByte, TextEnd::MaxBytes, TextEnd::TableEnd];

    /// Its number, by which the library knows it.
    pub fn number(self) -> u8 {
        self as u8
    }

    /// That of a number; nothing for 0, which an absent text has, and for any other number.
    pub fn of_number(number: u8) -> Option<TextEnd> {
        TextEnd::ALL.into_iter().find(|end| end.number() == number)
    }
}
