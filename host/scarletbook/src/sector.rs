//! The sectors of an image: formats, counts, fingerprints and headers.

use crate::calls;
use crate::record::{BLANK, SOUND, UNSOUND};
use crate::refusal::Refusal;

/// How the sectors of an image are stored.
#[derive(Clone, Copy, Debug, PartialEq, Eq, Hash)]
pub enum SectorFormat {
    /// 2,048 bytes a sector, all of them data.
    Plain = 0,
    /// 2,054 bytes a sector, data from byte 6.
    Raw2054 = 1,
    /// 2,064 bytes a sector, data from byte 12, behind a header of 12 bytes.
    Raw2064 = 2,
}

impl SectorFormat {
    /// Every format, by number.
    pub const ALL: [SectorFormat; 3] =
        [SectorFormat::Plain, SectorFormat::Raw2054, SectorFormat::Raw2064];

    /// Its number, by which the library knows it.
    pub fn number(self) -> u32 {
        self as u32
    }

    /// The format of a number; any other is refused by 1.
    pub fn of_number(number: u32) -> Result<Self, Refusal> {
        let format = SectorFormat::ALL.into_iter().find(|format| format.number() == number);
        format.ok_or(Refusal::ForeignFormat)
    }

    /// The format of an image: the first of plain, 2,064 and 2,054 bytes a sector in which LSN 510
    /// begins `SACDMTOC`. Refused by 4 if there is none.
    pub fn detect(image: &[u8]) -> Result<Self, Refusal> {
        let answer = calls::detect_format(image);
        Refusal::check(answer.refusal)?;
        SectorFormat::of_number(answer.sector_format)
    }

    /// The whole sectors of an image of so many bytes.
    pub fn sector_count(self, bytes: usize) -> usize {
        calls::sector_count(self, bytes)
    }
}

impl From<SectorFormat> for u32 {
    fn from(format: SectorFormat) -> u32 {
        format.number()
    }
}

/// The fingerprint of a sector: FNV-1a, 64 bits, of its 2,048 data bytes. Refused by 1 for a foreign
/// format, by 8 if it is not in the image.
///
/// ```
/// use scarletbook::{Refusal, SectorFormat, digest, fingerprint};
///
/// let image = vec![7; 2 * 2048];
/// assert_eq!(fingerprint(SectorFormat::Plain, &image, 1), Ok(digest(&[7; 2048])));
/// assert_eq!(fingerprint(SectorFormat::Plain, &image, 2), Err(Refusal::NoSuchEntry));
/// ```
pub fn fingerprint(format: impl Into<u32>, image: &[u8], lsn: u32) -> Result<u64, Refusal> {
    let answer = calls::fingerprint(format, image, lsn);
    Refusal::check(answer.refusal).map(|()| answer.digest)
}

/// What the header of a sector is (ECMA-267), by its six bytes alone.
#[derive(Clone, Copy, Debug, PartialEq, Eq, Hash)]
#[repr(u8)]
pub enum Header {
    /// A multiple of (x + 1)(x + α), and not blank.
    Sound = SOUND,
    /// Six zero bytes, as in unwritten stretches.
    Blank = BLANK,
    /// No multiple.
    Unsound = UNSOUND,
}

impl Header {
    /// Each, by number.
    pub const ALL: [Header; 3] = [Header::Sound, Header::Blank, Header::Unsound];

    /// The library's verdict for it.
    pub fn number(self) -> u8 {
        self as u8
    }

    /// That of a verdict; nothing for any other number.
    pub fn of_number(number: u8) -> Option<Header> {
        Header::ALL.into_iter().find(|header| header.number() == number)
    }
}

/// What the header of a sector is: sound (ECMA-267), blank or unsound. Refused by 1 for a foreign
/// format, by 11 unless sectors have 2,064 bytes, by 8 if it is not in the image.
///
/// ```
/// use scarletbook::{Header, SectorFormat, audit};
///
/// let mut image = vec![0; 3 * 2064];
/// image[..6].copy_from_slice(&[0, 0, 0, 1, 3, 2]);
/// image[2 * 2064..][..6].copy_from_slice(&[0, 0, 0, 1, 2, 3]);
/// assert_eq!(audit(SectorFormat::Raw2064, &image, 0), Ok(Header::Sound));
/// assert_eq!(audit(SectorFormat::Raw2064, &image, 1), Ok(Header::Blank));
/// assert_eq!(audit(SectorFormat::Raw2064, &image, 2), Ok(Header::Unsound));
/// ```
pub fn audit(format: impl Into<u32>, image: &[u8], lsn: u32) -> Result<Header, Refusal> {
    let answer = calls::audit(format, image, lsn);
    Refusal::check(answer.refusal)?;
    Ok(Header::of_number(answer.verdict).expect("a verdict of the library"))
}

/// Mends the header of a sector: the one correct header, a multiple of (x + 1)(x + α) (ECMA-267), that
/// differs from it in at most one place. A blank header counts as correct here. A correct header comes
/// back as it is, and a correct one with one byte changed always comes back as it was. The image is
/// never written.
///
/// This is the nearest correct header, and no proof of what was written: a header with two or more bad
/// bytes can lie one place from another correct one, and then comes back as that one. Of six random
/// bytes, 1,531 in 65,536 mend (2.3 %).
///
/// Refused by 1 for a foreign format, by 11 unless sectors have 2,064 bytes, by 8 if it is not in the
/// image, by 14 exactly when there is no such header.
///
/// ```
/// use scarletbook::{Refusal, SectorFormat, mend};
///
/// let mut image = vec![0; 3 * 2064];
/// image[..6].copy_from_slice(&[0, 0, 7, 1, 3, 2]);
/// image[2064..][..6].copy_from_slice(&[0, 0, 0, 0, 0, 1]);
/// image[2 * 2064..][..6].copy_from_slice(&[0, 0, 0, 1, 2, 3]);
/// assert_eq!(mend(SectorFormat::Raw2064, &image, 0), Ok([0, 0, 0, 1, 3, 2]));
/// assert_eq!(mend(SectorFormat::Raw2064, &image, 1), Ok([0; 6]));
/// assert_eq!(mend(SectorFormat::Raw2064, &image, 2), Err(Refusal::BeyondMending));
/// ```
pub fn mend(format: impl Into<u32>, image: &[u8], lsn: u32) -> Result<[u8; 6], Refusal> {
    let answer = calls::mend(format, image, lsn);
    Refusal::check(answer.refusal).map(|()| answer.header)
}

/// FNV-1a, 64 bits, of any bytes.
///
/// ```
/// assert_eq!(scarletbook::digest(b"foobar"), 0x8594_4171_f739_67e8);
/// ```
pub fn digest(bytes: &[u8]) -> u64 {
    calls::digest(bytes)
}
