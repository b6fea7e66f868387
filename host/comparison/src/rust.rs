//! The customer's Rust, asked the questions of the comparison.

use generate::question::Run;
use oracle::error::Error;
use oracle::image::{Image, SectorFormat};
use oracle::text::{self, Charset};
use scarletbook::raw::{FixedText, LanguageCode};
use std::io::{self, Cursor, Read, Seek, SeekFrom};

/// An image of the Rust over lent bytes.
pub type Lent<'a> = Image<Cursor<&'a [u8]>>;

/// What no rule gives: the Rust failed in another way.
pub const FAILED: u8 = 255;

/// The format of a number; nothing for a foreign one.
pub fn sector_format(format: u32) -> Option<SectorFormat> {
    match format {
        0 => Some(SectorFormat::Plain),
        1 => Some(SectorFormat::Raw2054),
        2 => Some(SectorFormat::Raw2064),
        _ => None,
    }
}

/// The number of a format.
pub fn format_number(format: SectorFormat) -> u32 {
    match format {
        SectorFormat::Plain => 0,
        SectorFormat::Raw2054 => 1,
        SectorFormat::Raw2064 => 2,
        _ => u32::MAX,
    }
}

/// The image opened with this format; nothing for a foreign one.
pub fn open<R: Read + Seek>(format: u32, reader: R) -> Option<Image<R>> {
    let options = Image::options().with_format(sector_format(format)?);
    Some(options.open(reader).expect("finding the length does not fail"))
}

/// Reads the run into a part of a buffer that has its size; the refusal.
pub fn read(image: &mut Lent, run: Run, part: &mut [u8]) -> u8 {
    match image.read_sectors(u64::from(run.lsn), part) {
        Ok(()) => 0,
        Err(Error::SectorRangeInvalid { .. }) => 8,
        Err(_) => FAILED,
    }
}

/// The number of the set that a code names; 0 for Latin-1.
pub fn charset(code: u8) -> u8 {
    match Charset::from_code(code) {
        Charset::Latin1 => 0,
        Charset::ShiftJisX0213 => 3,
        Charset::EucKr => 4,
        Charset::EucCn => 5,
        Charset::Big5 => 6,
    }
}

/// The text of a string's bytes, in the set that a code names; nothing if it is absent.
pub fn decode(bytes: &[u8], code: u8) -> Option<String> {
    text::decode_string(bytes, Charset::from_code(code))
}

/// The stored text of a field's first 16 bytes.
pub fn fixed_bytes(field: &[u8]) -> FixedText {
    let (bytes, len) = padded(text::fixed_bytes(first_16(field)));
    FixedText { bytes, len }
}

/// The trimmed text of a field's first 16 bytes.
pub fn fixed_text(field: &[u8]) -> FixedText {
    let (bytes, len) = padded(&one_a_character(&text::fixed_text(first_16(field))));
    FixedText { bytes, len }
}

/// The language that two characters name.
pub fn language(code: [u8; 2]) -> LanguageCode {
    let (bytes, len) = padded(&one_a_character(&text::language(code)));
    LanguageCode { bytes, len }
}

fn first_16(field: &[u8]) -> &[u8] {
    &field[..field.len().min(16)]
}

/// The characters of a text as bytes; 0 for one that Latin-1 does not have.
pub fn one_a_character(text: &str) -> Vec<u8> {
    text.chars().map(|c| u8::try_from(c).unwrap_or(0)).collect()
}

/// A text in `N` bytes, zero past it, and its length.
pub fn padded<const N: usize>(text: &[u8]) -> ([u8; N], u8) {
    let mut bytes = [0; N];
    bytes[..text.len()].copy_from_slice(text);
    (bytes, text.len() as u8)
}

/// A reader of which only the length is known.
pub struct Length(pub u64);

impl Read for Length {
    fn read(&mut self, _: &mut [u8]) -> io::Result<usize> {
        Err(io::ErrorKind::Unsupported.into())
    }
}

impl Seek for Length {
    fn seek(&mut self, to: SeekFrom) -> io::Result<u64> {
        match to {
            SeekFrom::End(0) => Ok(self.0),
            _ => Err(io::ErrorKind::Unsupported.into()),
        }
    }
}
