//! What a reading gave.

use scarletbook::raw::sector_count;
use scarletbook::{Disc, Mappings, Refusal, Refused};

/// Reads an image in a format. The texts of the disc are decoded by mappings, those of one that yields no
/// area too.
pub fn read<'a>(
    format: u32,
    image: &[u8],
    mappings: Mappings<'a>,
) -> Result<Disc<'a>, Refused<Disc<'a>>> {
    match Disc::read(format, image) {
        Ok(disc) => Ok(disc.with_mappings(mappings)),
        Err(refused) => Err(refused.map(|disc| disc.with_mappings(mappings))),
    }
}

/// A disc, or why it was refused. Refusal 6 has both: a disc without areas.
#[derive(Clone, Copy, Debug)]
pub struct Reading<'a> {
    pub refusal: Option<Refusal>,
    pub disc: Option<&'a Disc<'a>>,
    pub format: u32,
    /// The whole sectors of the image in this format.
    pub sectors: usize,
}

impl<'a> Reading<'a> {
    /// What reading an image in a format gave.
    pub fn new(format: u32, image: &[u8], read: &'a Result<Disc, Refused<Disc>>) -> Self {
        let sectors = sector_count(format, image.len());
        let (refusal, disc) = match read {
            Ok(disc) => (None, Some(disc)),
            Err(refused) => (Some(refused.refusal()), refused.silent()),
        };
        Reading { refusal, disc, format, sectors }
    }
}
