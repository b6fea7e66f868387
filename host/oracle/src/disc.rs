//! A disc, asked of the customer's `read_toc`.

use crate::error::{Error, Slot, Warning};
use crate::image::{Image, SectorFormat};
use crate::lone::Times;
use crate::toc::{Area, MasterToc, Toc, TocStored, private, read_toc};
use std::io::Cursor;

/// What an image gives.
#[derive(Debug)]
pub enum Disc {
    Accepted(Toc, Vec<Warning>),
    /// No slot yields an area: the master record, and the warnings.
    Silent(MasterToc, Vec<Warning>),
    Refused(Error),
}

/// The stored times of an accepted disc's tracks, which a `Toc` does not have.
#[derive(Debug, Default)]
pub struct Stored(TocStored);

impl Stored {
    /// The start and the duration of a track, by its number from 1.
    pub fn timecodes(&self, slot: Slot, number: u8) -> Option<Times> {
        self.0.track_timecodes(slot, number.into())
    }

    /// Those of an area's tracks in their order, up to the first that has none.
    pub fn times(&self, area: &Area) -> Vec<Times> {
        let tracks = area.tracks.iter();
        tracks.map_while(|track| self.timecodes(area.slot, track.number)).collect()
    }
}

/// Reads an image that is opened with this format.
pub fn read_disc(format: SectorFormat, image: &[u8]) -> Disc {
    read_stored(format, image).0
}

/// The same, with the stored times.
pub fn read_stored(format: SectorFormat, image: &[u8]) -> (Disc, Stored) {
    let disc = match open(format, image).and_then(|mut image| read_toc(&mut image)) {
        Ok((toc, warnings, _, stored)) => return (Disc::Accepted(toc, warnings), Stored(stored)),
        Err(Error::NoAudioAreas) => read_silent(format, image),
        Err(error) => Disc::Refused(error),
    };
    (disc, Stored::default())
}

/// `read_toc` answers a silent disc with an error alone: what it met stands in the functions that
/// it calls.
fn read_silent(format: SectorFormat, image: &[u8]) -> Disc {
    let read =
        open(format, image).and_then(|mut image| private::read_master_and_warnings(&mut image));
    match read {
        Ok((master, warnings)) => Disc::Silent(master, warnings),
        Err(error) => Disc::Refused(error),
    }
}

/// The format that `Image::open` finds. An image is in the document's domain if it is read in it.
pub fn detected(image: &[u8]) -> Option<SectorFormat> {
    Image::open(Cursor::new(image)).ok().map(|image| image.format())
}

fn open(format: SectorFormat, image: &[u8]) -> Result<Image<Cursor<&[u8]>>, Error> {
    Image::options().with_format(format).open(Cursor::new(image))
}

impl Disc {
    /// The document's number of the refusal, 0 for an accepted disc; nothing for an error that no
    /// rule gives.
    pub fn refusal(&self) -> Option<u8> {
        match self {
            Disc::Accepted(..) => Some(0),
            Disc::Silent(..) => Some(6),
            Disc::Refused(Error::MasterTocTruncated) => Some(3),
            Disc::Refused(Error::NotScarletbook) => Some(4),
            Disc::Refused(Error::MasterTocVersionUnsupported { .. }) => Some(5),
            Disc::Refused(_) => None,
        }
    }
}
