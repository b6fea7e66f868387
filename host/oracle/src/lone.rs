//! A lone table, asked of the customer's `read_area` as slot 1 with address 0.

use crate::error::{Error, Slot, Warning};
use crate::image::{Image, SECTOR_SIZE, SectorFormat};
use crate::toc::{Area, AreaPointer, Timecode, private};
use std::io::Cursor;

/// A track's start and duration, as stored.
pub type Times = (Timecode, Timecode);

/// An area, and the stored times of its tracks in their order.
pub type Timed = (Area, Vec<Times>);

/// What a table of whole sectors, at most 128, yields: an area or nothing, and the warnings.
pub fn read_lone(table: &[u8]) -> Result<(Option<Area>, Vec<Warning>), Error> {
    let (read, warnings) = read_timed(table)?;
    Ok((read.map(|(area, _)| area), warnings))
}

/// The same, with the stored times.
pub fn read_timed(table: &[u8]) -> Result<(Option<Timed>, Vec<Warning>), Error> {
    let options = Image::options().with_format(SectorFormat::Plain);
    let mut image = options.open(Cursor::new(table))?;
    let toc_sectors = (table.len() / SECTOR_SIZE) as u16;
    let pointer = AreaPointer { toc1_lsn: 0, toc2_lsn: 0, toc_sectors };
    private::read_area(&mut image, Slot::TwoChannel, pointer)
}

/// The number of a slot: 1 or 2.
pub fn slot_number(slot: Slot) -> u8 {
    match slot {
        Slot::TwoChannel => 1,
        Slot::Multichannel => 2,
    }
}

/// A warning's code, counted from 1, its slot and its track, each 0 for none.
pub fn numbers(warning: &Warning) -> [u8; 3] {
    let slot = warning.slot.map_or(0, slot_number);
    [warning.code as u8 + 1, slot, warning.track.unwrap_or(0)]
}
