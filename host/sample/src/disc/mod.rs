//! Discs, and what the customer's Rust answers to them.

mod answer;
mod named;

use crate::runs;
use generate::Rng;
use generate::disc::{Disc, any_disc};
use oracle::error::{Slot, Warning, WarningCode};
use oracle::toc::AreaPointer;

pub use answer::{digest, lines};

/// The bytes of a name, with zeros behind it.
const NAME: usize = 28;
/// Discs at random beside those with a name of their own, the bytes that one is stored in at most,
/// and those of its image.
const RANDOM: usize = 24;
const STORED: usize = 5000;
const IMAGE: usize = 1_500_000;

/// A disc with a name.
pub struct Stored {
    pub name: String,
    pub disc: Disc,
}

impl Stored {
    /// Its format, its name, and its image as runs.
    fn bytes(&self) -> Vec<u8> {
        assert!(self.name.len() <= NAME && self.disc.bytes.len() <= IMAGE);
        let mut name = self.name.clone().into_bytes();
        name.resize(NAME, 0);
        [&self.disc.format.to_be_bytes()[..], &name, &runs::runs(&self.disc.bytes)].concat()
    }
}

/// All discs: those with a name of their own, and those at random.
pub fn all() -> Vec<Stored> {
    let discs = (0..).map(|case| (case, any_disc(&mut Rng::of_case(1, case))));
    let random = discs
        .filter(|(_, disc)| disc.format < 3 && disc.bytes.len() <= IMAGE)
        .map(|(case, disc)| Stored { name: format!("random-{case}"), disc })
        .filter(|stored| stored.bytes().len() <= STORED);
    named::named().into_iter().chain(random.take(RANDOM)).collect()
}

/// The discs one after the other.
pub fn stored() -> Vec<u8> {
    all().iter().flat_map(Stored::bytes).collect()
}

/// The discs with a name of their own that are not among these.
pub fn missing(discs: &[Stored]) -> Vec<u8> {
    let is_missing = |new: &Stored| discs.iter().all(|disc| disc.name != new.name);
    named::named().iter().filter(|new| is_missing(new)).flat_map(Stored::bytes).collect()
}

/// The discs that are stored so; nothing for other bytes.
pub fn discs(stored: &[u8]) -> Option<Vec<Stored>> {
    let mut discs = vec![];
    let mut rest = stored;
    while let Some((format, more)) = rest.split_first_chunk() {
        let (name, more) = more.split_first_chunk::<NAME>()?;
        let name = name.split(|&byte| byte == 0).next()?;
        let (bytes, more) = runs::table(more)?;
        let mut disc = Disc::new(u32::from_be_bytes(*format), 0);
        disc.bytes = bytes;
        discs.push(Stored { name: String::from_utf8(name.to_vec()).ok()?, disc });
        rest = more;
    }
    rest.is_empty().then_some(discs)
}

/// The data of the table copy that the Rust has read for a slot, by its warnings; nothing if it
/// has read none.
fn chosen(disc: &Disc, slot: Slot, pointer: AreaPointer, warnings: &[Warning]) -> Vec<u8> {
    let warned = |code| warnings.iter().any(|w| w.code == code && w.slot == Some(slot));
    let none = warned(WarningCode::AreaTocTooLarge) || warned(WarningCode::AreaTocUnreadable);
    if none || !pointer.is_used() {
        return vec![];
    }
    let second = warned(WarningCode::AreaToc1Unreadable);
    let lsn = if second { pointer.toc2_lsn } else { pointer.toc1_lsn };
    let lsns = (lsn as usize..).take(pointer.toc_sectors.into());
    lsns.flat_map(|lsn| disc.data(lsn)).copied().collect()
}

#[cfg(test)]
mod tests;
