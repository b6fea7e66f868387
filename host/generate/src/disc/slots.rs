//! The slots of a disc: their pointers, and the tables that stand where they say, or elsewhere.

use super::{BEHIND, MASTER, MASTER_COPIES, MASTER_SECTORS};
use crate::Rng;
use crate::layout::DATA;
use crate::table::any_table;
use std::ops::Range;

/// Where a copy is said to be.
#[derive(Clone, Copy, Debug, PartialEq, Eq)]
pub enum Place {
    /// Address 0.
    Nowhere,
    At(usize),
    /// Its last sector, or more of it, lies behind the image.
    PastEnd,
}

/// What the master table says of a slot.
#[derive(Clone, Copy, Debug, Default, PartialEq, Eq)]
pub struct Pointer {
    pub toc1_lsn: u32,
    pub toc2_lsn: u32,
    pub toc_sectors: u16,
}

#[derive(Clone, Debug, PartialEq, Eq)]
pub struct Slot {
    pub copies: [Place; 2],
    pub toc_sectors: u16,
    /// Tables and their addresses, those put later over the others.
    pub tables: Vec<(usize, Vec<u8>)>,
}

impl Slot {
    /// Whether one of the tables stands in some of these sectors.
    pub fn touches(&self, sectors: Range<usize>) -> bool {
        let mut tables = self.tables.iter();
        tables.any(|(lsn, table)| *lsn < sectors.end && sectors.start < lsn + table.len() / DATA)
    }

    /// The slot's pointer in an image of so many sectors.
    pub fn pointer(&self, rng: &mut Rng, sectors: usize) -> Pointer {
        let count = usize::from(self.toc_sectors);
        let [toc1_lsn, toc2_lsn] = self.copies.map(|place| match place {
            Place::Nowhere => 0,
            Place::At(lsn) => lsn as u32,
            Place::PastEnd => past_end(rng, sectors, count),
        });
        Pointer { toc1_lsn, toc2_lsn, toc_sectors: self.toc_sectors }
    }
}

/// The first address whose run of sectors does not lie in the image, a later one, or a huge one.
fn past_end(rng: &mut Rng, sectors: usize, count: usize) -> u32 {
    let first = (sectors + 1).saturating_sub(count).max(1) as u32;
    let any = first + rng.below(200) as u32;
    let wrapping = (count as u32).wrapping_neg();
    let far = rng.word() as u32 | 1 << 20;
    rng.pick(&[first, first, sectors as u32, any, u32::MAX, wrapping, far])
}

/// Two slots. Now and then they name the same copies, or stand below the master table.
pub fn any_slots(rng: &mut Rng) -> [Slot; 2] {
    let mut free = match rng.below(16) {
        0 => 1 + rng.below(MASTER),
        _ => BEHIND + rng.below(3),
    };
    let first = any_slot(rng, &mut free);
    let second = match rng.below(32) {
        0 => first.clone(),
        _ => any_slot(rng, &mut free),
    };
    [first, second]
}

/// A slot whose tables mostly stand from the free sectors on.
fn any_slot(rng: &mut Rng, free: &mut usize) -> Slot {
    let table = any_table(rng);
    let sectors = table.len() / DATA;
    let first = match rng.below(16) {
        0 => Place::Nowhere,
        _ => any_place(rng, free, sectors),
    };
    let (second, copy) = any_second(rng, free, first, &table);
    let mut tables = vec![];
    let placed = [(first, Some(table)), (second, copy)];
    for (place, table) in placed {
        if let (Place::At(lsn), Some(table)) = (place, table) {
            tables.push((lsn, table));
        }
    }
    Slot { copies: [first, second], toc_sectors: any_count(rng, sectors), tables }
}

/// Mostly the next free sectors; else past the end, in the master table or one of its copies, or
/// below it.
fn any_place(rng: &mut Rng, free: &mut usize, sectors: usize) -> Place {
    match rng.below(40) {
        0..=2 => return Place::PastEnd,
        3 => return Place::At(MASTER - rng.below(sectors.min(MASTER))),
        4 => return Place::At(MASTER + rng.below(MASTER_SECTORS)),
        5 => return Place::At(MASTER_COPIES[0] + rng.below(2 * MASTER_SECTORS)),
        6 => return Place::At(1 + rng.below(MASTER)),
        _ => {}
    }
    let lsn = *free;
    *free += sectors + rng.pick(&[0, 0, 1]);
    Place::At(lsn)
}

/// The second copy and what stands there: mostly the same table; else one with another byte,
/// another table, one that begins inside the first copy, or no copy.
fn any_second(
    rng: &mut Rng,
    free: &mut usize,
    first: Place,
    table: &[u8],
) -> (Place, Option<Vec<u8>>) {
    let sectors = table.len() / DATA;
    let mut copy = table.to_vec();
    match (rng.below(16), first) {
        (0 | 1, _) => return (Place::Nowhere, None),
        (2, Place::At(lsn)) => return (Place::At(lsn + rng.below(sectors)), None),
        (3, Place::At(lsn)) => return (Place::At(lsn + rng.below(sectors)), Some(copy)),
        (4 | 5, _) => copy[rng.below(table.len())] ^= rng.nonzero(),
        (6, _) => copy[table.len() - 1] ^= rng.nonzero(),
        (7, _) => copy = any_table(rng),
        _ => {}
    }
    (any_place(rng, free, copy.len() / DATA), Some(copy))
}

/// Mostly the sectors of the table.
fn any_count(rng: &mut Rng, sectors: usize) -> u16 {
    let count = match rng.below(32) {
        0 => rng.pick(&[0, 1, 2, 127, 128, 129, 130, 256, 65_535]),
        1 => sectors + 1,
        2 => sectors - 1,
        _ => sectors,
    };
    count as u16
}
