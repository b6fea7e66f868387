//! What the rules give for an uncut image: its master record, and each copy that it names.

use crate::disc::answer::{Answer, data, is_read, read, readable};
use crate::lone::Lone;
use generate::disc::{Disc, MASTER, MASTER_SECTORS};
use scarletbook::raw::{Area, AreaPointer, Lsn, MasterToc, TableOrigin, Track};

/// What a slot yields.
#[derive(Clone, Debug, PartialEq)]
pub struct Yield {
    pub area: Area,
    pub tracks: Vec<Track>,
    pub bytes: Vec<u8>,
}

/// A named copy.
pub struct Copy {
    pub lsn: usize,
    pub sectors: usize,
    /// Its data bytes, if it lies in the uncut image.
    pub bytes: Option<Vec<u8>>,
    pub yields: Option<Yield>,
}

impl Copy {
    pub fn end(&self) -> usize {
        self.lsn + self.sectors
    }
}

/// The named copies of a slot, the first and the second: none, if it is unused or has more than
/// 128 sectors.
pub struct Slot {
    pub used: bool,
    pub copies: Vec<Copy>,
}

impl Slot {
    /// The first copy that lies in so many whole sectors.
    pub fn left(&self, sectors: usize) -> Option<&Copy> {
        self.copies.iter().find(|copy| copy.end() <= sectors)
    }

    /// Whether both copies lie in the uncut image, with equal bytes.
    pub fn is_double(&self) -> bool {
        match &self.copies[..] {
            [first, second] => first.bytes.is_some() && first.bytes == second.bytes,
            _ => false,
        }
    }
}

pub struct Rules {
    pub master: MasterToc,
    pub slots: [Slot; 2],
    /// Whether the data bytes of each sector are kept.
    pub kept: Vec<bool>,
}

impl Rules {
    /// The rules of an uncut image that is accepted, or silent; by the Rust.
    pub fn of(disc: &Disc) -> Self {
        let rust = read(disc).expect("0, 1 and 2 are formats");
        let Answer { refusal, master, .. } = Answer::of(disc, rust);
        assert!(matches!(refusal, 0 | 6), "the uncut image is refused with {refusal}");
        let slots = [(1, master.two_channel), (2, master.multichannel)].map(|(slot, pointer)| {
            let used = pointer.toc1_lsn != Lsn(0) && pointer.toc_sectors > 0;
            Slot { used, copies: copies(disc, slot, pointer) }
        });
        let mut kept = vec![false; disc.sectors()];
        kept[MASTER..MASTER + MASTER_SECTORS].fill(true);
        for copy in slots.iter().flat_map(|slot| &slot.copies) {
            if copy.bytes.is_some() {
                kept[copy.lsn..copy.end()].fill(true);
            }
        }
        Rules { master, slots, kept }
    }
}

fn copies(disc: &Disc, slot: u8, pointer: AreaPointer) -> Vec<Copy> {
    let AreaPointer { toc1_lsn, toc2_lsn, toc_sectors } = pointer;
    let named = [toc1_lsn, toc2_lsn].into_iter().filter(|&lsn| is_read(&pointer) && lsn != Lsn(0));
    let copy = |toc_lsn: Lsn| {
        let bytes = readable(disc, toc_lsn, toc_sectors).then(|| data(disc, toc_lsn, toc_sectors));
        let origin = TableOrigin { slot, toc_lsn, toc_sectors };
        let yields = bytes.as_deref().and_then(|bytes| lone_yield(bytes, origin));
        Copy { lsn: toc_lsn.0 as usize, sectors: toc_sectors.into(), bytes, yields }
    };
    named.map(copy).collect()
}

/// What a copy's bytes give, read by the Rust as a lone table, with its slot and address.
fn lone_yield(bytes: &[u8], origin: TableOrigin) -> Option<Yield> {
    let lone = Lone::read(bytes);
    lone.rust.as_ref()?;
    let area = Area { origin, ..lone.area };
    Some(Yield { area, tracks: lone.tracks, bytes: bytes.to_vec() })
}
