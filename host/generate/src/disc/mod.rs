//! Disc images: a master table, its copies, and the table copies that it names, at every edge.

mod made;
mod master;
mod slots;

pub use made::most_warnings;
pub use master::any_master;
pub use slots::{Place, Pointer, Slot, any_slots};

use crate::Rng;
use crate::image::pattern;
use crate::layout::{DATA, Layout, any_format, layout};
use crate::table::put;

/// Where the master table begins, and its sectors.
pub const MASTER: usize = 510;
pub const MASTER_SECTORS: usize = 10;
pub const MASTER_SIGNATURE: &[u8; 8] = b"SACDMTOC";
/// Where the copies of the master table begin.
pub const MASTER_COPIES: [usize; 2] = [520, 530];
/// The first sector behind them.
pub const BEHIND: usize = 540;
/// Sectors from here on may have any bytes where nothing is put.
const NOISE: usize = 500;

#[derive(Clone, Debug, PartialEq, Eq)]
pub struct Disc {
    pub format: u32,
    /// That of the format, or for a foreign one of some other.
    pub form: Layout,
    pub bytes: Vec<u8>,
}

impl Disc {
    /// An image of zeros.
    pub fn new(format: u32, sectors: usize) -> Self {
        let form = layout(format).or_else(|| layout(format % 3)).expect("0, 1 and 2 are formats");
        Disc { format, form, bytes: vec![0; sectors * form.stored] }
    }

    pub fn sectors(&self) -> usize {
        self.bytes.len() / self.form.stored
    }

    /// The data bytes of a whole sector.
    pub fn data(&self, lsn: usize) -> &[u8] {
        &self.bytes[lsn * self.form.stored + self.form.data_at..][..DATA]
    }

    /// Puts the data of sectors from an address on, as far as the image has them.
    pub fn put(&mut self, lsn: usize, data: &[u8]) {
        let Layout { stored, data_at } = self.form;
        let sectors = self.bytes.chunks_exact_mut(stored).skip(lsn);
        for (sector, data) in sectors.zip(data.chunks_exact(DATA)) {
            sector[data_at..data_at + DATA].copy_from_slice(data);
        }
    }

    /// The data of the ten sectors of the master table.
    pub fn master(&self) -> Vec<u8> {
        (MASTER..MASTER + MASTER_SECTORS).flat_map(|lsn| self.data(lsn)).copied().collect()
    }
}

/// The disc of a case: one in eight of the first is made for how strings end, any other at random.
pub fn disc_of_case(rng: &mut Rng, case: u64) -> Disc {
    let made = case.is_multiple_of(8).then(|| made::made(case as usize / 8)).flatten();
    made.unwrap_or_else(|| any_disc(rng))
}

/// A disc of any format, mostly one that is accepted.
pub fn any_disc(rng: &mut Rng) -> Disc {
    let format = match rng.below(4) {
        0 => any_format(rng),
        _ => rng.below(3) as u32,
    };
    let slots = any_slots(rng);
    let mut disc = Disc::new(format, any_sectors(rng, &slots));
    fill_gaps(rng, &mut disc);
    let pointers = slots.each_ref().map(|slot| slot.pointer(rng, disc.sectors()));
    let master = any_master(rng, pointers);
    disc.put(MASTER, &master);
    for (lsn, table) in slots.iter().flat_map(|slot| &slot.tables) {
        disc.put(*lsn, table);
    }
    disc.put(MASTER, &master[..DATA]);
    put_decoys(rng, &mut disc);
    put_copies(rng, &mut disc, &slots);
    damage(rng, &mut disc, &slots);
    cut(rng, &mut disc);
    disc
}

/// All that is put and a little more, or up to where the copies of the master table end.
fn any_sectors(rng: &mut Rng, slots: &[Slot]) -> usize {
    let tables = slots.iter().flat_map(|slot| &slot.tables);
    let end = tables.map(|(lsn, table)| lsn + table.len() / DATA).max().unwrap_or(0);
    match end.max(MASTER_COPIES[0]) {
        end if end < BEHIND => end + rng.below(BEHIND + 1 - end),
        end => end + rng.pick(&[0, 0, 1, 3]),
    }
}

/// Bytes where nothing is put, and around the data of each sector.
fn fill_gaps(rng: &mut Rng, disc: &mut Disc) {
    let Layout { stored, data_at } = disc.form;
    if rng.below(4) == 0 {
        let salt = rng.word() as usize;
        pattern(salt, &mut disc.bytes[NOISE * stored..]);
    }
    for sector in disc.bytes.chunks_exact_mut(stored).skip(NOISE) {
        rng.fill(&mut sector[..data_at]);
        rng.fill(&mut sector[data_at + DATA..]);
    }
}

/// Now and then the master table's signature, or nearly it, where LSN 510 would begin in another
/// format: detection may find that one first.
fn put_decoys(rng: &mut Rng, disc: &mut Disc) {
    for other in (0..3).filter_map(layout).filter(|&other| other != disc.form) {
        if rng.below(12) == 0 {
            let signature = rng.pick(&[MASTER_SIGNATURE, MASTER_SIGNATURE, b"SACDMTOc"]);
            put(&mut disc.bytes, MASTER * other.stored + other.data_at, signature);
        }
    }
}

/// Copies of the master table where no table stands: mostly equal ones, else with one other byte,
/// or none.
fn put_copies(rng: &mut Rng, disc: &mut Disc, slots: &[Slot]) {
    for lsn in MASTER_COPIES {
        let mut copy = disc.master();
        let taken = slots.iter().any(|slot| slot.touches(lsn..lsn + MASTER_SECTORS));
        match rng.below(16) {
            _ if taken => continue,
            0 => continue,
            1 => copy[rng.below(MASTER_SECTORS * DATA)] ^= rng.nonzero(),
            2 => copy[MASTER_SECTORS * DATA - 1] ^= rng.nonzero(),
            _ => {}
        }
        disc.put(lsn, &copy);
    }
}

/// Now and then changes some bytes of the master table, or of tables, or around them.
fn damage(rng: &mut Rng, disc: &mut Disc, slots: &[Slot]) {
    if rng.below(8) > 0 {
        return;
    }
    for _ in 0..1 + rng.below(4) {
        let table = slots[rng.below(2)].tables.first();
        let (lsn, sectors) = match table {
            Some((lsn, table)) if rng.below(2) == 0 => (*lsn, table.len() / DATA),
            _ => (MASTER, MASTER_SECTORS),
        };
        let at = lsn * disc.form.stored + rng.below(sectors * disc.form.stored);
        if let Some(byte) = disc.bytes.get_mut(at) {
            *byte ^= rng.nonzero();
        }
    }
}

/// Now and then cuts the image: at a sector's end, next to it, inside a sector, or at or next to the
/// end of the master table's signature.
fn cut(rng: &mut Rng, disc: &mut Disc) {
    if rng.below(8) > 0 {
        return;
    }
    let Layout { stored, data_at } = disc.form;
    let behind = MASTER + MASTER_SECTORS;
    let (below, in_master) = (rng.below(MASTER), MASTER + rng.below(MASTER_SECTORS));
    let sector = match rng.below(8) {
        0 => rng.pick(&[0, below]),
        1 => rng.pick(&[behind - 1, in_master]),
        2 => behind,
        3 => MASTER,
        _ => behind + rng.below(disc.sectors() - behind + 1),
    };
    let any = 1 + rng.below(stored - 1);
    let signature_end = data_at + MASTER_SIGNATURE.len();
    let inside = match sector {
        MASTER => rng.pick(&[signature_end - 1, signature_end, signature_end, signature_end + 1]),
        _ => rng.pick(&[0, 0, 1, data_at, data_at + DATA, stored - 1, any]),
    };
    disc.bytes.truncate(sector * stored + inside);
    disc.bytes.shrink_to_fit();
}

#[cfg(test)]
mod tests;
