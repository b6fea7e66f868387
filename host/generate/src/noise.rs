//! Random byte strings: of lengths around those of sectors, and with signatures here and there.

use crate::Rng;
use crate::disc::MASTER;
use crate::layout::{DATA, Layout, layout};
use crate::table::{put, put16, put32};

/// Signatures of tables and of their sub-structures.
const TABLES: [&[u8]; 2] = [b"TWOCHTOC", b"MULCHTOC"];
const STRUCTURES: [&[u8]; 5] = [b"SACDTRL1", b"SACDTRL2", b"SACDTTxt", b"SACD_IGL", b"SACD_ACC"];

/// Random bytes that strings are cut out of.
pub struct Pool(Vec<u8>);

impl Pool {
    pub fn new(seed: u64) -> Self {
        let mut bytes = vec![0; 4 << 20];
        Rng::new(seed).fill(&mut bytes);
        Pool(bytes)
    }

    fn cut(&self, rng: &mut Rng, length: usize) -> Vec<u8> {
        let begin = rng.below(self.0.len() - length);
        self.0[begin..begin + length].to_vec()
    }
}

/// A string of a few sectors or fewer; now and then one that is long enough for a disc.
pub fn any_noise(rng: &mut Rng, pool: &Pool) -> Vec<u8> {
    let form = layout(rng.below(3) as u32).expect("0, 1 and 2 are formats");
    match rng.below(8) {
        0 | 1 => any_disc_like(rng, pool, form),
        2 | 3 => any_table_like(rng, pool),
        _ => any_short(rng, pool, form),
    }
}

/// At and next to the end of a sector, or of any length.
fn any_short(rng: &mut Rng, pool: &Pool, form: Layout) -> Vec<u8> {
    let edge = rng.below(6) * form.stored + rng.pick(&[0, 0, form.data_at]);
    let any = rng.below(4 * form.stored);
    let length = rng.pick(&[edge, edge + 1, edge.saturating_sub(1), any]);
    let mut bytes = pool.cut(rng, length);
    if rng.below(2) == 0 {
        sign_table(rng, &mut bytes, Layout { stored: DATA, data_at: 0 }, 0);
    }
    bytes
}

/// Whole sectors of data, mostly with the signatures of a table.
fn any_table_like(rng: &mut Rng, pool: &Pool) -> Vec<u8> {
    let many = rng.pick(&[33, 40, 127, 128, 129]);
    let few = 1 + rng.below(8);
    let sectors = if rng.below(16) == 0 { many } else { few };
    let mut bytes = pool.cut(rng, sectors * DATA);
    if rng.below(8) > 0 {
        sign_table(rng, &mut bytes, Layout { stored: DATA, data_at: 0 }, 0);
    }
    bytes
}

/// About as long as a disc must be, or longer, mostly with the signature of a master table, and
/// tables where that says; now and then it ends at or next to the signature.
fn any_disc_like(rng: &mut Rng, pool: &Pool, form: Layout) -> Vec<u8> {
    let sectors = MASTER + rng.pick(&[9, 10, 10, 11, 20, 40, 40, 40]);
    let more = rng.below(form.stored);
    let length = sectors * form.stored + rng.pick(&[0, 0, 1, more]);
    let mut bytes = pool.cut(rng, length);
    let master = master_place(form);
    if rng.below(8) > 0 {
        sign_master(rng, &mut bytes, form);
        (0..2).for_each(|slot| point(rng, &mut bytes, form, slot));
    }
    if rng.below(8) == 0 {
        // Where some format has the signature.
        let other = layout(rng.below(3) as u32).expect("0, 1 and 2 are formats");
        put(&mut bytes, master_place(other), b"SACDMTOC");
    }
    if rng.below(16) == 0 {
        bytes.truncate(master + rng.below(10));
        bytes.shrink_to_fit();
    }
    bytes
}

/// Where the master table begins.
fn master_place(form: Layout) -> usize {
    MASTER * form.stored + form.data_at
}

/// The signatures of a master table, and mostly a version that is read.
fn sign_master(rng: &mut Rng, bytes: &mut [u8], form: Layout) {
    let master = master_place(form);
    put(bytes, master, b"SACDMTOC");
    if rng.below(8) > 0 {
        put(bytes, master + 8, &[rng.below(2) as u8]);
    }
    if rng.below(2) == 0 {
        let texts = master + form.stored;
        put(bytes, texts, b"SACDText");
        put(bytes, master + 9 * form.stored, b"SACD_Man");
        (0..16).for_each(|item| put16(bytes, texts + 16 + 2 * item, any_offset(rng)));
    }
}

/// Mostly a table behind the master table, and a slot that says where it is.
fn point(rng: &mut Rng, bytes: &mut [u8], form: Layout, slot: usize) {
    if rng.below(4) == 0 {
        return;
    }
    let master = master_place(form);
    let lsn = MASTER + 10 + rng.below(16);
    put32(bytes, master + 64 + 8 * slot, lsn as u32);
    put16(bytes, master + 84 + 2 * slot, rng.pick(&[3, 4, 5, 6, 7, 8, 8, 1, 128, 129]));
    sign_table(rng, bytes, form, lsn);
}

/// Of a text, mostly inside its sector.
fn any_offset(rng: &mut Rng) -> u16 {
    rng.word() as u16 >> rng.below(8)
}

/// The signatures of a table from a sector on: that of its head, and those of sub-structures at the
/// sectors behind it, mostly the two that a table must have among them.
fn sign_table(rng: &mut Rng, bytes: &mut [u8], form: Layout, lsn: usize) {
    let place = |sector: usize| (lsn + sector) * form.stored + form.data_at;
    put(bytes, place(0), rng.pick(&TABLES));
    let needed = rng.below(2);
    for sector in 1..8 {
        let any = rng.pick(&STRUCTURES);
        let signature = if sector <= 2 { STRUCTURES[(needed + sector) % 2] } else { any };
        put(bytes, place(sector), if rng.below(8) == 0 { any } else { signature });
    }
}
