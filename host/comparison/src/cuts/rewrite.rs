//! Cut images, with bytes rewritten that are not kept.

use generate::Rng;
use generate::disc::{Disc, MASTER};
use generate::layout::{DATA, Layout};

/// What is rewritten of the bytes that are not kept.
#[derive(Clone, Copy, Debug, PartialEq)]
pub enum Rewriting {
    Nothing,
    /// A few bytes.
    Few,
    /// All, with any bytes.
    All,
    /// All, with zeros.
    Zeros,
    /// All, with the sectors of another table over and over.
    Planted,
}

pub const REWRITINGS: [(Rewriting, &str); 5] = [
    (Rewriting::Nothing, "nothing rewritten"),
    (Rewriting::Few, "a few bytes rewritten"),
    (Rewriting::All, "all rewritten"),
    (Rewriting::Zeros, "zeros"),
    (Rewriting::Planted, "a table planted"),
];

/// The uncut image cut at a byte and rewritten.
pub fn cut(
    rng: &mut Rng,
    uncut: &Disc,
    kept: &[bool],
    at: usize,
    rewriting: Rewriting,
    planted: &[u8],
) -> Disc {
    let mut disc = Disc { bytes: uncut.bytes[..at].to_vec(), ..*uncut };
    let form = disc.form;
    match rewriting {
        Rewriting::Nothing => {}
        Rewriting::Few => rewrite_few(rng, &mut disc, kept),
        Rewriting::All => each_free(&mut disc, kept, |_, part| rng.fill(part)),
        Rewriting::Zeros => each_free(&mut disc, kept, |_, part| part.fill(0)),
        Rewriting::Planted => {
            each_free(&mut disc, kept, |lsn, part| plant(form, lsn, part, planted))
        }
    }
    disc
}

/// Calls for each part of each sector that is not kept, with the sector's address.
fn each_free(disc: &mut Disc, kept: &[bool], mut rewrite: impl FnMut(usize, &mut [u8])) {
    let Layout { stored, data_at } = disc.form;
    for (lsn, sector) in disc.bytes.chunks_mut(stored).enumerate() {
        if kept.get(lsn) != Some(&true) {
            rewrite(lsn, sector);
            continue;
        }
        let (head, rest) = sector.split_at_mut(data_at.min(sector.len()));
        rewrite(lsn, head);
        if let Some(behind) = rest.get_mut(DATA..) {
            rewrite(lsn, behind);
        }
    }
}

/// Mostly of the sectors from the master table on.
fn rewrite_few(rng: &mut Rng, disc: &mut Disc, kept: &[bool]) {
    let Layout { stored, data_at } = disc.form;
    let from = if rng.below(4) == 0 { 0 } else { MASTER * stored };
    for _ in 0..rng.below(40) {
        let at = from + rng.below(disc.bytes.len().saturating_sub(from).max(1));
        let in_data = (data_at..data_at + DATA).contains(&(at % stored));
        let is_kept = in_data && kept.get(at / stored) == Some(&true);
        if let Some(byte) = disc.bytes.get_mut(at).filter(|_| !is_kept) {
            *byte = rng.byte();
        }
    }
}

/// Puts a sector of the planted table, by the address, as far as there is room for it.
fn plant(form: Layout, lsn: usize, part: &mut [u8], planted: &[u8]) {
    let sector = lsn % (planted.len() / DATA);
    let data = &planted[sector * DATA..][..DATA];
    for (byte, &new) in part.iter_mut().skip(form.data_at).zip(data) {
        *byte = new;
    }
}
