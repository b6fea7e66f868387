//! Questions about an image: which sectors, into which buffer, which number of a table.

use crate::Rng;
use crate::layout::DATA;

/// The `count` sectors from `lsn` on.
#[derive(Clone, Copy, Debug, PartialEq, Eq)]
pub struct Run {
    pub lsn: u32,
    pub count: usize,
}

impl Run {
    /// The data bytes of the run; nothing if no machine word holds their number.
    pub fn data_bytes(self) -> Option<usize> {
        self.count.checked_mul(DATA)
    }
}

/// Sector counts whose bytes, or whose sum with an address, leave 64 bits.
const HUGE: [usize; 8] = [
    usize::MAX,
    usize::MAX - 1,
    usize::MAX - (u32::MAX as usize),
    usize::MAX / DATA,
    usize::MAX / DATA + 1,
    usize::MAX / DATA + 2,
    1 << 63,
    1 << 32,
];

/// A run that mostly lies in an image of so many sectors; else one that just does not, or is far
/// out.
pub fn any_run(rng: &mut Rng, sectors: usize) -> Run {
    let lsn = match rng.below(32) {
        0..=19 => rng.below(sectors.max(1)),
        20..=26 => 0,
        27 => sectors.saturating_sub(1),
        28 | 29 => sectors,
        30 => sectors + 1,
        _ => rng.pick(&[usize::MAX, u32::MAX as usize - 1, 1 << 31, 1 << 21]),
    };
    let lsn = lsn.min(u32::MAX as usize);
    let rest = sectors.saturating_sub(lsn);
    let count = match rng.below(32) {
        0 => 0,
        1 => 1,
        2..=11 => rest,
        12 | 13 => rest + 1,
        14 => (usize::MAX - lsn).saturating_add(rng.below(2)),
        15 => rng.pick(&HUGE),
        _ => 1 + rng.below(rest.max(1)),
    };
    Run { lsn: lsn as u32, count }
}

/// The length of a lent buffer, and the place in it from which it is filled.
#[derive(Clone, Copy, Debug, PartialEq, Eq)]
pub struct Place {
    pub len: usize,
    pub at: usize,
}

/// A place with room for a run, mostly; else one byte short, or far out. Never a long buffer.
pub fn any_place(rng: &mut Rng, run: Run) -> Place {
    const MOST: usize = 1 << 20;
    let Some(need) = run.data_bytes().filter(|&need| need <= MOST) else {
        return Place { len: rng.below(3 * DATA), at: rng.pick(&[0, 1, DATA, usize::MAX]) };
    };
    let at = rng.pick(&[0, 0, 1, 7, DATA, 5000]);
    let len = at + need + rng.pick(&[0, 0, 1, 100]);
    match rng.below(32) {
        0 => Place { len: (at + need).saturating_sub(1), at },
        1 => Place { len, at: len - need + 1 },
        2 => Place { len, at: rng.pick(&[len, len + 1, usize::MAX, usize::MAX - need]) },
        3 => Place { len, at: (usize::MAX - need).wrapping_add(1) },
        _ => Place { len, at },
    }
}

/// A short table of numbers and a place in it, at its end, behind it or far out.
pub fn any_table(rng: &mut Rng) -> (Vec<u8>, usize) {
    let mut table = vec![0; rng.pick(&[0, 1, 2, 3, 4, 5, 8, 30])];
    rng.fill(&mut table);
    let at = match rng.below(4) {
        0 => usize::MAX - rng.below(6),
        1 => table.len() + rng.below(4),
        _ => rng.below(table.len() + 1),
    };
    (table, at)
}

/// The length of an image in bytes, up to the largest.
pub fn any_byte_count(rng: &mut Rng, stored: usize) -> usize {
    let sectors = match rng.below(4) {
        0 => usize::MAX / stored,
        1 => u32::MAX as usize + rng.below(3),
        2 => rng.below(1 << 23),
        _ => rng.below(4),
    };
    let edge = (sectors * stored).wrapping_add(rng.pick(&[0, 1, 6, 12, 2047]));
    edge.wrapping_sub(rng.below(2))
}
