//! Discs that are cut: copies apart, in the other order, unequal, skipped, overlapping, past the end.

use crate::lone::Lone;
use generate::Rng;
use generate::disc::{BEHIND, Disc, MASTER, MASTER_COPIES, Pointer, any_master};
use generate::image::pattern;
use generate::layout::DATA;
use generate::table::{Plan, Structure, table};

use Structure::{IsrcGenre, TrackList1, TrackList2, TrackText};

pub const NAMES: [&str; 10] = [
    "equal copies",
    "second copies first",
    "unequal copies",
    "skipped copies",
    "overlapping copies",
    "over the master table",
    "past the uncut end",
    "128 and 129 sectors",
    "below the master table",
    "unused slots",
];

/// A disc to be built: the two pointers, and tables where they stand.
struct Sketch {
    slots: [Pointer; 2],
    tables: Vec<(usize, Vec<u8>)>,
}

/// The disc of a name, in a format.
pub fn sample(name: &str, format: u32) -> Disc {
    let mut rng = Rng::new(7);
    let sketch = sketch(&mut rng, name);
    let ends = sketch.tables.iter().map(|(lsn, table)| lsn + table.len() / DATA);
    let mut disc = Disc::new(format, ends.max().unwrap_or(0).max(BEHIND) + 2);
    pattern(3, &mut disc.bytes);
    let master = sound_master(&mut rng, sketch.slots);
    disc.put(MASTER, &master);
    for (lsn, table) in &sketch.tables {
        disc.put(*lsn, table);
    }
    disc.put(MASTER, &master[..DATA]);
    for lsn in MASTER_COPIES {
        disc.put(lsn, &disc.master());
    }
    disc
}

/// A table of other tracks than those of the discs.
pub fn planted(rng: &mut Rng) -> Vec<u8> {
    sound(rng, 7, 99)
}

/// A master table that is not refused.
fn sound_master(rng: &mut Rng, slots: [Pointer; 2]) -> Vec<u8> {
    loop {
        let master = any_master(rng, slots);
        if master.starts_with(b"SACDMTOC") && master[8] <= 1 {
            return master;
        }
    }
}

/// A table of so many sectors, at least 6, that yields an area.
fn sound(rng: &mut Rng, sectors: usize, tracks: u8) -> Vec<u8> {
    let order = [TrackList1, TrackList2, TrackText, IsrcGenre];
    let plan = Plan::new(&order, sectors as isize - 6, tracks);
    loop {
        let table = table(rng, &plan);
        if Lone::read(&table).rust.is_some() {
            return table;
        }
    }
}

/// The same with another first byte.
fn skipped(table: &[u8]) -> Vec<u8> {
    [b"X", &table[1..]].concat()
}

fn slot(toc1_lsn: u32, toc2_lsn: u32, toc_sectors: u16) -> Pointer {
    Pointer { toc1_lsn, toc2_lsn, toc_sectors }
}

fn sketch(rng: &mut Rng, name: &str) -> Sketch {
    let [a, b] = [(); 2].map(|()| sound(rng, 7, 5));
    let c = sound(rng, 8, 20);
    let (slots, tables) = match name {
        "equal copies" => (
            [slot(540, 556, 7), slot(548, 565, 8)],
            vec![(540, a.clone()), (556, a), (548, c.clone()), (565, c)],
        ),
        "second copies first" => (
            [slot(570, 541, 7), slot(580, 550, 8)],
            vec![(570, a.clone()), (541, a), (580, c.clone()), (550, c)],
        ),
        "unequal copies" => (
            [slot(540, 560, 7), slot(550, 570, 8)],
            vec![(540, a), (560, b), (550, c), (570, sound(rng, 8, 0))],
        ),
        "skipped copies" => (
            [slot(560, 540, 7), slot(570, 548, 8)],
            vec![(560, skipped(&a)), (540, a), (570, c.clone()), (548, skipped(&c))],
        ),
        _ => return odd_sketch(rng, name, [a, b, c]),
    };
    Sketch { slots, tables }
}

/// Copies that overlap, lie past the end or below, and slots that are not read. The first two
/// tables have 7 sectors, the last one 8.
fn odd_sketch(rng: &mut Rng, name: &str, tables: [Vec<u8>; 3]) -> Sketch {
    let [a, b, c] = tables;
    let (slots, tables) = match name {
        "overlapping copies" => {
            ([slot(540, 546, 8), slot(546, 555, 7)], vec![(540, c), (546, a), (555, b)])
        }
        "over the master table" => (
            [slot(513, 560, 7), slot(505, 540, 8)],
            vec![(505, c.clone()), (513, a), (560, b), (540, c)],
        ),
        "past the uncut end" => {
            ([slot(600, 540, 7), slot(548, u32::MAX, 8)], vec![(540, a), (548, c)])
        }
        "128 and 129 sectors" => {
            let large = sound(rng, 128, 255);
            ([slot(540, 700, 128), slot(541, 542, 129)], vec![(540, large.clone()), (700, large)])
        }
        "below the master table" => {
            ([slot(600, 100, 7), slot(500, 0, 8)], vec![(600, a.clone()), (100, a), (500, c)])
        }
        _ => ([slot(0, 540, 7), slot(550, 560, 0)], vec![(540, a), (550, c.clone()), (560, c)]),
    };
    Sketch { slots, tables }
}
