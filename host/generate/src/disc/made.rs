//! Discs for how strings end: with the tables for that, and with the most warnings.

use super::{BEHIND, Disc, MASTER, MASTER_COPIES, MASTER_SECTORS, MASTER_SIGNATURE};
use crate::layout::DATA;
use crate::table::{self, put, put16, put32};

/// The tables for how strings end.
const TABLES: usize = 74;

/// The disc of a number from 0: three with the most warnings, then those of two tables each, and those
/// again with the first track alone.
pub fn made(number: usize) -> Option<Disc> {
    let format = number as u32 % 3;
    let Some(pair) = number.checked_sub(3) else { return Some(most_warnings(format)) };
    let alone = 2 * pair >= TABLES;
    let first = if alone { 2 * pair - TABLES } else { 2 * pair };
    let mut tables = [table::ending(first)?, table::ending(first + 1)?];
    if alone {
        tables.iter_mut().for_each(|table| put(table, 69, &[1]));
    }
    Some(sound(format, &tables).0)
}

/// A disc with as many warnings as there are at most, 2,047: 17, 1 and 2, and of each slot 6 and those of
/// the table with the most.
pub fn most_warnings(format: u32) -> Disc {
    let (mut disc, seconds) = sound(format, &[(); 2].map(|()| table::most_warnings()));
    let without = [MASTER + 1, MASTER + 9, MASTER_COPIES[0], MASTER_COPIES[1]];
    for lsn in without.into_iter().chain(seconds) {
        disc.put(lsn, &[0; DATA]);
    }
    disc
}

/// A disc of two tables, each in two copies, that gives no warning but theirs; and where the second copies
/// begin.
fn sound(format: u32, tables: &[Vec<u8>; 2]) -> (Disc, [usize; 2]) {
    let sectors = tables.each_ref().map(|table| table.len() / DATA);
    let mut disc = Disc::new(format, BEHIND + 2 * (sectors[0] + sectors[1]));
    let mut master = vec![0; MASTER_SECTORS * DATA];
    put(&mut master, 0, MASTER_SIGNATURE);
    put(&mut master, 128, &[1]);
    put(&mut master, DATA, b"SACDText");
    put(&mut master, 9 * DATA, b"SACD_Man");
    let mut seconds = [0; 2];
    let mut free = BEHIND;
    for slot in 0..2 {
        seconds[slot] = free + sectors[slot];
        for (copy, lsn) in [free, seconds[slot]].into_iter().enumerate() {
            put32(&mut master, 64 + 8 * slot + 4 * copy, lsn as u32);
            disc.put(lsn, &tables[slot]);
        }
        put16(&mut master, 84 + 2 * slot, sectors[slot] as u16);
        free += 2 * sectors[slot];
    }
    for lsn in [MASTER, MASTER_COPIES[0], MASTER_COPIES[1]] {
        disc.put(lsn, &master);
    }
    (disc, seconds)
}

#[test]
fn there_are_as_many_as_the_tables_make() {
    assert_eq!(table::endings().len(), TABLES);
    assert_eq!((0..).map_while(made).count(), 3 + TABLES);
}
