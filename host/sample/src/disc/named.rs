//! Discs with a name, each made for one rule: small changes of one disc.

use super::Stored;
use crate::named::{
    area_texts, ends, example, isrcs, items, locales, long_string, offsets, table, tracks, with,
};
use generate::disc::{Disc, MASTER, MASTER_COPIES, MASTER_SECTORS, most_warnings};
use generate::layout::{DATA, Layout};
use generate::table::{put, put16, put32};

/// Where the copies of the slots' tables stand, and how many sectors the image has.
const COPIES: [[usize; 2]; 2] = [[540, 544], [548, 552]];
const SECTORS: usize = 556;

/// The bytes around the data of a sector.
const AROUND: u8 = 165;

/// Where the master table has a slot's three numbers.
const TOC1: [usize; 2] = [64, 72];
const TOC2: [usize; 2] = [68, 76];
const COUNT: [usize; 2] = [84, 86];

/// The parts of a disc.
#[derive(Clone)]
struct Parts {
    format: u32,
    sectors: usize,
    /// What is left of the image's bytes.
    length: usize,
    master: Vec<u8>,
    /// Copies of the master table that are not equal.
    master_copies: [Option<Vec<u8>>; 2],
    /// Both copies of both slots' tables.
    tables: [[Vec<u8>; 2]; 2],
}

/// A disc without a warning: both slots have a table of two tracks, twice.
fn parts() -> Parts {
    let mut master = vec![0; MASTER_SECTORS * DATA];
    put(&mut master, 0, b"SACDMTOC\x01\x14");
    put(&mut master, 16, &[0, 2, 0, 1]);
    put(&mut master, 24, b" ALBUM-1\xe9 ");
    put(&mut master, 40, &[1, 0, 0, 14, 1, 0, 0, 29]);
    put(&mut master, 80, &[128]);
    put(&mut master, 88, b"DISC-1");
    put(&mut master, 104, &[1, 0, 0, 5]);
    put(&mut master, 120, &[7, 0xd5, 3, 9, 0, 0, 0, 0, 1]);
    put(&mut master, 136, b"en\x02\x00de\x02");
    put(&mut master, DATA, b"SACDText");
    put_strings(&mut master[DATA..], &[b"Album", b"Artist"]);
    put(&mut master, 9 * DATA, b"SACD_Man\x01\x02\x03");
    let [two_channel, multichannel] = [&b"TWOCHTOC"[..], b"MULCHTOC"].map(two_tracks);
    let tables = [two_channel, multichannel].map(|table| [table.clone(), table]);
    let (sectors, length) = (SECTORS, usize::MAX);
    let mut parts =
        Parts { format: 0, sectors, length, master, master_copies: [None, None], tables };
    parts.point();
    parts
}

/// A table of three sectors with two tracks.
fn two_tracks(signature: &[u8]) -> Vec<u8> {
    with(with(tracks(2), 0, signature), 32, &[2, 0, 2])
}

/// Strings from byte 64 of the sector of texts on, as the first texts.
fn put_strings(sector: &mut [u8], strings: &[&[u8]]) {
    let mut place = 64;
    for (item, string) in strings.iter().enumerate() {
        put16(sector, 16 + 2 * item, place as u16);
        put(sector, place, &[string, &b"\0"[..]].concat());
        place += string.len() + 1;
    }
}

impl Parts {
    /// The pointers to the tables.
    fn point(&mut self) {
        for slot in 0..2 {
            put32(&mut self.master, TOC1[slot], COPIES[slot][0] as u32);
            put32(&mut self.master, TOC2[slot], COPIES[slot][1] as u32);
            put16(&mut self.master, COUNT[slot], (self.tables[slot][0].len() / DATA) as u16);
        }
    }

    /// Another table for a slot, in one copy. Slot 1's has at most 8 sectors, where slot 2's begins.
    fn one_copy(&mut self, slot: usize, table: Vec<u8>) {
        put32(&mut self.master, TOC2[slot], 0);
        put16(&mut self.master, COUNT[slot], (table.len() / DATA) as u16);
        self.sectors = self.sectors.max(COPIES[slot][0] + table.len() / DATA);
        self.tables[slot] = [table, vec![]];
    }

    fn disc(&self) -> Disc {
        let mut disc = Disc::new(self.format, self.sectors);
        let Layout { stored, data_at } = disc.form;
        for sector in disc.bytes.chunks_exact_mut(stored).skip(MASTER) {
            sector[..data_at].fill(AROUND);
            sector[data_at + DATA..].fill(AROUND);
        }
        disc.put(MASTER, &self.master);
        for (lsn, copy) in MASTER_COPIES.into_iter().zip(&self.master_copies) {
            disc.put(lsn, copy.as_ref().unwrap_or(&self.master));
        }
        for (copies, tables) in COPIES.into_iter().zip(&self.tables) {
            copies.into_iter().zip(tables).for_each(|(lsn, table)| disc.put(lsn, table));
        }
        disc.bytes.truncate(self.length);
        disc
    }
}

/// Discs one after the other.
struct Named(Vec<Stored>);

impl Named {
    /// The disc without a warning, changed.
    fn add(&mut self, name: &str, change: impl FnOnce(&mut Parts)) {
        let mut parts = parts();
        change(&mut parts);
        self.0.push(Stored { name: name.to_string(), disc: parts.disc() });
    }

    /// The same for each slot, with another table in one copy.
    fn add_tables(&mut self, name: &str, table: impl Fn() -> Vec<u8>) {
        for slot in 0..2 {
            self.add(&format!("{name}-slot-{}", slot + 1), |parts| parts.one_copy(slot, table()));
        }
    }

    /// The same for each slot, changed by its index.
    fn add_slots(&mut self, name: &str, change: impl Fn(&mut Parts, usize)) {
        for slot in 0..2 {
            self.add(&format!("{name}-slot-{}", slot + 1), |parts| change(parts, slot));
        }
    }
}

/// Formats, and cuts: inside sector 519, before sector 520, and inside the last copy.
fn add_formats(named: &mut Named) {
    for (format, stored) in (0..).zip([2048, 2054, 2064]) {
        let cut = |parts: &mut Parts, bytes: usize| {
            parts.format = format;
            parts.length = bytes;
        };
        named.add(&format!("format-{format}"), |parts| parts.format = format);
        named.add(&format!("refusal-3-format-{format}"), |parts| cut(parts, 520 * stored - 1));
        named.add(&format!("refusal-6-format-{format}"), |parts| cut(parts, 520 * stored));
        named.add(&format!("cut-copy-format-{format}"), |parts| cut(parts, 555 * stored - 1));
    }
    named.add("cut-to-nothing", |parts| parts.length = 0);
    named.add("cut-in-the-first-copy", |parts| parts.length = 549 * DATA + 7);
    named.add("cut-in-a-master-copy", |parts| parts.length = 535 * DATA);
}

/// Refusals 4 to 6.
fn add_refusals(named: &mut Named) {
    named.add("refusal-4", |parts| parts.master[7] = b'c');
    named.add("refusal-5", |parts| parts.master[8] = 2);
    named.add("refusal-5-not", |parts| parts.master[8] = 0);
    named.add("refusal-6-no-slot", |parts| parts.master[64..88].fill(0));
    named.add("refusal-6-skipped", |parts| {
        parts.tables.iter_mut().flatten().for_each(|table| table[0] = b'X');
    });
}

/// Warnings of the master table and of the slots' pointers and copies.
fn add_copies(named: &mut Named) {
    named.add("warning-17-at-520", |parts| {
        parts.master_copies[0] = Some(with(parts.master.clone(), 20_479, &[1]));
    });
    named.add("warning-17-at-530", |parts| {
        parts.master_copies[1] = Some(with(parts.master.clone(), 0, b"s"));
    });
    named.add("warning-1", |parts| parts.master[DATA] = b's');
    named.add("warning-1-not-0-channels", |parts| {
        parts.master[DATA] = b's';
        parts.master[128] = 0;
    });
    named.add("warning-2", |parts| parts.master[9 * DATA + 7] = b'N');
    named.add_slots("warning-3", |parts, slot| put16(&mut parts.master, COUNT[slot], 129));
    named.add("warning-3-not-128", |parts| {
        parts.one_copy(1, with(vec![0; 128 * DATA], 0, &parts.tables[1][0].clone()));
    });
    named.add_slots("warning-4", |parts, slot| put32(&mut parts.master, TOC1[slot], 554));
    named.add_slots("warning-5", |parts, slot| put32(&mut parts.master, TOC2[slot], 554));
    named.add_slots("warning-6", |parts, slot| parts.tables[slot][1][6143] = 1);
    named.add_slots("warning-7", |parts, slot| {
        put32(&mut parts.master, TOC1[slot], u32::MAX);
        put32(&mut parts.master, TOC2[slot], 556);
    });
    named.add("no-first-copy", |parts| put32(&mut parts.master, TOC1[0], 0));
    named.add("no-second-copy", |parts| put32(&mut parts.master, TOC2[1], 0));
    named.add("no-sectors", |parts| put16(&mut parts.master, COUNT[1], 0));
    named.add("same-copies", |parts| put32(&mut parts.master, TOC1[1], COPIES[0][0] as u32));
}

/// Warnings of a table, each in both slots.
fn add_tables(named: &mut Named) {
    let lists: [&[u8; 8]; 3] = [b"SACDTRL1", b"SACDTRL2", b"SACD_IGL"];
    named.add_tables("warning-8", || with(tracks(2), 7, b"c"));
    named.add_tables("warning-9", || table(&lists[..1], 3));
    named.add_tables("warning-10", || table(&lists, 4));
    named.add_tables("warning-11", || with(tracks(2), 76, &999u32.to_be_bytes()));
    named.add_tables("warning-12", offsets);
    named.add_tables("warning-13-texts", items);
    named.add_tables("warning-14", example);
    named.add_tables("warning-15", || with(tracks(2), DATA + 8, &[0, 0, 3, 231]));
    named.add_tables("warning-18", || with(tracks(2), 20, &[5]));
    named.add_tables("warning-19", ends);
    named.add_tables("warning-19-not", || long_string(1));
    named.add_tables("tracks-0", || tracks(0));
    named.add_tables("tracks-255", || tracks(255));
    named.add("either-signature", |parts| parts.tables.swap(0, 1));
    named.add("bad-first-copy", |parts| parts.tables[0][0][0] = b'X');
}

/// Texts, locales and ISRCs.
fn add_texts(named: &mut Named) {
    named.add("texts-of-a-disc", |parts| {
        let strings = [b"\xc4rger\x80\xff", &b"\x01\x1f\x7f"[..], b"", b" ", &[233; 300]];
        put_strings(&mut parts.master[DATA..], &strings);
        put16(&mut parts.master, DATA + 16 + 30, 2047);
        put(&mut parts.master, 2 * DATA - 1, b"z");
        put16(&mut parts.master, DATA + 16 + 28, 2048);
    });
    named.add("texts-past-sector-1", |parts| {
        put16(&mut parts.master, DATA + 16, 2040);
        put(&mut parts.master, 2 * DATA - 8, b"up to the end of the sector");
    });
    named.add("texts-of-a-disc-set-3", |parts| parts.master[138] = 11);
    named.add("texts-of-a-disc-set-8", |parts| parts.master[138] = 8);
    named.add("texts-of-an-area", |parts| parts.one_copy(0, area_texts(0)));
    named.add("texts-of-an-area-set-3", |parts| parts.one_copy(1, area_texts(11)));
    named.add("texts-of-tracks-set-6", |parts| parts.one_copy(1, with(items(), 90, &[6])));
    named.add("isrcs", |parts| parts.one_copy(1, isrcs()));
    for channels in [0, 8, 9] {
        named.add(&format!("locales-{channels}-of-a-disc"), |parts| {
            parts.master[128] = channels;
            (0..10).for_each(|k| put(&mut parts.master, 136 + 4 * k, &[b'a' + k as u8, b' ', 2]));
        });
    }
    named.add("locales-11-of-an-area", |parts| parts.one_copy(0, locales(11)));
}

/// All discs with a name of their own.
pub fn named() -> Vec<Stored> {
    let mut named = Named(vec![]);
    named.add("example", |_| {});
    add_formats(&mut named);
    add_refusals(&mut named);
    add_copies(&mut named);
    add_tables(&mut named);
    add_texts(&mut named);
    named.0.push(Stored { name: "warnings-2047".to_string(), disc: most_warnings(0) });
    named.0
}
