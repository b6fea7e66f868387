//! Discs: a small one, a typical one and the largest, read with all their texts decoded.

use crate::area::{self, LETTERS};
use crate::clock::Row;
use crate::room;
use crate::text::ascii;
use generate::Rng;
use generate::disc::{BEHIND, Disc as Image, MASTER, MASTER_COPIES, MASTER_SECTORS};
use generate::layout::DATA;
use generate::table::{put, put16, put32};
use oracle::disc::{Disc as Rust, read_disc as read_toc};
use oracle::image::SectorFormat;
use scarletbook::raw::{
    DISC_TEXTS, DecodeAnswer, DiscAnswer, FIRST_TRACKS, TRACK_RECORDS, TRACK_TEXTS, Track,
    WARNING_WORDS, WORK_BYTES, decode_disc_area_text, decode_disc_text, decode_disc_track_text,
    read_disc,
};
use std::hint::black_box;

const FORMATS: [SectorFormat; 3] =
    [SectorFormat::Plain, SectorFormat::Raw2054, SectorFormat::Raw2064];
/// Places in memory that a line is timed in: these images are large.
const PLACES: usize = 2;
/// The sectors of the small disc's table: its head and two track lists.
const SMALL: usize = 3;

/// What is on a disc: areas, each in two copies, and the tracks of each with their texts.
#[derive(Clone, Copy)]
struct Plan {
    name: &'static str,
    areas: usize,
    copies: usize,
    sectors: usize,
    tracks: usize,
    texts: usize,
}

const PLANS: [Plan; 3] = [
    Plan { name: "small", areas: 1, copies: 1, sectors: SMALL, tracks: 1, texts: 0 },
    Plan { name: "typical", areas: 2, copies: 2, sectors: 8, tracks: 20, texts: 3 },
    Plan { name: "largest", areas: 2, copies: 2, sectors: 128, tracks: 255, texts: TRACK_TEXTS },
];

impl Plan {
    /// The sectors whose data must be touched: the master table and its copies, and all tables.
    fn touched(&self) -> usize {
        (1 + MASTER_COPIES.len()) * MASTER_SECTORS + self.areas * self.copies * self.sectors
    }

    /// Where a copy of an area stands.
    fn lsn(&self, area: usize, copy: usize) -> usize {
        BEHIND + (2 * area + copy) * self.sectors
    }

    fn table(&self) -> Vec<u8> {
        let mut table = vec![0; self.sectors * DATA];
        if self.sectors > SMALL {
            area::fill(&mut table, self.tracks, self.texts, ascii);
            return table;
        }
        for (at, bytes) in [(0, &b"TWOCHTOC"[..]), (20, &[4]), (64, &[1]), (69, &[1])] {
            put(&mut table, at, bytes);
        }
        put(&mut table, DATA, b"SACDTRL1");
        put(&mut table, 2 * DATA, b"SACDTRL2");
        table
    }

    /// A master table, with 16 texts if the tracks have some.
    fn master(&self) -> Vec<u8> {
        let mut master = vec![0; MASTER_SECTORS * DATA];
        put(&mut master, 0, b"SACDMTOC\x01\x14");
        put(&mut master, 24, b"ALBUM 0001");
        for area in 0..self.areas {
            put32(&mut master, 64 + 8 * area, self.lsn(area, 0) as u32);
            let second = if self.copies == 2 { self.lsn(area, 1) } else { 0 };
            put32(&mut master, 68 + 8 * area, second as u32);
            put16(&mut master, 84 + 2 * area, self.sectors as u16);
        }
        put(&mut master, 9 * DATA, b"SACD_Man");
        let (texts, mut rng) = (&mut master[DATA..2 * DATA], Rng::new(1));
        put(texts, 0, b"SACDText");
        for item in (0..DISC_TEXTS).filter(|_| self.texts > 0) {
            let place = 64 + item * (LETTERS + 1);
            put16(texts, 16 + 2 * item, place as u16);
            texts[place..][..LETTERS].fill_with(|| ascii(&mut rng));
        }
        master
    }

    fn image(&self, format: u32) -> Image {
        let mut image = Image::new(format, BEHIND + 2 * self.areas * self.sectors);
        let master = self.master();
        for lsn in [MASTER].into_iter().chain(MASTER_COPIES) {
            image.put(lsn, &master);
        }
        let table = self.table();
        for area in 0..self.areas {
            for copy in 0..self.copies {
                image.put(self.lsn(area, copy), &table);
            }
        }
        image
    }
}

struct Disc {
    plan: Plan,
    format: u32,
    image: &'static [u8],
    work: &'static mut [u8],
    tracks: Vec<Track>,
    words: Vec<u32>,
    page: Vec<u8>,
    /// Room for all that must be touched.
    copy: &'static mut [u8],
}

/// The same disc in several places. Library and Rust must find the same in it.
fn places(plan: Plan, format: u32) -> Vec<Disc> {
    let disc = || {
        let Image { bytes, .. } = plan.image(format);
        let image = room(bytes.len(), 0);
        image.copy_from_slice(&bytes);
        let tracks = vec![Track::default(); TRACK_RECORDS];
        let (work, words, page) = (room(WORK_BYTES, 2048), vec![0; WARNING_WORDS], vec![0; 8192]);
        let copy = room(plan.touched() * DATA, 2048);
        Disc { plan, format, image, work, tracks, words, page, copy }
    };
    let mut discs: Vec<_> = std::iter::repeat_with(disc).take(PLACES).collect();
    check(&mut discs[0]);
    discs
}

/// The Rust's texts and the library's: as many, with as many bytes.
fn check(disc: &mut Disc) {
    let rust = read_toc(FORMATS[disc.format as usize], disc.image);
    let Rust::Accepted(toc, _) = rust else { panic!("the disc is accepted") };
    let mut texts: Vec<_> = toc.master.text.iter().map(|text| text.1.len()).collect();
    for area in &toc.areas {
        texts.extend(area.text.iter().map(|text| text.1.len()));
        texts.extend(area.tracks.iter().flat_map(|track| track.text.iter()).map(|t| t.1.len()));
    }
    let mut ours = vec![];
    read_and_decode(disc, |answer| ours.push(answer.len));
    assert_eq!(texts, ours);
}

fn read(disc: &mut Disc) -> DiscAnswer {
    let Disc { plan, format, image, work, tracks, words, .. } = disc;
    let answer = read_disc(*format, black_box(image), black_box(work), tracks, words);
    let areas = answer.areas().iter().filter(|area| area.present == 1).count();
    assert_eq!((answer.refusal, answer.warnings, areas), (0, 0, plan.areas));
    answer
}

/// Reads, and decodes every text that the records name.
fn read_and_decode(disc: &mut Disc, mut decoded: impl FnMut(DecodeAnswer)) {
    let answer = read(disc);
    let Disc { work, tracks, page, .. } = disc;
    let (work, page) = (black_box(&**work), black_box(&mut page[..]));
    for (item, text) in (0..).zip(answer.master.text) {
        if text.place > 0 {
            decoded(decode_disc_text(work, &answer.master, item, &[], page));
        }
    }
    for (area, first) in answer.areas().iter().zip(FIRST_TRACKS) {
        for (item, text) in (0..).zip(area.text) {
            if text.place > 0 {
                decoded(decode_disc_area_text(work, area, item, &[], page));
            }
        }
        for track in &tracks[first..first + usize::from(area.track_count)] {
            let number = track.number.into();
            for (item, text) in (0..).zip(track.text) {
                if text.place > 0 {
                    decoded(decode_disc_track_text(work, area, tracks, number, item, &[], page));
                }
            }
        }
    }
}

fn rust_read(disc: &mut Disc) {
    black_box(read_toc(FORMATS[disc.format as usize], black_box(disc.image)));
}

/// As many bytes as must be touched, all in one.
fn memcpy(disc: &mut Disc) {
    let image = &black_box(disc.image)[MASTER * DATA..][..disc.copy.len()];
    black_box(&mut *disc.copy).copy_from_slice(image);
}

pub fn discs() {
    let library = |disc: &mut Disc| {
        read_and_decode(disc, |answer| {
            black_box(answer);
        })
    };
    let alone = |disc: &mut Disc| {
        black_box(read(disc));
    };
    for plan in PLANS {
        for format in 0..3 {
            let mut places = places(plan, format);
            let target = if (plan.name, format) == ("small", 0) { 0.8 } else { 0.5 };
            let row = |other, target| {
                let what = format!("{} disc, format {format}, {other}", plan.name);
                Row { what, bytes: plan.touched() * DATA, target }
            };
            row("read_toc", Some(target)).print(&mut places, library, rust_read);
            row("memcpy", None).print(&mut places, library, memcpy);
            row("no texts", None).print(&mut places, alone, rust_read);
        }
    }
}
