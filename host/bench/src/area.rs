//! A lone table of 128 sectors, with 255 tracks of 14 texts each: read, and all its texts decoded.

use crate::clock::Row;
use crate::text::{ascii, mixed};
use crate::{PLACES, room};
use generate::Rng;
use generate::layout::DATA;
use generate::table::{MOST_SECTORS, put, put16, put32};
use oracle::lone::read_lone;
use oracle::toc::TrackTextItem;
use scarletbook::raw::{
    AREA_TEXTS, MAX_TRACKS, TABLE_WORDS, TRACK_TEXTS, TableAnswer, Track, decode_area_text,
    decode_track_text, read_table,
};
use std::hint::black_box;

/// The bytes of a text: then the last track's begins within reach of its two-byte offset.
pub const LETTERS: usize = 14;
/// Where the track texts' block begins: behind the track lists, ISRCs and genres.
const BLOCK: usize = 5 * DATA;
/// Where the first track's text begins, behind the block's offsets.
const FIRST: usize = BLOCK + 518;

struct Lone {
    table: &'static [u8],
    tracks: Vec<Track>,
    words: Vec<u32>,
    page: Vec<u8>,
}

/// Fills a table of zeros with so many tracks, of as many texts each.
pub fn fill(table: &mut [u8], tracks: usize, texts: usize, letter: fn(&mut Rng) -> u8) {
    let mut rng = Rng::new(1);
    put(table, 0, b"TWOCHTOC");
    put(table, 20, &[4]);
    put(table, 64, &[255, 59, 74]);
    put(table, 69, &[tracks as u8]);
    put32(table, 76, 1 << 20);
    let signatures = [b"SACDTRL1", b"SACDTRL2", b"SACD_IGL"];
    for (sector, signature) in signatures.into_iter().enumerate() {
        put(table, (1 + sector) * DATA, signature);
    }
    put(table, BLOCK, b"SACDTTxt");
    let mut place = FIRST;
    for track in 0..tracks {
        put32(table, DATA + 8 + 4 * track, track as u32 * 1000);
        put(table, 2 * DATA + 8 + 4 * track, &[track as u8, 0, 0]);
        put(table, 3 * DATA + 8 + 12 * track, b"GBAAA2500001");
        put16(table, BLOCK + 8 + 2 * track, (place - BLOCK) as u16);
        place = put_text(&mut rng, table, place, texts, letter);
    }
    for item in 0..AREA_TEXTS {
        put16(table, 144 + 2 * item, (FIRST + 6) as u16);
    }
}

/// Puts so many texts of a track at a place; the place behind them.
fn put_text(
    rng: &mut Rng,
    table: &mut [u8],
    place: usize,
    texts: usize,
    letter: fn(&mut Rng) -> u8,
) -> usize {
    table[place] = texts as u8;
    let mut place = place + 4;
    for item in 0..texts as u8 {
        table[place] = if item < 7 { item + 1 } else { item + 122 };
        table[place + 2..][..LETTERS].fill_with(|| letter(rng));
        place += LETTERS + 3;
    }
    place
}

/// The same table in several places. Library and Rust must find the same texts in it.
fn lones(letter: fn(&mut Rng) -> u8) -> Vec<Lone> {
    let lone = || {
        let table = room(MOST_SECTORS * DATA, 0);
        fill(table, MAX_TRACKS, TRACK_TEXTS, letter);
        let tracks = vec![Track::default(); MAX_TRACKS];
        Lone { table, tracks, words: vec![0; TABLE_WORDS], page: vec![0; 8192] }
    };
    let mut lones: Vec<_> = std::iter::repeat_with(lone).take(PLACES).collect();
    check(&mut lones[0]);
    lones
}

fn check(lone: &mut Lone) {
    let (rust, _) = read_lone(lone.table).expect("the image has the table");
    let area = read(lone).area;
    for track in rust.expect("the table yields an area").tracks {
        for (item, &name) in TrackTextItem::ALL.iter().enumerate() {
            let number = track.number.into();
            let Lone { table, tracks, page, .. } = lone;
            let len = decode_track_text(table, &area, tracks, number, item as u32, &[], page).len;
            assert_eq!(track.text.get(name).map(str::as_bytes), Some(&page[..len]));
        }
    }
}

fn read(lone: &mut Lone) -> TableAnswer {
    let answer = read_table(black_box(lone.table), &mut lone.tracks, &mut lone.words);
    assert_eq!((answer.refusal, answer.area.track_count), (0, 255));
    answer
}

fn read_and_decode(lone: &mut Lone) {
    let area = read(lone).area;
    let Lone { table, tracks, page, .. } = lone;
    for item in 0..AREA_TEXTS as u32 {
        black_box(decode_area_text(black_box(table), &area, item, &[], black_box(page)));
    }
    for number in 1..=MAX_TRACKS as u32 {
        for item in 0..TRACK_TEXTS as u32 {
            let table = black_box(&table[..]);
            black_box(decode_track_text(table, &area, tracks, number, item, &[], black_box(page)));
        }
    }
}

fn rust_read(lone: &mut Lone) {
    black_box(read_lone(black_box(lone.table)).expect("the image has the table"));
}

fn row(what: &str, target: Option<f64>) -> Row {
    Row { what: what.to_string(), bytes: MOST_SECTORS * DATA, target }
}

pub fn tables() {
    row("table and texts, ASCII, read_area", Some(1.0)).print(
        &mut lones(ascii),
        read_and_decode,
        rust_read,
    );
    row("table and texts, mixed, read_area", Some(1.0)).print(
        &mut lones(mixed),
        read_and_decode,
        rust_read,
    );
    let read = |lone: &mut Lone| {
        black_box(read(lone));
    };
    row("table alone, read_area", None).print(&mut lones(ascii), read, rust_read);
}
