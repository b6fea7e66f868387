//! Times the static library beside memcpy, memcmp, a plain audit and a plain mending of headers, and
//! the customer's `digest`, `decode_string`, `string_bytes`, `read_area` and `read_toc`, in one process
//! and over the same warm buffers. Each time is the best of many rounds, in which the two take turns.
//! Build it for release.

mod area;
mod audit;
mod clock;
mod disc;
mod mapping;
mod mend;
mod tape;
mod text;

use clock::Row;
use generate::Rng;
use generate::layout::{DATA, Layout, layout};
use std::hint::black_box;

const SECTORS: [usize; 2] = [10, 128];
/// Places in memory that a line is timed in.
const PLACES: usize = 8;

/// An image of one format, its data alone, and a buffer that has them too.
struct Disc {
    format: u32,
    form: Layout,
    image: &'static [u8],
    data: &'static [u8],
    buf: &'static mut [u8],
}

/// Bytes that begin so far into a page. They are never given back.
fn room(bytes: usize, place: usize) -> &'static mut [u8] {
    const PAGE: usize = 4096;
    let all = vec![0; bytes + 2 * PAGE].leak();
    let begin = 2 * PAGE + place - all.as_ptr().addr() % PAGE;
    &mut all[begin - PAGE..][..bytes]
}

/// The buffer begins half a page from where the image does: loads do not wait for stores to the
/// same place of another page.
fn disc(format: u32, sectors: usize) -> Disc {
    let form = layout(format).expect("0, 1 and 2 are formats");
    let image = room(sectors * form.stored, 0);
    Rng::new(1).fill(image);
    let [data, buf] = [0, 2048].map(|place| room(sectors * DATA, place));
    assert_eq!(scarletbook::raw::read_sectors(format, image, 0, sectors, data, 0), 0);
    buf.copy_from_slice(data);
    Disc { format, form, image, data, buf }
}

/// The same disc in several places.
fn discs(format: u32, sectors: usize) -> Vec<Disc> {
    std::iter::repeat_with(|| disc(format, sectors)).take(PLACES).collect()
}

/// Each size and format.
fn kinds() -> impl Iterator<Item = (usize, u32)> {
    SECTORS.iter().flat_map(|&sectors| (0..3).map(move |format| (sectors, format)))
}

fn read(disc: &mut Disc) {
    let (image, count) = (black_box(disc.image), disc.data.len() / DATA);
    black_box(scarletbook::raw::read_sectors(
        disc.format,
        image,
        0,
        count,
        black_box(&mut *disc.buf),
        0,
    ));
}

/// As many bytes, all in one: what no format but 0 could do.
fn memcpy(disc: &mut Disc) {
    let image = black_box(disc.image);
    black_box(&mut *disc.buf).copy_from_slice(&image[..disc.data.len()]);
}

/// The same bytes from the same places: a memcpy for each sector.
fn memcpy_by_sector(disc: &mut Disc) {
    let Layout { stored, data_at } = disc.form;
    let sectors = black_box(disc.image).chunks_exact(stored);
    for (sector, part) in sectors.zip(black_box(&mut *disc.buf).chunks_exact_mut(DATA)) {
        part.copy_from_slice(&sector[data_at..data_at + DATA]);
    }
}

fn compare(disc: &mut Disc) {
    let (image, count) = (black_box(disc.image), disc.data.len() / DATA);
    let answer =
        scarletbook::raw::compare_sectors(disc.format, image, 0, count, black_box(&*disc.buf));
    assert_eq!((answer.refusal, answer.equal), (0, 1));
}

fn memcmp(disc: &mut Disc) {
    assert!(black_box(disc.data) == black_box(&*disc.buf));
}

/// The digest of each sector.
fn digests(disc: &mut Disc) {
    for sector in black_box(&*disc.buf).chunks_exact(DATA) {
        black_box(oracle::digest(sector.try_into().expect("one sector")));
    }
}

fn library_digests(disc: &mut Disc) {
    for sector in black_box(&*disc.buf).chunks_exact(DATA) {
        black_box(scarletbook::raw::digest(sector));
    }
}

fn library_fingerprints(disc: &mut Disc) {
    for lsn in 0..disc.data.len() / DATA {
        black_box(scarletbook::raw::fingerprint(disc.format, black_box(disc.image), lsn as u32));
    }
}

fn row(what: &str, bytes: usize, target: f64) -> Row {
    Row { what: what.to_string(), bytes, target: Some(target) }
}

fn copying() {
    for (sectors, format) in kinds() {
        let mut discs = discs(format, sectors);
        let whole = row(&format!("copy, format {format}, memcpy"), sectors * DATA, 1.5);
        whole.print(&mut discs, read, memcpy);
        let by_sector = row(&format!("copy, format {format}, by sector"), sectors * DATA, 1.5);
        by_sector.print(&mut discs, read, memcpy_by_sector);
    }
}

fn comparing() {
    for (sectors, format) in kinds() {
        let row = row(&format!("compare, format {format}, memcmp"), sectors * DATA, 3.0);
        row.print(&mut discs(format, sectors), compare, memcmp);
    }
}

fn fingerprints() {
    for (sectors, format) in kinds() {
        let row = row(&format!("fingerprint, format {format}, digest"), sectors * DATA, 1.1);
        row.print(&mut discs(format, sectors), library_fingerprints, digests);
    }
    for sectors in SECTORS {
        let row = row("digest, digest", sectors * DATA, 1.1);
        row.print(&mut discs(0, sectors), library_digests, digests);
    }
}

fn main() {
    clock::heading();
    copying();
    comparing();
    fingerprints();
    audit::headers();
    mend::headers();
    tape::gathering();
    text::decoding();
    text::strings();
    mapping::texts();
    area::tables();
    disc::discs();
}
