//! Reading, comparing, fingerprints, the audit and mending, over generated images.

use crate::guard::Guarded;
use crate::headers;
use crate::mending;
use crate::rust::{self, Lent};
use crate::tally::Kind;
use generate::Rng;
use generate::header::{self, Header};
use generate::image::Image;
use generate::question::{Place, Run, any_place, any_run};
use scarletbook::raw::{AuditAnswer, Comparison, FingerprintAnswer, Mended};
use std::io::Cursor;

#[derive(Debug)]
#[allow(dead_code)] // its fields are printed
struct Question {
    format: u32,
    length: usize,
    lsn: u32,
    count: usize,
    lent: usize,
    at: usize,
}

/// What a read leaves: its refusal, and the lent buffer with what lies around it.
#[derive(Debug, PartialEq)]
struct Written<'a> {
    refusal: u8,
    buffer: Buffer<'a>,
}

/// The bytes of a buffer; in print, their number, the first ones and a digest.
#[derive(PartialEq)]
pub struct Buffer<'a>(pub &'a [u8]);

impl std::fmt::Debug for Buffer<'_> {
    fn fmt(&self, f: &mut std::fmt::Formatter<'_>) -> std::fmt::Result {
        let start = &self.0[..self.0.len().min(16)];
        write!(f, "{} bytes from {start:02x?}, sum {:x}", self.0.len(), plain_digest(self.0))
    }
}

pub struct Sectors {
    pub read: Kind,
    pub compare: Kind,
    pub fingerprint: Kind,
    pub audit: Kind,
    pub mend: Kind,
}

impl Sectors {
    pub fn new() -> Self {
        let formats = ["format 0", "format 1", "format 2"];
        let runs = ["refusal 1", "refusal 2", "refusal 8", "no sectors", "over 64 sectors"];
        let edges = ["to the end", "one sector too far", "room to the byte", "one byte short"];
        let common = [&runs[..], &edges[..], &formats[..]].concat();
        let refusals = ["refusal 1", "refusal 11", "refusal 8"];
        let verdicts = ["sound", "blank", "unsound"];
        let mended = ["refusal 14", "sound", "blank", "mended"];
        Sectors {
            read: Kind::new("read_sectors", &[&common[..], &["part"]].concat()),
            compare: Kind::new(
                "compare_sectors",
                &[&common[..], &["equal", "unequal", "longer lent"]].concat(),
            ),
            fingerprint: Kind::new(
                "fingerprint",
                &[&["refusal 1", "refusal 8"], &formats[..]].concat(),
            ),
            audit: Kind::new("audit", &[refusals, verdicts].concat()),
            mend: Kind::new("mend", &[&refusals[..], &mended].concat()),
        }
    }

    /// A few cases of each kind. The Rust's image keeps its place between them.
    pub fn cases(&mut self, rng: &mut Rng, image: &Image) {
        let mut rust = rust::open(image.format, Cursor::new(&image.bytes[..]));
        let run = any_run(rng, image.sectors());
        self.read_case(rng, image, &mut rust, run);
        self.compare_case(rng, image, &mut rust, run);
        let run = any_run(rng, image.sectors());
        self.fingerprint_case(image, &mut rust, run.lsn);
        self.compare_case(rng, image, &mut rust, run);
        let header = expected_header(image, &rust, run.lsn);
        self.audit_case(image, run.lsn, header);
        self.mend_case(image, run.lsn, header);
    }

    fn read_case(&mut self, rng: &mut Rng, image: &Image, rust: &mut Option<Lent>, run: Run) {
        let place = any_place(rng, run);
        let Place { len, at } = place;
        let mut ours = Guarded::bytes(rng.below(256), len);
        let mut theirs = ours.clone();
        let Run { lsn, count } = run;
        let refusal =
            scarletbook::raw::read_sectors(image.format, &image.bytes, lsn, count, &mut ours, at);
        let library = Written { refusal, buffer: Buffer(ours.all()) };
        let refusal = expected_read(rust, run, &mut theirs, at);
        let rust = Written { refusal, buffer: Buffer(theirs.all()) };
        let kind = &mut self.read;
        kind.case(&question(image, run, len, at), refusal, library, rust);
        count_run(kind, image, run, place, refusal);
        let part = at > 0 && end_in(run, at) < Some(len);
        kind.class_if("part", refusal == 0 && count > 0 && part);
    }

    fn compare_case(&mut self, rng: &mut Rng, image: &Image, rust: &mut Option<Lent>, run: Run) {
        let lent = lent_bytes(rng, rust, run);
        let library = scarletbook::raw::compare_sectors(
            image.format,
            &image.bytes,
            run.lsn,
            run.count,
            &lent,
        );
        let rust = expected_comparison(rust, run, &lent);
        let refusal = rust.refusal;
        let kind = &mut self.compare;
        kind.record_case(&question(image, run, lent.len(), 0), refusal, library, rust);
        count_run(kind, image, run, Place { len: lent.len(), at: 0 }, refusal);
        let longer = end_in(run, 0) < Some(lent.len());
        kind.class_if("equal", rust.equal == 1 && run.count > 0);
        kind.class_if("unequal", refusal == 0 && rust.equal == 0);
        kind.class_if("longer lent", refusal == 0 && run.count > 0 && longer);
    }

    fn fingerprint_case(&mut self, image: &Image, rust: &mut Option<Lent>, lsn: u32) {
        let library = scarletbook::raw::fingerprint(image.format, &image.bytes, lsn);
        let rust = expected_fingerprint(rust, lsn);
        let refusal = rust.refusal;
        let kind = &mut self.fingerprint;
        kind.record_case(&question(image, Run { lsn, count: 1 }, 0, 0), refusal, library, rust);
        count_format(kind, image.format, refusal == 0);
    }

    fn audit_case(&mut self, image: &Image, lsn: u32, header: Result<Header, u8>) {
        let library = scarletbook::raw::audit(image.format, &image.bytes, lsn);
        let refused = |refusal| AuditAnswer { refusal, verdict: 0 };
        let expected = header.map_or_else(refused, headers::expected);
        let kind = &mut self.audit;
        let refusal = expected.refusal;
        kind.record_case(&question(image, Run { lsn, count: 1 }, 0, 0), refusal, library, expected);
        headers::count_verdict(kind, expected);
    }

    fn mend_case(&mut self, image: &Image, lsn: u32, header: Result<Header, u8>) {
        let library = scarletbook::raw::mend(image.format, &image.bytes, lsn);
        let searched = |header| mending::answer(header::mended(header));
        let expected = header.map_or_else(mending::refused, searched);
        let kind = &mut self.mend;
        let Mended { refusal, header: mended } = expected;
        kind.record_case(&question(image, Run { lsn, count: 1 }, 0, 0), refusal, library, expected);
        let as_it_was = header == Ok(mended);
        kind.class_if("sound", as_it_was && mended != [0; 6]);
        kind.class_if("blank", as_it_was && mended == [0; 6]);
        kind.class_if("mended", refusal == 0 && !as_it_was);
    }
}

fn question(image: &Image, run: Run, lent: usize, at: usize) -> Question {
    let Run { lsn, count } = run;
    Question { format: image.format, length: image.bytes.len(), lsn, count, lent, at }
}

fn count_format(kind: &mut Kind, format: u32, accepted: bool) {
    for (number, class) in ["format 0", "format 1", "format 2"].iter().enumerate() {
        kind.class_if(class, accepted && format as usize == number);
    }
}

/// The classes of a run, read into a place or compared with it. Only "no sectors" has runs of none.
fn count_run(kind: &mut Kind, image: &Image, run: Run, place: Place, refusal: u8) {
    let Run { lsn, count } = run;
    let some = |wanted| refusal == wanted && count > 0;
    kind.class_if("no sectors", refusal == 0 && count == 0);
    kind.class_if("over 64 sectors", refusal == 0 && count > 64);
    let end = count.checked_add(lsn as usize);
    kind.class_if("to the end", some(0) && end == Some(image.sectors()));
    kind.class_if("one sector too far", some(8) && end == Some(image.sectors() + 1));
    let end = end_in(run, place.at);
    kind.class_if("room to the byte", some(0) && end == Some(place.len));
    kind.class_if("one byte short", some(2) && end == Some(place.len + 1));
    count_format(kind, image.format, some(0));
}

/// Where the data of a run ends that begins at a place; nothing if no machine word holds it.
fn end_in(run: Run, at: usize) -> Option<usize> {
    run.data_bytes().and_then(|need| at.checked_add(need))
}

/// Refusals 1 and 2 by the document, the rest by the Rust.
fn expected_read(rust: &mut Option<Lent>, run: Run, buf: &mut [u8], at: usize) -> u8 {
    let Some(image) = rust else { return 1 };
    match end_in(run, at).and_then(|end| buf.get_mut(at..end)) {
        Some(part) => rust::read(image, run, part),
        None => 2,
    }
}

fn expected_comparison(rust: &mut Option<Lent>, run: Run, lent: &[u8]) -> Comparison {
    let Some(image) = rust else { return Comparison { refusal: 1, equal: 0 } };
    let Some(begin) = run.data_bytes().and_then(|need| lent.get(..need)) else {
        return Comparison { refusal: 2, equal: 0 };
    };
    let mut data = vec![0; begin.len()];
    match rust::read(image, run, &mut data) {
        0 => Comparison { refusal: 0, equal: u8::from(data == begin) },
        refusal => Comparison { refusal, equal: 0 },
    }
}

fn expected_fingerprint(rust: &mut Option<Lent>, lsn: u32) -> FingerprintAnswer {
    let Some(image) = rust else { return FingerprintAnswer { refusal: 1, digest: 0 } };
    let mut sector = [0; 2048];
    match rust::read(image, Run { lsn, count: 1 }, &mut sector) {
        0 => FingerprintAnswer { refusal: 0, digest: oracle::digest(&sector) },
        refusal => FingerprintAnswer { refusal, digest: 0 },
    }
}

/// The header of a sector, or why there is none: refusals 1 and 11 by the document, 8 by the Rust.
fn expected_header(image: &Image, rust: &Option<Lent>, lsn: u32) -> Result<Header, u8> {
    let opened = rust.as_ref().ok_or(1)?;
    if image.format != 2 {
        return Err(11);
    }
    if !opened.contains(u64::from(lsn), 1) {
        return Err(8);
    }
    let rest = image.bytes.get(lsn as usize * headers::STORED..).unwrap_or_default();
    rest.first_chunk().copied().ok_or(rust::FAILED)
}

/// What the run holds, as it is, with a byte changed, a byte short or with bytes behind.
fn lent_bytes(rng: &mut Rng, rust: &mut Option<Lent>, run: Run) -> Vec<u8> {
    let need = run.data_bytes().filter(|&need| need <= 1 << 20);
    let mut lent = vec![0; need.unwrap_or(4096)];
    if let Some(image) = rust {
        rust::read(image, run, &mut lent);
    }
    match rng.below(16) {
        0 => lent.truncate(lent.len().saturating_sub(1)),
        1 | 2 => lent.extend([rng.byte(), rng.byte()]),
        3..=8 => change_byte(rng, &mut lent),
        _ => {}
    }
    lent.shrink_to_fit();
    lent
}

/// Changes the first byte, the last one or any.
fn change_byte(rng: &mut Rng, bytes: &mut [u8]) {
    let Some(last) = bytes.len().checked_sub(1) else { return };
    let any = rng.below(bytes.len());
    let at = rng.pick(&[0, last, any]);
    bytes[at] ^= rng.nonzero();
}

/// FNV-1a, 64 bits, as published.
pub fn plain_digest(bytes: &[u8]) -> u64 {
    let mut hash = 0xcbf2_9ce4_8422_2325;
    for &byte in bytes {
        hash = u64::wrapping_mul(hash ^ u64::from(byte), 0x100_0000_01b3);
    }
    hash
}
