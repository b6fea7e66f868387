//! The audit of many headers, and of images with a blank stretch, against a plain division of
//! polynomials.

use crate::tally::Kind;
use generate::Rng;
use generate::header::{self, Header, Verdict};
use scarletbook::SectorFormat;
use scarletbook::raw::AuditAnswer;

pub const STORED: usize = 2064;
/// Other correct headers, and as many of any bytes, beside each one and its single changes.
const OTHERS: usize = 500;
/// The sectors of a stretch, and of each part of the image beside it, at most.
const PART: usize = 12;

pub struct Headers {
    pub many: Kind,
    pub stretches: Kind,
}

impl Headers {
    pub fn new() -> Self {
        let zeros = ["six zeros", "one byte changed in zeros", "multiple of three bytes"];
        let others = ["correct", "one byte changed", "random"];
        let verdicts = ["sound", "blank", "unsound"];
        let stretches = PLACES.map(Place::class);
        let data = ["blank before zeros", "blank before data"];
        Headers {
            many: Kind::new("audit, headers", &[&zeros[..], &others, &verdicts].concat()),
            stretches: Kind::new("audit, stretches", &[&stretches[..], &data, &verdicts].concat()),
        }
    }

    /// At least so many headers, and a tenth as many in images with blank stretches.
    pub fn cases(&mut self, seed: u64, least: u64) {
        let rng = &mut Rng::new(seed);
        while self.many.cases < least {
            self.correct_and_random(rng);
        }
        self.zeros();
        while self.stretches.cases < least / 10 {
            for (place, data) in
                PLACES.into_iter().flat_map(|place| [(place, false), (place, true)])
            {
                self.stretch(rng, place, data);
            }
        }
    }

    /// Six zeros, every header that differs from them in one byte, and every multiple that differs
    /// in three bytes that stand together: no other is nearer.
    fn zeros(&mut self) {
        let changed: Vec<_> = header::single_changes([0; 6]).collect();
        let multiples: Vec<_> = header::products().collect();
        audit_all(&mut self.many, &image(&[&[[0; 6]][..], &changed, &multiples].concat()));
        self.many.class("six zeros", 1);
        self.many.class("one byte changed in zeros", changed.len());
        self.many.class("multiple of three bytes", multiples.len());
    }

    /// A correct header, all its single changes, other correct ones, random ones.
    fn correct_and_random(&mut self, rng: &mut Rng) {
        let correct = any_correct(rng);
        let mut headers = vec![correct];
        headers.extend(header::single_changes(correct));
        let changed = headers.len() - 1;
        headers.extend((0..OTHERS).map(|_| any_correct(rng)));
        headers.extend((0..OTHERS).map(|_| random(rng)));
        audit_all(&mut self.many, &image(&headers));
        self.many.class("correct", 1 + OTHERS);
        self.many.class("one byte changed", changed);
        self.many.class("random", OTHERS);
    }

    /// An image with a blank stretch, before zeros or before any data.
    fn stretch(&mut self, rng: &mut Rng, place: Place, data: bool) {
        let blank = 1 + rng.below(PART);
        let written = |rng: &mut Rng| {
            let sectors = 1 + rng.below(PART);
            (0..sectors).map(|_| any_written(rng)).collect::<Vec<_>>()
        };
        let before = if place == Place::Start { vec![] } else { written(rng) };
        let behind = if place == Place::End { vec![] } else { written(rng) };
        let mut image = image(&[&before[..], &vec![[0; 6]; blank], &behind].concat());
        if data {
            fill_data(rng, &mut image);
        }
        let kind = &mut self.stretches;
        audit_all(kind, &image);
        kind.class(place.class(), blank);
        kind.class(if data { "blank before data" } else { "blank before zeros" }, blank);
    }
}

/// Where a blank stretch lies in an image.
#[derive(Clone, Copy, PartialEq)]
enum Place {
    Start,
    Middle,
    End,
}

const PLACES: [Place; 3] = [Place::Start, Place::Middle, Place::End];

impl Place {
    fn class(self) -> &'static str {
        match self {
            Place::Start => "blank at the start",
            Place::Middle => "blank in the middle",
            Place::End => "blank at the end",
        }
    }
}

pub fn any_correct(rng: &mut Rng) -> Header {
    let lsn = rng.below(1 << 22);
    header::correct(header::any_id(rng, lsn))
}

pub fn random(rng: &mut Rng) -> Header {
    let mut header = [0; 6];
    rng.fill(&mut header);
    header
}

/// The header of a written sector: correct or damaged.
fn any_written(rng: &mut Rng) -> Header {
    let correct = any_correct(rng);
    match rng.below(3) {
        0 => header::damaged(rng, correct),
        _ => correct,
    }
}

/// An image of format 2 whose sectors have these headers, before zeros.
pub fn image(headers: &[Header]) -> Vec<u8> {
    let mut image = vec![0; headers.len() * STORED];
    for (sector, header) in image.chunks_exact_mut(STORED).zip(headers) {
        sector[..6].copy_from_slice(header);
    }
    image
}

/// Gives the sectors of an image of format 2 any data.
pub fn fill_data(rng: &mut Rng, image: &mut [u8]) {
    image.chunks_exact_mut(STORED).for_each(|sector| rng.fill(&mut sector[6..]));
}

/// Audits every sector of an image of format 2.
fn audit_all(kind: &mut Kind, image: &[u8]) {
    for (lsn, sector) in image.chunks_exact(STORED).enumerate() {
        let header: Header = sector[..6].try_into().expect("six bytes");
        let audited = scarletbook::raw::audit(SectorFormat::Raw2064, image, lsn as u32);
        let expected = expected(header);
        kind.record_case(&header, 0, audited, expected);
        count_verdict(kind, expected);
    }
}

/// What is answered of a header that is there.
pub fn expected(header: Header) -> AuditAnswer {
    AuditAnswer { refusal: 0, verdict: header::verdict(header) as u8 }
}

/// The classes of the verdicts; none with a refusal.
pub fn count_verdict(kind: &mut Kind, expected: AuditAnswer) {
    let is = |verdict: Verdict| expected.verdict == verdict as u8;
    kind.class_if("sound", is(Verdict::Sound));
    kind.class_if("blank", is(Verdict::Blank));
    kind.class_if("unsound", is(Verdict::Unsound));
}
