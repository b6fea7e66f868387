//! Mending of many headers, in images that must stay as they are, against a plain search; and its
//! refusals, each alone and before later ones.

use crate::guard::Guarded;
use crate::headers::{self, any_correct, random};
use crate::tally::Kind;
use generate::Rng;
use generate::header::{self, Header};
use generate::layout::{FOREIGN, layout};
use scarletbook::SectorFormat;
use scarletbook::raw::{self, Mended};

/// Other correct headers, as many with two bytes changed, and as many of any bytes, beside each correct
/// one and its single changes.
const OTHERS: usize = 120;
/// The document's sound header.
const DOCUMENT: Header = [0, 0, 0, 1, 3, 2];
/// It, with one byte changed, and with two, beyond mending.
const ASKED: [Header; 3] = [DOCUMENT, [0, 0, 0, 1, 3, 7], [0, 0, 0, 1, 2, 3]];
/// Lengths of images at and next to the ends of sectors in each format.
const LENGTHS: [usize; 10] = [0, 1, 2047, 2048, 2053, 2054, 2063, 2064, 4127, 4128];
const ADDRESSES: [u32; 5] = [0, 1, 2, 1 << 31, u32::MAX];

const IN_ZEROS: &str = "one byte changed in zeros";
const IN_DOCUMENT: &str = "one byte changed in the document's";
/// Those that mend, and those beyond mending.
const TWO: [&str; 2] = ["two bytes changed and mended", "two bytes changed and beyond mending"];
const RANDOM: [&str; 2] = ["random and mended", "random and beyond mending"];
/// The faults of a question, of which the first refuses it: of its format in rows, of its sector in columns.
const FAULTS: [[&str; 3]; 3] =
    [["none", "14", "8"], ["11", "11 and 14", "11 and 8"], ["1", "1 and 14", "1 and 8"]];

pub struct Mending {
    pub many: Kind,
    pub images: Kind,
    pub refusals: Kind,
}

impl Mending {
    pub fn new() -> Self {
        let others = ["correct", "one byte changed", IN_ZEROS, IN_DOCUMENT, "refusal 14"];
        Mending {
            many: Kind::new("mend, headers", &[&others[..], &TWO, &RANDOM].concat()),
            images: Kind::new("mend, images", &["many headers", "refusals"]),
            refusals: Kind::new("mend, refusals", FAULTS.as_flattened()),
        }
    }

    /// At least so many headers, and every combination of faults.
    pub fn cases(&mut self, seed: u64, least: u64) {
        let rng = &mut Rng::new(seed);
        let mut named = [([0; 6], IN_ZEROS), (DOCUMENT, IN_DOCUMENT)].into_iter();
        while self.many.cases < least {
            let other = (any_correct(rng), "one byte changed");
            let (correct, class) = named.next().unwrap_or(other);
            self.changes(rng, correct, class);
        }
        for (header, length) in pairs(&ASKED, &LENGTHS) {
            self.refused(header, length);
        }
    }

    /// A correct header and all its single changes, of a class of their own, which must come back as it
    /// was; other correct ones, some with two bytes changed, and random ones.
    fn changes(&mut self, rng: &mut Rng, correct: Header, class: &'static str) {
        let mut cases = vec![Case::back(correct, correct, "correct")];
        let singles = header::single_changes(correct);
        cases.extend(singles.map(|changed| Case::back(changed, correct, class)));
        for _ in 0..OTHERS {
            let other = any_correct(rng);
            cases.push(Case::back(other, other, "correct"));
            cases.push(Case::searched(header::double_change(rng, other), TWO));
            cases.push(Case::searched(random(rng), RANDOM));
        }
        let headers: Vec<_> = cases.iter().map(|case| case.header).collect();
        let mut image = headers::image(&headers);
        headers::fill_data(rng, &mut image);
        self.lend("many headers", &image, |mending, lent| mending.mend_all(&cases, lent));
    }

    fn mend_all(&mut self, cases: &[Case], lent: &[u8]) {
        for (lsn, &Case { header, mended, class }) in cases.iter().enumerate() {
            let library = raw::mend(SectorFormat::Raw2064, lent, lsn as u32);
            let expected = answer(mended);
            self.many.record_case(&header, expected.refusal, library, expected);
            self.many.class(class, 1);
        }
    }

    /// Questions in every format about an image of so many bytes, of whose sectors each has this header.
    fn refused(&mut self, header: Header, length: usize) {
        let image = &headers::image(&[header; 2])[..length];
        let mended = header::mended(header);
        let formats = [&FOREIGN[..], &[0, 1, 2]].concat();
        self.lend("refusals", image, |mending, lent| {
            for (format, lsn) in pairs(&formats, &ADDRESSES) {
                let question = Question { format, length, lsn, header, mended };
                let expected = question.expected();
                let kind = &mut mending.refusals;
                let library = raw::mend(format, lent, lsn);
                kind.record_case(&question, expected.refusal, library, expected);
                kind.class(question.faults(), 1);
            }
        });
    }

    /// Lends an image that lies in the middle of more memory: all of it must stay as it was.
    fn lend(&mut self, class: &str, image: &[u8], ask: impl FnOnce(&mut Self, &[u8])) {
        let lent = Guarded::holding(image.len(), image);
        let before = lent.clone();
        ask(self, &lent);
        let [after, before] = lent.differing(&before);
        self.images.case(&(class, lent.len()), 0, after, before);
        self.images.class(class, 1);
    }
}

/// Every pair of entries of two lists.
fn pairs<A: Copy, B: Copy>(first: &[A], second: &[B]) -> impl Iterator<Item = (A, B)> {
    first.iter().flat_map(move |&a| second.iter().map(move |&b| (a, b)))
}

/// A header, what it mends to, and its class.
struct Case {
    header: Header,
    mended: Option<Header>,
    class: &'static str,
}

impl Case {
    /// It must come back as a correct one, which the search must find too.
    fn back(header: Header, correct: Header, class: &'static str) -> Self {
        assert_eq!(header::mended(header), Some(correct), "{header:?}");
        Case { header, mended: Some(correct), class }
    }

    /// Of one class if there is a header that it mends to, else of the other.
    fn searched(header: Header, [found, none]: [&'static str; 2]) -> Self {
        let mended = header::mended(header);
        Case { header, mended, class: if mended.is_some() { found } else { none } }
    }
}

/// A question about an image of so many bytes, of whose sectors each has the same header.
#[derive(Debug)]
struct Question {
    format: u32,
    length: usize,
    lsn: u32,
    #[allow(dead_code)] // is printed
    header: Header,
    mended: Option<Header>,
}

impl Question {
    /// By the document: 1, then 11, then 8, then what the search finds, or 14.
    fn expected(&self) -> Mended {
        match self.format {
            0 | 1 => refused(11),
            2 if self.is_missing() => refused(8),
            2 => answer(self.mended),
            3.. => refused(1),
        }
    }

    /// Whether the sector is not in the image. A foreign format counts as format 2 here.
    fn is_missing(&self) -> bool {
        let stored = layout(self.format).map_or(headers::STORED, |layout| layout.stored);
        self.lsn as usize >= self.length / stored
    }

    fn faults(&self) -> &'static str {
        let format = match self.format {
            2 => 0,
            0 | 1 => 1,
            3.. => 2,
        };
        let sector = match (self.is_missing(), self.mended) {
            (false, Some(_)) => 0,
            (false, None) => 1,
            (true, _) => 2,
        };
        FAULTS[format][sector]
    }
}

pub fn refused(refusal: u8) -> Mended {
    Mended { refusal, header: [0; 6] }
}

/// What is answered of a header that is there, by what it mends to.
pub fn answer(mended: Option<Header>) -> Mended {
    mended.map_or(refused(14), |header| Mended { refusal: 0, header })
}
