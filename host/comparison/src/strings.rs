//! Stored strings as parts of a table, how they ended, and their decoding into a page.

use crate::guard::Guarded;
use crate::held::{self, Words};
use crate::rust;
use crate::sectors::Buffer;
use crate::tally::Kind;
use generate::Rng;
use generate::endings::{MOST_BYTES, TABLE_END, ZERO_BYTE, end_at};
use generate::text::{MOST, any_code, any_page_length, any_string, any_text};
use generate::text::{single_texts, utf8_length};
use scarletbook::raw::DecodeAnswer;

/// Bytes next to a boundary of decoding.
const EDGES: [(u8, &str); 8] = [
    (0x00, "byte 00"),
    (0x1f, "byte 1F"),
    (0x20, "byte 20"),
    (0x7f, "byte 7F"),
    (0x80, "byte 80"),
    (0xbf, "byte BF"),
    (0xc0, "byte C0"),
    (0xff, "byte FF"),
];

/// A part of a table: its length, where it begins unless it is empty, and its bytes.
#[derive(Debug, PartialEq)]
struct Part<'a> {
    length: usize,
    begin: Option<usize>,
    bytes: Buffer<'a>,
}

/// What decoding leaves: its answer, and the page with what lies around it.
#[derive(Debug, PartialEq)]
pub struct Decoded<'a> {
    pub answer: DecodeAnswer,
    pub page: Buffer<'a>,
}

#[derive(Debug)]
#[allow(dead_code)] // its fields are printed
struct Question<'a> {
    bytes: Buffer<'a>,
    code: u8,
    words: Words,
    page: usize,
}

pub struct Strings {
    pub string_bytes: Kind,
    pub string_end: Kind,
    pub decode: Kind,
}

fn decode_kind() -> Kind {
    let sets = ["refusal 9", "set 3", "set 4", "set 5", "set 6", "set above 7"];
    let order = ["refusal 12", "9 before 10", "12 before 10"];
    let bad = ["absent by no mapping", "Latin-1 by no mapping"];
    let absent = ["absent in Latin-1", "absent in set 3 to 6", "Latin-1 above 7"];
    let pages = ["refusal 10", "page to the byte", "one byte short", "longer page", "no page"];
    let texts = ["ASCII alone", "high bytes alone", "ASCII and high bytes"];
    let controls = ["controls in ASCII", "controls and high bytes"];
    let lengths = ["4,096 bytes", "more than 4,096 bytes"];
    let lent = [&sets[..], &order, &bad, &MAPPED, &absent, &pages].concat();
    let edges = EDGES.map(|edge| edge.1);
    Kind::new("decode", &[&lent[..], &texts, &controls, &lengths, &edges].concat())
}

impl Strings {
    pub fn new() -> Self {
        let ends = ["before a zero", "to the table's end", "at a zero"];
        let last = ["4,095 before a zero", "4,095 to the end"];
        let full = ["4,096 before a zero", "4,096 to the end", "4,096 of 4,097", "4,096 of more"];
        let next = ["4,097 before a zero", "4,097 to the end"];
        let ended = ["by a zero byte", "by 4,096 bytes", "by the end"];
        let out = ["at the end", "just behind the end", "far out", "largest place", "no table"];
        Strings {
            string_bytes: Kind::new(
                "string_bytes",
                &[&ends[..], &last[..], &full[..], &out[..]].concat(),
            ),
            string_end: Kind::new(
                "string_end",
                &[&ends[..], &last[..], &full[..], &next[..], &out[..], &ended[..]].concat(),
            ),
            decode: decode_kind(),
        }
    }

    /// Strings next to 4,096 bytes; every code, every byte, and one other byte in every place of a text, in
    /// short pages.
    pub fn all(&mut self) {
        for length in [0, 1, 2, MOST - 2, MOST - 1, MOST, MOST + 1, MOST + 2, 2 * MOST] {
            for behind in [&b""[..], b"\0", b"\0\0", b"\0s"] {
                let table = [&b"\0s"[..], &vec![b's'; length], behind].concat();
                (0..4).for_each(|place| self.string_case(&table, place));
            }
        }
        for byte in 0..=255 {
            for page in 0..=6 {
                self.decode_case(b"ab \x1f\xe9", (byte, held::NONE), page, 0);
                self.decode_case(b"", (byte, held::NONE), page, 0);
            }
            for page in 0..=40 {
                self.decode_case(b"ab \x1f\xe9", (byte, held::of(byte)), page, 0);
            }
            for page in 0..=3 {
                self.decode_case(&[byte], (0, held::NONE), page, 0);
            }
        }
        for text in single_texts(0x1f).chain(single_texts(0xe9)) {
            let need = utf8_length(&text);
            self.decode_case(&text, (0, held::NONE), need, 0);
            self.decode_case(&text, (0, held::NONE), need - 1, 0);
        }
    }

    /// A random string and a random text.
    pub fn cases(&mut self, rng: &mut Rng) {
        let (table, place) = any_string(rng);
        self.string_case(&table, place);
        let text = any_text(rng);
        let code = any_code(rng);
        let need = rust::decode(&text, code).map_or(0, |text| text.len());
        let page = any_page_length(rng, need);
        self.decode_case(&text, (code, held::any(rng, code)), page, rng.below(256));
    }

    fn string_case(&mut self, table: &[u8], place: usize) {
        let string = oracle::text::string_bytes(table, place);
        let library = scarletbook::raw::string_bytes(table, place);
        let library = part(table, library, scarletbook::raw::string_length(table, place));
        let kind = &mut self.string_bytes;
        let question = ("table", Buffer(table), "place", place);
        kind.case(&question, 0, library, part(table, string, string.len()));
        count_string(kind, table, place, string.len());
        let kind = &mut self.string_end;
        let end = end_at(table, place);
        kind.case(&question, 0, scarletbook::raw::string_end(table, place), end);
        count_string(kind, table, place, string.len());
        kind.class_if("by a zero byte", end == ZERO_BYTE);
        kind.class_if("by 4,096 bytes", end == MOST_BYTES);
        kind.class_if("by the end", end == TABLE_END);
    }

    /// Decodes bytes of the set that a code names, by these words.
    pub fn decode_case(&mut self, bytes: &[u8], by: (u8, Words), page: usize, salt: usize) {
        let (code, words) = by;
        let mut ours = Guarded::bytes(salt, page);
        let mut theirs = ours.clone();
        let answer = scarletbook::raw::decode(bytes, code, words.list, &mut ours);
        let library = Decoded { answer, page: Buffer(ours.all()) };
        let text = rust::decode(bytes, code);
        let answer = expected_text(text.as_deref(), by, &mut theirs);
        let rust = Decoded { answer, page: Buffer(theirs.all()) };
        let kind = &mut self.decode;
        let question = Question { bytes: Buffer(bytes), code, words, page };
        kind.values.note(&library.answer, &rust.answer);
        kind.case(&question, answer.refusal, library, rust);
        let need = text.map_or(0, |text| text.len());
        count_code(kind, bytes, code, answer);
        count_words(kind, bytes, by, answer);
        kind.class_if("9 before 10", answer.refusal == 9 && need > page);
        kind.class_if("12 before 10", answer.refusal == 12 && need > page);
        count_page(kind, need, page, answer);
        if !held::is_mapped(code) {
            count_text(kind, bytes, answer);
        }
    }
}

fn part<'a>(table: &[u8], bytes: &'a [u8], length: usize) -> Part<'a> {
    let begin = bytes.as_ptr().addr().wrapping_sub(table.as_ptr().addr());
    Part { length, begin: (!bytes.is_empty()).then_some(begin), bytes: Buffer(bytes) }
}

/// The classes of a string, by its length, the byte behind it, and the place.
fn count_string(kind: &mut Kind, table: &[u8], place: usize, length: usize) {
    let rest = table.get(place..).unwrap_or_default();
    let zero = rest.get(length) == Some(&0);
    let end = rest.len() == length;
    let below = 0 < length && length < MOST;
    kind.class_if("before a zero", below && zero);
    kind.class_if("to the table's end", below && end);
    kind.class_if("at a zero", length == 0 && zero);
    kind.class_if("4,095 before a zero", length == MOST - 1 && zero);
    kind.class_if("4,095 to the end", length == MOST - 1 && end);
    kind.class_if("4,096 before a zero", length == MOST && zero);
    kind.class_if("4,096 to the end", length == MOST && end);
    let behind = rest.iter().skip(length).take_while(|&&byte| byte != 0).count();
    kind.class_if("4,096 of 4,097", length == MOST && behind == 1);
    let to_the_end = rest.len() == length + behind;
    kind.class_if("4,097 before a zero", length == MOST && behind == 1 && !to_the_end);
    kind.class_if("4,097 to the end", length == MOST && behind == 1 && to_the_end);
    kind.class_if("4,096 of more", length == MOST && behind > 1);
    kind.class_if("at the end", place == table.len() && place > 0);
    kind.class_if("just behind the end", place == table.len() + 1);
    kind.class_if("far out", place > table.len() + 1);
    kind.class_if("largest place", place == usize::MAX && !table.is_empty());
    kind.class_if("no table", table.is_empty());
}

/// A text of the Rust, which has the mapping of each set; refusals 9, 12 and 10 by the document.
pub fn expected_text(text: Option<&str>, by: (u8, Words), page: &mut [u8]) -> DecodeAnswer {
    let refused = |refusal| DecodeAnswer { refusal, len: 0 };
    let Some(text) = text else { return refused(0) };
    let (code, words) = by;
    if held::is_mapped(code) && words.refusal != 0 {
        return refused(words.refusal);
    }
    let Some(start) = page.get_mut(..text.len()) else { return refused(10) };
    start.copy_from_slice(text.as_bytes());
    DecodeAnswer { refusal: 0, len: text.len() }
}

fn count_code(kind: &mut Kind, bytes: &[u8], code: u8, answer: DecodeAnswer) {
    let set = code % 8;
    let mapped = held::is_mapped(code);
    for (number, class) in [(3, "set 3"), (4, "set 4"), (5, "set 5"), (6, "set 6")] {
        kind.class_if(class, answer.refusal == 9 && set == number);
    }
    kind.class_if("set above 7", answer.refusal == 9 && code > 7);
    kind.class_if("Latin-1 above 7", answer.len > 0 && code > 7);
    kind.class_if("absent in Latin-1", bytes.is_empty() && !mapped);
    kind.class_if("absent in set 3 to 6", bytes.is_empty() && mapped);
}

/// The classes of the words that are lent.
fn count_words(kind: &mut Kind, bytes: &[u8], (code, words): (u8, Words), answer: DecodeAnswer) {
    let (mapped, bad) = (held::is_mapped(code), words.refusal == 12);
    kind.class_if("absent by no mapping", bytes.is_empty() && mapped && bad);
    kind.class_if("Latin-1 by no mapping", answer.len > 0 && !mapped && bad);
    count_mapped(kind, code, answer);
}

/// The classes of texts that are decoded by a mapping: of each set, and of all.
pub const MAPPED: [&str; 5] =
    ["mapped in set 3", "mapped in set 4", "mapped in set 5", "mapped in set 6", BY_MAPPING];
pub const BY_MAPPING: &str = "by a mapping";

pub fn count_mapped(kind: &mut Kind, code: u8, answer: DecodeAnswer) {
    if held::is_mapped(code) && answer.len > 0 {
        kind.class(MAPPED[usize::from(code % 8) - 3], 1);
        kind.class(BY_MAPPING, 1);
    }
}

fn count_page(kind: &mut Kind, need: usize, page: usize, answer: DecodeAnswer) {
    kind.class_if("page to the byte", answer.len > 0 && page == need);
    kind.class_if("longer page", answer.len > 0 && page > need);
    kind.class_if("one byte short", answer.refusal == 10 && page + 1 == need && page > 0);
    kind.class_if("no page", answer.refusal == 10 && page == 0);
}

/// The classes of a decoded text, by its bytes.
fn count_text(kind: &mut Kind, bytes: &[u8], answer: DecodeAnswer) {
    if answer.len == 0 {
        return;
    }
    let (mut met, mut controls, mut plain, mut high) = ([false; 256], false, false, false);
    for &byte in bytes {
        met[usize::from(byte)] = true;
        controls |= byte < 0x20;
        plain |= (0x20..0x80).contains(&byte);
        high |= byte >= 0x80;
    }
    kind.class_if("ASCII alone", plain && !controls && !high);
    kind.class_if("high bytes alone", high && !plain && !controls);
    kind.class_if("ASCII and high bytes", plain && high && !controls);
    kind.class_if("controls in ASCII", plain && controls && !high);
    kind.class_if("controls and high bytes", controls && high);
    kind.class_if("4,096 bytes", bytes.len() == MOST);
    kind.class_if("more than 4,096 bytes", bytes.len() > MOST);
    for (byte, class) in EDGES {
        kind.class_if(class, met[usize::from(byte)]);
    }
}
