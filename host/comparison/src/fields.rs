//! Character sets and language codes, all of them, and fixed fields.

use crate::rust;
use crate::tally::Kind;
use generate::Rng;
use generate::text::{WHITE, any_field, double_fields, single_fields};

/// The bytes at the edges of white space, and those next to them.
const EDGES: [(u8, &str); 14] = [
    (0x08, "08 at both ends"),
    (0x09, "09 at both ends"),
    (0x0d, "0D at both ends"),
    (0x0e, "0E at both ends"),
    (0x1b, "1B at both ends"),
    (0x1c, "1C at both ends"),
    (0x20, "20 at both ends"),
    (0x21, "21 at both ends"),
    (0x84, "84 at both ends"),
    (0x85, "85 at both ends"),
    (0x86, "86 at both ends"),
    (0x9f, "9F at both ends"),
    (0xa0, "A0 at both ends"),
    (0xa1, "A1 at both ends"),
];

pub struct Fields {
    pub charset: Kind,
    pub language: Kind,
    pub fixed_bytes: Kind,
    pub fixed_text: Kind,
}

impl Fields {
    pub fn new() -> Self {
        let sets = ["Latin-1", "set 3", "set 4", "set 5", "set 6", "Latin-1 above 7"];
        let codes = ["two characters", "one before a zero", "one before a blank", "none"];
        let kept = ["zero first", "blank first", "high byte"];
        let zeros = ["no field", "zero first", "zero last", "no zero", "16 bytes"];
        let longer = ["longer than 16", "zero behind 16", "no zero in more than 16"];
        let white = ["as stored", "white first", "white last", "white first and last"];
        let inside = ["white alone", "white inside", "control inside", "high byte inside"];
        Fields {
            charset: Kind::new("charset", &[&sets[..], &["set above 7"]].concat()),
            language: Kind::new("language", &[&codes[..], &kept[..]].concat()),
            fixed_bytes: Kind::new("fixed_bytes", &[&zeros[..], &longer[..]].concat()),
            fixed_text: Kind::new(
                "fixed_text",
                &[&zeros[..], &longer[..], &white[..], &inside[..], &EDGES.map(|edge| edge.1)]
                    .concat(),
            ),
        }
    }

    /// Every code, every language, and every byte in every place of a field.
    pub fn all(&mut self) {
        for code in 0..=255 {
            self.charset_case(code);
            for second in 0..=255 {
                self.language_case([code, second]);
            }
        }
        for field in single_fields().chain(double_fields()) {
            self.field_case(&field);
        }
    }

    /// A random field.
    pub fn cases(&mut self, rng: &mut Rng) {
        self.field_case(&any_field(rng));
    }

    fn charset_case(&mut self, code: u8) {
        let set = rust::charset(code);
        let kind = &mut self.charset;
        kind.case(&("code", code), 0, scarletbook::raw::charset(code), set);
        for (number, class) in [(3, "set 3"), (4, "set 4"), (5, "set 5"), (6, "set 6")] {
            kind.class_if(class, set == number);
        }
        kind.class_if("Latin-1", set == 0);
        kind.class_if("Latin-1 above 7", set == 0 && code > 7);
        kind.class_if("set above 7", set != 0 && code > 7);
    }

    fn language_case(&mut self, code: [u8; 2]) {
        let rust = rust::language(code);
        let kind = &mut self.language;
        kind.record_case(&("code", code), 0, scarletbook::raw::language(code), rust);
        let [first, second] = code;
        kind.class_if("two characters", rust.len == 2);
        kind.class_if("one before a zero", rust.len == 1 && second == 0);
        kind.class_if("one before a blank", rust.len == 1 && second == b' ');
        kind.class_if("none", rust.len == 0);
        kind.class_if("zero first", rust.len == 2 && first == 0);
        kind.class_if("blank first", rust.len == 2 && first == b' ');
        kind.class_if("high byte", first >= 0x80 && second >= 0x80);
    }

    fn field_case(&mut self, field: &[u8]) {
        let (stored, trimmed) = (rust::fixed_bytes(field), rust::fixed_text(field));
        let question = ("field", field);
        self.fixed_bytes.record_case(&question, 0, scarletbook::raw::fixed_bytes(field), stored);
        self.fixed_text.record_case(&question, 0, scarletbook::raw::fixed_text(field), trimmed);
        for kind in [&mut self.fixed_bytes, &mut self.fixed_text] {
            count_field(kind, field);
        }
        count_text(&mut self.fixed_text, stored.text(), trimmed.text());
    }
}

/// The classes of a field, by its first zero.
fn count_field(kind: &mut Kind, field: &[u8]) {
    let (length, zero) = (field.len(), field.iter().position(|&byte| byte == 0));
    kind.class_if("no field", length == 0);
    kind.class_if("zero first", zero == Some(0));
    kind.class_if("zero last", (2..=16).contains(&length) && zero == Some(length - 1));
    kind.class_if("no zero", (1..=16).contains(&length) && zero.is_none());
    kind.class_if("16 bytes", length == 16 && zero.is_none());
    kind.class_if("longer than 16", length > 16);
    kind.class_if("zero behind 16", length > 16 && zero == Some(16));
    kind.class_if("no zero in more than 16", length > 16 && zero.is_none());
}

/// The classes of a text, as stored and trimmed.
fn count_text(kind: &mut Kind, stored: &[u8], trimmed: &[u8]) {
    let white = |byte: &u8| WHITE.contains(byte);
    let (first, last) = (stored.first(), stored.last());
    let ends = [first.is_some_and(white), last.is_some_and(white)];
    let some = !trimmed.is_empty();
    kind.class_if("as stored", some && ends == [false, false]);
    kind.class_if("white first", some && ends == [true, false]);
    kind.class_if("white last", some && ends == [false, true]);
    kind.class_if("white first and last", some && ends == [true, true]);
    kind.class_if("white alone", !some && !stored.is_empty());
    kind.class_if("white inside", trimmed.iter().any(white));
    kind.class_if("control inside", trimmed.iter().any(|byte| *byte < 32 && !white(byte)));
    kind.class_if("high byte inside", trimmed.iter().any(|byte| *byte >= 0x80 && !white(byte)));
    for (byte, class) in EDGES {
        kind.class_if(class, stored.len() > 2 && first == Some(&byte) && last == Some(&byte));
    }
}
