//! A disc as JSON, for a catalogue: the data of the dump. A key of the dump with a dot in it is an
//! object in an object here, and what is counted there (locales, areas, tracks, warnings) an array.

use crate::fields::{self, Fields, Text, Value};
use crate::reading::Reading;
use scarletbook::record::Locale;
use scarletbook::{Area, Disc, Refusal, Warning};
use std::fmt::{Display, Write};

/// What a reading gave, as one JSON object with a line feed behind it.
pub fn json(reading: Reading) -> String {
    let mut json = Json::default();
    json.open('{');
    json.key("refused");
    json.refusal(reading.refusal);
    if let Some(disc) = reading.disc {
        json.value("format", Value::Number(reading.format));
        json.key("sectors");
        json.plain(reading.sectors);
        json.disc(disc);
    }
    json.close('}');
    json.out.push('\n');
    json.out
}

/// A writer of JSON: a member or element a line, two blanks before it for each level.
#[derive(Default)]
struct Json {
    out: String,
    depth: usize,
    /// Whether something stands before in the same object or array.
    follows: bool,
}

impl Json {
    fn disc(&mut self, disc: &Disc) {
        self.key("master");
        self.open('{');
        fields::master(disc, self);
        self.close('}');
        self.array("areas", disc.areas(), Json::area);
        self.array("warnings", disc.warnings(), Json::warning);
    }

    fn area(&mut self, area: Area) {
        self.open('{');
        fields::area(&area, self);
        self.array("tracks", area.tracks(), |json, track| {
            json.open('{');
            fields::track(&track, json);
            json.close('}');
        });
        self.close('}');
    }

    fn warning(&mut self, warning: Warning) {
        self.object(&[
            ("code", &(warning.code as u8)),
            ("name", &quoted(warning.code.code())),
            ("slot", &warning.slot),
            ("track", &warning.track),
        ]);
    }

    fn refusal(&mut self, refusal: Option<Refusal>) {
        match refusal {
            None => self.plain("null"),
            Some(refusal) => {
                self.object(&[("number", &refusal.number()), ("word", &quoted(refusal.word()))])
            }
        }
    }

    /// A member that is an array, each element on lines of its own.
    fn array<T>(
        &mut self,
        key: &str,
        elements: impl Iterator<Item = T>,
        write: impl Fn(&mut Json, T),
    ) {
        self.key(key);
        self.open('[');
        for element in elements {
            self.begin();
            write(self, element);
        }
        self.close(']');
    }

    /// An object on one line.
    fn object(&mut self, members: &[(&str, &dyn Display)]) {
        let members = members.iter().map(|(key, value)| format!("\"{key}\": {value}"));
        self.plain(format_args!("{{{}}}", members.collect::<Vec<_>>().join(", ")));
    }

    /// Opens an object or an array.
    fn open(&mut self, bracket: char) {
        self.out.push(bracket);
        self.depth += 1;
        self.follows = false;
    }

    /// Closes an object or an array, on its own line unless it is empty.
    fn close(&mut self, bracket: char) {
        self.depth -= 1;
        if self.follows {
            self.line();
        }
        self.out.push(bracket);
        self.follows = true;
    }

    /// Begins a member or an element.
    fn begin(&mut self) {
        if self.follows {
            self.out.push(',');
        }
        self.line();
        self.follows = true;
    }

    fn line(&mut self) {
        self.out.push('\n');
        self.out.extend(std::iter::repeat_n("  ", self.depth));
    }

    fn key(&mut self, key: &str) {
        self.begin();
        self.plain(format_args!("\"{key}\": "));
    }

    /// A value that needs no escape.
    fn plain(&mut self, value: impl Display) {
        write!(self.out, "{value}").expect("a String takes all");
    }
}

impl Fields for Json {
    fn value(&mut self, key: &str, value: Value) {
        self.key(key);
        match value {
            Value::Number(number) => self.plain(number),
            Value::Version(version) => {
                self.object(&[("major", &version.major), ("minor", &version.minor)]);
            }
            Value::Pointer(pointer) => self.object(&[
                ("toc1_lsn", &pointer.toc1_lsn.0),
                ("toc2_lsn", &pointer.toc2_lsn.0),
                ("toc_sectors", &pointer.toc_sectors),
            ]),
            Value::Timecode(time) => self.object(&[
                ("minutes", &time.minutes),
                ("seconds", &time.seconds),
                ("frames", &time.frames),
            ]),
            Value::Date(date) => {
                self.object(&[("year", &date.year), ("month", &date.month), ("day", &date.day)]);
            }
            Value::Genre(Some(genre)) => {
                self.object(&[("category", &genre.category), ("index", &genre.index)]);
            }
            Value::Kind(1) => self.plain("\"TWOCHTOC\""),
            Value::Kind(_) => self.plain("\"MULCHTOC\""),
            Value::Bytes(bytes) => self.plain(hexadecimal(bytes)),
            Value::Fixed(Some(text)) => self.plain(quoted(&text.to_string())),
            Value::Digest(Some(digest)) => self.plain(format_args!("\"{digest:016x}\"")),
            Value::Genre(None) | Value::Fixed(None) | Value::Digest(None) => self.plain("null"),
        }
    }

    fn locales(&mut self, locales: &[Locale]) {
        self.array("locales", locales.iter(), |json, locale| {
            json.object(&[
                ("language", &quoted(&locale.language.to_string())),
                ("language_code", &hexadecimal(&locale.language_code)),
                ("charset", &locale.charset),
            ]);
        });
    }

    fn texts(&mut self, texts: impl Iterator<Item = (&'static str, Text)>) {
        self.key("text");
        self.open('{');
        for (key, text) in texts {
            self.key(key);
            match text {
                Text::Absent => self.plain("null"),
                Text::Decoded(text) => self.plain(quoted(&text)),
                Text::NotHeld(set) | Text::BadMapping(set) => self.object(&[("set", &set)]),
            }
        }
        self.close('}');
    }
}

/// A string of JSON. Quotes, backslashes and control characters are escaped.
fn quoted(text: &str) -> String {
    let mut out = String::from('"');
    for character in text.chars() {
        match character {
            '"' | '\\' => out.extend(['\\', character]),
            '\n' => out.push_str("\\n"),
            '\r' => out.push_str("\\r"),
            '\t' => out.push_str("\\t"),
            _ if character.is_control() => out.push_str(&escaped(character)),
            _ => out.push(character),
        }
    }
    out.push('"');
    out
}

/// A control character by its number.
fn escaped(character: char) -> String {
    format!("\\u{:04x}", u32::from(character))
}

/// A string of two hexadecimal digits for each byte.
fn hexadecimal(bytes: &[u8]) -> String {
    let digits: String = bytes.iter().map(|byte| format!("{byte:02x}")).collect();
    format!("\"{digits}\"")
}

#[cfg(test)]
mod tests {
    use super::*;

    #[test]
    fn strings_are_escaped() {
        assert_eq!(quoted("Prélude \"à\" l\\'étang/"), r#""Prélude \"à\" l\\'étang/""#);
        assert_eq!(
            quoted("\t\n\r\0\x1b\x7f\u{85}\u{a0}"),
            "\"\\t\\n\\r\\u0000\\u001b\\u007f\\u0085\u{a0}\""
        );
        assert_eq!(quoted(""), "\"\"");
    }

    #[test]
    fn bytes_are_hexadecimal() {
        assert_eq!(hexadecimal(&[0, 0x0f, 0xf0, 0xff]), "\"000ff0ff\"");
        assert_eq!(hexadecimal(&[]), "\"\"");
    }

    #[test]
    fn an_image_that_is_refused_has_its_refusal_alone() {
        let refused = json(Reading::new(0, &[], &Disc::read(0_u32, &[])));
        assert_eq!(refused, "{\n  \"refused\": {\"number\": 3, \"word\": \"cut master\"}\n}\n");
    }
}
