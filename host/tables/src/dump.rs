//! The canonical dump of a disc: lines of a key, a blank and a value.

use crate::fields::{self, Fields, Text, Value};
use crate::reading::Reading;
use scarletbook::record::{Locale, MAX_LOCALES};
use scarletbook::{Area, Disc, Memory};
use std::fmt::{Arguments, Display, Write};

const DIGITS: &[u8; 16] = b"0123456789abcdef";
/// The keys of locales; a record has ten at most.
const LOCALES: [&str; MAX_LOCALES] = [
    "locale0", "locale1", "locale2", "locale3", "locale4", "locale5", "locale6", "locale7",
    "locale8", "locale9",
];

/// The dump of an image read in a format.
pub fn dump(format: u32, image: &[u8]) -> String {
    dump_reading(Reading::new(format, image, &Disc::read(format, image)))
}

/// The same, with the disc read into memory that is lent.
pub fn dump_in(memory: Memory, format: u32, image: &[u8]) -> String {
    dump_reading(Reading::new(format, image, &Disc::read_in(format, image, memory)))
}

/// The dump of what a reading gave.
pub fn dump_reading(reading: Reading) -> String {
    let mut dump = Dump::default();
    match reading.refusal {
        None => dump.line("accepted", ""),
        Some(refusal) => dump.line("refused ", refusal.number()),
    }
    if let Some(disc) = reading.disc {
        dump.disc(disc);
    }
    dump.out
}

#[derive(Default)]
struct Dump {
    out: String,
    /// What each key begins with.
    prefix: String,
}

impl Dump {
    fn disc(&mut self, disc: &Disc) {
        self.prefix.push_str("master.");
        fields::master(disc, self);
        self.prefix.clear();
        self.line("areas ", disc.areas().count());
        for area in disc.areas() {
            self.area(&area);
        }
        self.line("warnings ", disc.warnings().count());
        for warning in disc.warnings() {
            let (code, slot, track) = (warning.code as u8, warning.slot, warning.track);
            self.line("", format_args!("{code} {slot} {track}"));
        }
    }

    fn area(&mut self, area: &Area) {
        let slot = area.slot();
        self.put(format_args!("area{slot}."));
        fields::area(area, self);
        self.value("tracks", Value::Number(area.track_count.into()));
        let prefix = self.prefix.len();
        for track in area.tracks() {
            self.put(format_args!("track{}.", track.number));
            fields::track(&track, self);
            self.prefix.truncate(prefix);
        }
        self.prefix.clear();
    }

    /// Puts more at the end of what each key begins with.
    fn put(&mut self, more: Arguments) {
        self.prefix.write_fmt(more).expect("a String takes all");
    }

    /// A line without a prefix.
    fn line(&mut self, key: &str, value: impl Display) {
        writeln!(self.out, "{key}{value}").expect("a String takes all");
    }

    /// A line of a key with its prefix.
    fn keyed(&mut self, key: &str, write: impl FnOnce(&mut String)) {
        self.out.push_str(&self.prefix);
        self.out.push_str(key);
        self.out.push(' ');
        write(&mut self.out);
        self.out.push('\n');
    }
}

impl Fields for Dump {
    fn value(&mut self, key: &str, value: Value) {
        self.keyed(key, |out| match value {
            Value::Number(number) => numbers(out, &[number]),
            Value::Version(version) => numbers(out, &[version.major, version.minor]),
            Value::Pointer(pointer) => {
                let (toc1, toc2) = (pointer.toc1_lsn.0, pointer.toc2_lsn.0);
                numbers(out, &[toc1, toc2, pointer.toc_sectors.into()]);
            }
            Value::Timecode(time) => numbers(out, &[time.minutes, time.seconds, time.frames]),
            Value::Date(date) => numbers(out, &[date.year, date.month.into(), date.day.into()]),
            Value::Genre(Some(genre)) => numbers(out, &[genre.category, genre.index]),
            Value::Kind(kind) => numbers(out, &[kind]),
            Value::Bytes(bytes) => hexadecimal(out, bytes),
            Value::Fixed(Some(text)) => hexadecimal(out, text.to_string().as_bytes()),
            Value::Digest(Some(digest)) => write_to(out, format_args!("{digest:016x}")),
            Value::Genre(None) | Value::Fixed(None) | Value::Digest(None) => out.push('-'),
        });
    }

    fn locales(&mut self, locales: &[Locale]) {
        self.keyed("locales", |out| numbers(out, &[locales.len()]));
        for (i, locale) in locales.iter().enumerate() {
            self.keyed(LOCALES[i], |out| {
                hexadecimal(out, locale.language.to_string().as_bytes());
                out.push(' ');
                hexadecimal(out, &locale.language_code);
                out.push(' ');
                numbers(out, &[locale.charset]);
            });
        }
    }

    fn texts(&mut self, texts: impl Iterator<Item = (&'static str, Text)>) {
        let prefix = self.prefix.len();
        self.prefix.push_str("text.");
        for (key, text) in texts {
            self.keyed(key, |out| match text {
                Text::Absent => out.push('-'),
                Text::Decoded(text) => hexadecimal(out, text.as_bytes()),
                Text::NotHeld(_) | Text::BadMapping(_) => out.push_str("present"),
            });
        }
        self.prefix.truncate(prefix);
    }
}

/// Decimal numbers, a blank between them.
fn numbers(out: &mut String, numbers: &[impl Display]) {
    for (i, number) in numbers.iter().enumerate() {
        let blank = if i > 0 { " " } else { "" };
        write_to(out, format_args!("{blank}{number}"));
    }
}

/// Bytes as two hexadecimal digits each.
fn hexadecimal(out: &mut String, bytes: &[u8]) {
    if bytes.is_empty() {
        out.push_str("empty");
    }
    out.reserve(2 * bytes.len());
    for byte in bytes {
        out.push(char::from(DIGITS[usize::from(byte >> 4)]));
        out.push(char::from(DIGITS[usize::from(byte & 15)]));
    }
}

fn write_to(out: &mut String, value: Arguments) {
    out.write_fmt(value).expect("a String takes all");
}
