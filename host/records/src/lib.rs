//! The one list of the fields of every record that crosses. From it come their places and widths, which
//! must be those of C, and the names and values of their numbers, for the comparison with the
//! customer's Rust.

use scarletbook::raw::*;
use std::fmt::Write;
use std::mem::{offset_of, size_of};

/// A number in a record, by its path from there on.
#[derive(Clone, Debug)]
pub struct Number {
    path: String,
    /// Its name in the record, and in each record within that holds it, the smallest last: as
    /// `disc_answer.master.date.year`, `master_toc.date.year`, `date.year`.
    pub names: Vec<String>,
}

impl Number {
    /// Its name in the record.
    pub fn name(&self) -> &str {
        &self.names[0]
    }
}

/// A number, or what is made of numbers.
pub trait Numbers {
    /// Hands on every number, in the order of fields and entries.
    fn each(&self, to: &mut impl FnMut(u64));

    /// The numbers in this order. Every entry of an array has its own.
    fn list() -> Vec<Number>;
}

pub trait Record: Numbers {
    const NAME: &'static str;
}

macro_rules! scalars {
    ($($scalar:ty)*) => {
        $(impl Numbers for $scalar {
            fn each(&self, to: &mut impl FnMut(u64)) {
                to(*self as u64);
            }

            fn list() -> Vec<Number> {
                vec![Number { path: String::new(), names: vec![] }]
            }
        })*
    };
}

scalars! { u8 u16 u32 u64 usize }

/// Numbers of 32 bits with a type of their own.
macro_rules! units {
    ($($unit:ty)*) => {
        $(impl Numbers for $unit {
            fn each(&self, to: &mut impl FnMut(u64)) {
                self.0.each(to);
            }

            fn list() -> Vec<Number> {
                u32::list()
            }
        })*
    };
}

units! { Lsn Frame }

impl<T: Numbers, const N: usize> Numbers for [T; N] {
    fn each(&self, to: &mut impl FnMut(u64)) {
        self.iter().for_each(|entry| entry.each(to));
    }

    fn list() -> Vec<Number> {
        let entries = (0..N).flat_map(|at| {
            let entry = move |number: Number| Number {
                path: format!("[{at}]{}", number.path),
                names: number.names,
            };
            T::list().into_iter().map(entry)
        });
        entries.collect()
    }
}

/// The numbers of a field.
fn field_list<R: Record, F: Numbers>(field: &str, _: fn(&R) -> &F) -> Vec<Number> {
    let named = F::list().into_iter().map(|number| {
        let path = format!(".{field}{}", number.path);
        let names = [vec![format!("{}{path}", R::NAME)], number.names].concat();
        Number { path, names }
    });
    named.collect()
}

fn field_size<R, F>(_: fn(&R) -> &F) -> usize {
    size_of::<F>()
}

/// Every record: its name, its type and its fields. A field that is left out does not compile.
macro_rules! records {
    ($($name:literal $record:ident { $($field:ident),* })*) => {
        $(
            impl Numbers for $record {
                fn each(&self, to: &mut impl FnMut(u64)) {
                    let $record { $($field),* } = self;
                    $($field.each(to);)*
                }

                fn list() -> Vec<Number> {
                    [$(field_list(stringify!($field), |record: &$record| &record.$field)),*].concat()
                }
            }

            impl Record for $record {
                const NAME: &'static str = $name;
            }
        )*

        /// Every record's name and its numbers.
        pub fn records() -> Vec<(&'static str, Vec<Number>)> {
            vec![$(($name, $record::list())),*]
        }

        /// A line `record field offset size` for every field, `-` standing for the whole record.
        pub fn offsets() -> String {
            let mut lines = String::new();
            $(
                writeln!(lines, "{} - 0 {}", $name, size_of::<$record>()).unwrap();
                $(
                    let offset = offset_of!($record, $field);
                    let size = field_size(|record: &$record| &record.$field);
                    writeln!(lines, "{} {} {offset} {size}", $name, stringify!($field)).unwrap();
                )*
            )*
            lines
        }
    };
}

records! {
    "fixed_text" FixedText { bytes, len }
    "language_code" LanguageCode { bytes, len }
    "locale" Locale { language, language_code, charset }
    "timecode" Timecode { minutes, seconds, frames }
    "genre" Genre { category, index }
    "version" Version { major, minor }
    "date" Date { year, month, day }
    "area_pointer" AreaPointer { toc1_lsn, toc2_lsn, toc_sectors }
    "table_origin" TableOrigin { slot, toc_lsn, toc_sectors }
    "track_times" TrackTimes { start_frame, duration_frames, stored_start, stored_duration }
    "text_place" TextPlace { place, end }
    "comparison" Comparison { refusal, equal }
    "fingerprint_answer" FingerprintAnswer { refusal, digest }
    "audit_answer" AuditAnswer { refusal, verdict }
    "mended" Mended { refusal, header }
    "decode_answer" DecodeAnswer { refusal, len }
    "detect_answer" DetectAnswer { refusal, sector_format }
    "cap_answer" CapAnswer { start_frame, duration_frames, past_playtime }
    "draw_answer" DrawAnswer { found, kind, place, len, next, left }
    "chain" Chain { ttxt, igl, trl1, trl2 }
    "track" Track {
        number, start_lsn, length_sectors, times, start_flags, duration_flags, has_isrc, isrc,
        has_genre, genre, text
    }
    "area" Area {
        present, origin, kind, version, max_byte_rate, sample_frequency_code, frame_format,
        channel_count, area_config, max_available_channels, area_mute_flags, track_attribute,
        playtime, track_offset, track_count, audio_start_lsn, audio_end_lsn, text_channel_count,
        locale_count, locales, text_charset, text
    }
    "table_head" TableHead { skip, area, chain }
    "table_answer" TableAnswer { refusal, warnings, area }
    "master_toc" MasterToc {
        version, album_set_size, album_sequence_number, album_catalog_number,
        album_catalog_number_stored, album_genres, two_channel, multichannel, disc_flags,
        disc_catalog_number, disc_catalog_number_stored, disc_genres, date, text_channel_count,
        locale_count, locales, text_charset, text, manufacturer
    }
    "disc_answer" DiscAnswer {
        refusal, warnings, sector_format, sectors, master, two_channel, multichannel
    }
}

#[test]
fn numbers_have_the_names_of_their_records() {
    let disc = DiscAnswer::list();
    let names = &disc.iter().find(|number| number.path == ".master.date.year").unwrap().names;
    assert_eq!(names[..], ["disc_answer.master.date.year", "master_toc.date.year", "date.year"]);
    let last = ["disc_answer.multichannel.text[3].end", "area.text[3].end", "text_place.end"];
    assert_eq!(disc.last().unwrap().names[..], last);
}

#[test]
fn every_number_is_listed_in_its_order() {
    let date = Date { year: 2026, month: 11, day: 16 };
    let answer = DiscAnswer {
        sectors: 564,
        master: MasterToc { date, ..MasterToc::default() },
        ..DiscAnswer::default()
    };
    let (list, mut values) = (DiscAnswer::list(), vec![]);
    answer.each(&mut |value| values.push(value));
    assert_eq!(values.len(), list.len());
    let named = list.iter().zip(values).filter(|(_, value)| *value != 0);
    let named: Vec<_> = named.map(|(number, value)| (number.path.as_str(), value)).collect();
    let date = [(".master.date.year", 2026), (".master.date.month", 11), (".master.date.day", 16)];
    assert_eq!(named, [&[(".sectors", 564)], &date[..]].concat());
}
