//! Prints the fields of the records, or the constants and words, to be compared with those of C
//! (`host/c/test`).

use scarletbook::raw::*;
use scarletbook::{
    AreaTextItem, DiscTextItem, Header, Refusal, SectorFormat, TextEnd, TrackTextItem, WarningCode,
};
use std::fmt::{Debug, Write};
use std::process::ExitCode;

/// The name of a refusal or of an end, a blank before each further word.
fn name_of(named: impl Debug) -> String {
    let mut name = String::new();
    for letter in format!("{named:?}").chars() {
        name.push_str(if letter.is_uppercase() && !name.is_empty() { " " } else { "" });
        name.push(letter);
    }
    name
}

/// A line of a name and its number for every constant.
fn constants() -> Vec<(String, u32)> {
    let sizes = [
        ("SECTOR_SIZE", SECTOR_SIZE),
        ("WORK_BYTES", WORK_BYTES),
        ("TRACK_RECORDS", TRACK_RECORDS),
        ("WARNING_WORDS", WARNING_WORDS),
        ("MAX_TRACKS", MAX_TRACKS),
        ("TABLE_WORDS", TABLE_WORDS),
        ("PAGE_BYTES", PAGE_BYTES),
        ("TWO_CHANNEL_REGION", REGIONS[0]),
        ("MULTICHANNEL_REGION", REGIONS[1]),
        ("MASTER_REGION", REGIONS[2]),
        ("TWO_CHANNEL_FIRST", FIRST_TRACKS[0]),
        ("MULTICHANNEL_FIRST", FIRST_TRACKS[1]),
    ];
    let sizes = sizes.map(|(name, size)| (name.to_owned(), size as u32));
    let formats = SectorFormat::ALL.map(|format| (format!("{format:?}"), format.number()));
    let headers = Header::ALL.map(|header| (format!("{header:?}"), header.number().into()));
    let ends = TextEnd::ALL.map(|end| (format!("ended by {}", name_of(end)), end.number().into()));
    let refusals = Refusal::ALL.map(|refusal| (name_of(refusal), refusal.number().into()));
    let codes = WarningCode::ALL.map(|code| (code.code().to_owned(), code as u32));
    let disc = DiscTextItem::ALL.map(|item| (item.name().to_owned(), item.index()));
    let area = AreaTextItem::ALL.map(|item| (format!("area_{}", item.name()), item.index()));
    let track = TrackTextItem::ALL.map(|item| (format!("track_{}", item.name()), item.index()));
    [&sizes[..], &formats, &headers, &ends, &refusals, &codes, &disc, &area, &track].concat()
}

/// The constants under the names of C, then the words of every number of a byte.
fn constants_and_words() -> String {
    let mut lines = String::new();
    for (name, number) in constants() {
        let name = name.to_uppercase().replace([' ', '-'], "_");
        writeln!(lines, "{name} {number}").unwrap();
    }
    for number in 0..=255u8 {
        let word = Refusal::of_number(number).map_or("", Refusal::word);
        writeln!(lines, "refusal {number} [{word}]").unwrap();
        let code = usize::from(number).checked_sub(1).and_then(|at| WarningCode::ALL.get(at));
        let (name, words) = code.map_or(("", ""), |code| (code.code(), code.words()));
        writeln!(lines, "warning {number} [{name}] [{words}]").unwrap();
    }
    lines
}

fn main() -> ExitCode {
    match std::env::args().nth(1).as_deref() {
        Some("--offsets") => print!("{}", records::offsets()),
        Some("--constants") => print!("{}", constants_and_words()),
        _ => {
            eprintln!("usage: records --offsets | --constants");
            return ExitCode::from(2);
        }
    }
    ExitCode::SUCCESS
}
