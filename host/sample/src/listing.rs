//! The listing of a table, by the Rust's answer, with the warnings 19 of the plain walk.

use generate::endings::{Warning, put_in, unterminated};
use oracle::lone::{numbers, read_lone};
use oracle::toc::Area;
use std::fmt::Display;

/// The most bytes that are listed.
pub const MOST: usize = 65_536;

/// The document's listing.
pub fn listing(table: &[u8]) -> String {
    let mut text = String::new();
    match read(table) {
        Ok((area, warnings)) => list(&mut text, &area, &warnings),
        Err(refusal) => line(&mut text, "refused", [refusal]),
    }
    text
}

/// The area and its warnings, or the refusal.
fn read(table: &[u8]) -> Result<(Area, Vec<Warning>), u8> {
    if table.is_empty() || table.len() > MOST || !table.len().is_multiple_of(2048) {
        return Err(7);
    }
    let (area, warnings) = read_lone(table).expect("the image has the table");
    let area = area.ok_or(6)?;
    let warnings: Vec<_> = warnings.iter().map(numbers).collect();
    let unterminated = unterminated(table, 1, area.tracks.len());
    Ok((area, put_in(&warnings, &unterminated)))
}

/// A line of a word and numbers, one blank between.
fn line<N: Display>(text: &mut String, word: &str, numbers: impl IntoIterator<Item = N>) {
    let numbers = numbers.into_iter().map(|number| number.to_string());
    let words: Vec<_> = [word.to_string()].into_iter().chain(numbers).collect();
    *text += &(words.join(" ").trim_start().to_string() + "\n");
}

fn list(text: &mut String, area: &Area, warnings: &[Warning]) {
    line(text, "locales", [area.locales.len()]);
    for locale in &area.locales {
        let [first, second] = locale.language_code;
        line(text, "", [first, second, locale.charset]);
    }
    line(text, "tracks", [area.tracks.len()]);
    for track in &area.tracks {
        let sectors = [track.start_lsn, track.length_sectors];
        let frames = [track.start_frame, track.duration_frames];
        line(text, &track.number.to_string(), sectors.into_iter().chain(frames));
    }
    line(text, "warnings", [warnings.len()]);
    for warning in warnings {
        line(text, "", warning);
    }
}
