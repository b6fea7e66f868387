//! Lists the tracks of an SACD image: slot, number and title of each, then how many warnings there
//! are.
//!
//!     cargo run --offline -p scarletbook --example titles -- IMAGE
//!
//! Exit status: 0 accepted, 1 refused, 2 if the file cannot be read.

use scarletbook::{Disc, Refusal, SectorFormat, TrackTextItem};
use std::process::ExitCode;

/// In place of a title that is refused, it prints why.
fn list(image: &[u8]) -> Result<(), Refusal> {
    let disc = Disc::read(SectorFormat::detect(image)?, image)?;
    for area in disc.areas() {
        for track in area.tracks() {
            let title = match track.text(TrackTextItem::Title) {
                Ok(title) => title.unwrap_or_default(),
                Err(refusal) => refusal.word().to_owned(),
            };
            println!("{}.{} {title}", area.slot(), track.number);
        }
    }
    println!("{} warnings", disc.warnings().count());
    Ok(())
}

fn main() -> ExitCode {
    let name = std::env::args_os().nth(1).unwrap_or_default();
    let image = match std::fs::read(&name) {
        Ok(image) => image,
        Err(error) => {
            eprintln!("{}: {error}", name.display());
            return ExitCode::from(2);
        }
    };
    match list(&image) {
        Ok(()) => ExitCode::SUCCESS,
        Err(refusal) => {
            eprintln!("{refusal}");
            ExitCode::from(1)
        }
    }
}
