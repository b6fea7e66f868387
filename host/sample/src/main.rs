//! Stores tables and discs, and what the customer's Rust answers to them, for the programs `replay`,
//! `stored_tables` and `stored_discs`, which need no Rust; and a table with its items by the plain
//! walk, for `draws`; and images with what the plain gathering gives of them, for `stored_images`.
//! `--check` asks the Rust again about what is stored, and about the texts by a mapping that `vectors`
//! prints, and walks and gathers again; `--answers` stores what these answer, and leaves the tables and
//! discs as they are stored; `--add` does that, and before it stores the tables and discs with a name that
//! are not stored yet, behind the others.
//!
//! Exit status: 0 all is written, or is what must be stored; 1 something else is stored; 2 bad
//! usage, a file that cannot be read or written, or a walk whose items are not the Rust's texts.

mod disc;
mod draws;
mod listing;
mod mapped;
mod named;
mod runs;
mod tape;

use generate::Rng;
use generate::table::any_table;
use named::Named;
use std::fs;
use std::io::{Error, ErrorKind, Result};
use std::path::Path;
use std::process::ExitCode;

const USAGE: &str = "usage: sample [--check | --answers | --add] CRATES";

/// Tables at random beside those with a name, and the bytes that one is stored in at most.
const RANDOM: usize = 150;
const STORED: usize = 1200;

/// The folder of the tables with a name, and the file that lists their names.
const DATA: &str = "stored_tables/data";
const NAMES: &str = "stored_tables/args";
const TABLES: &str = "replay/stdin";
const DISCS: &str = "stored_discs/stdin";
/// The files of the answers.
const NAMED_ANSWERS: &str = "stored_tables/stdout";
const ANSWERS: &str = "replay/stdout";
const DISC_ANSWERS: &str = "stored_discs/stdout";
/// The table whose items are drawn, and the draws.
const DRAWN: &str = "draws/stdin";
const DRAWS: &str = "draws/stdout";
/// The images that are gathered and scattered, and what is printed of them.
const IMAGES: &str = "stored_images/stdin";
const IMAGE_LINES: &str = "stored_images/stdout";

/// What `vectors` prints.
const VECTORS: &str = "vectors/stdout";

/// What the file of a table with a name ends in.
const TABLE: &str = ".table";

/// Tables at random that are stored in few bytes.
fn random() -> impl Iterator<Item = Vec<u8>> {
    let tables = (0..).map(|case| any_table(&mut Rng::of_case(1, case)));
    let listed = tables.filter(|table| table.len() <= listing::MOST);
    listed.filter(|table| runs::runs(table).len() <= STORED).take(RANDOM)
}

/// Those of the tables with a name that are in the list.
fn listed(named: &[Named]) -> impl Iterator<Item = Vec<u8>> {
    let tables = named.iter().map(|(_, table)| table.clone());
    tables.filter(|table| table.len() <= listing::MOST)
}

/// Writes the tables.
fn write_tables(crates: &Path) -> Result<()> {
    let named = named::named();
    let tables = listed(&named).chain(random());
    fs::create_dir_all(crates.join("replay"))?;
    fs::write(
        crates.join(TABLES),
        tables.flat_map(|table| runs::runs(&table)).collect::<Vec<_>>(),
    )?;
    fs::create_dir_all(crates.join(DATA))?;
    write_named(crates, &named, vec![])
}

/// Writes tables with a name, each to its file, and their names beside those that are stored.
fn write_named(crates: &Path, named: &[Named], stored: Vec<String>) -> Result<()> {
    let mut names = stored;
    for (name, table) in named {
        let file = name.clone() + TABLE;
        fs::write(crates.join(DATA).join(&file), table)?;
        names.push(file);
    }
    names.sort();
    fs::write(crates.join(NAMES), names.join("\n") + "\n")
}

/// Writes the tables with a name that are not stored yet.
fn add_tables(crates: &Path) -> Result<()> {
    let names = fs::read_to_string(crates.join(NAMES))?;
    let names: Vec<_> = names.lines().map(str::to_string).collect();
    let mut named = named::named();
    named.retain(|(name, _)| !names.contains(&(name.clone() + TABLE)));
    let mut tables = fs::read(crates.join(TABLES))?;
    tables.extend(listed(&named).flat_map(|table| runs::runs(&table)));
    fs::write(crates.join(TABLES), tables)?;
    write_named(crates, &named, names)
}

/// Writes the discs with a name of their own that are not stored yet.
fn add_discs(crates: &Path) -> Result<()> {
    let mut stored = fs::read(crates.join(DISCS))?;
    let discs = disc::discs(&stored).ok_or_else(no_list)?;
    stored.extend(disc::missing(&discs));
    fs::write(crates.join(DISCS), stored)
}

fn write_discs(crates: &Path) -> Result<()> {
    fs::create_dir_all(crates.join("stored_discs"))?;
    fs::write(crates.join(DISCS), disc::stored())
}

fn no_list() -> Error {
    Error::new(ErrorKind::InvalidData, "no list of tables or discs")
}

/// What the Rust answers to the tables and discs that are stored, each with its file.
fn answers(crates: &Path) -> Result<[(&'static str, String); 3]> {
    let tables = runs::tables(&fs::read(crates.join(TABLES))?).ok_or_else(no_list)?;
    let numbered = tables.iter().enumerate();
    let answers = numbered.map(|(i, table)| answer(&format!("table {}", i + 1), table));
    let names = fs::read_to_string(crates.join(NAMES))?;
    let named = names.lines().map(|name| {
        let table = fs::read(crates.join(DATA).join(name))?;
        Ok(answer(name, &table))
    });
    let discs = disc::discs(&fs::read(crates.join(DISCS))?).ok_or_else(no_list)?;
    let named_answers = named.collect::<Result<_>>()?;
    let disc_answers = discs.iter().map(disc::lines).collect();
    Ok([(ANSWERS, answers.collect()), (NAMED_ANSWERS, named_answers), (DISC_ANSWERS, disc_answers)])
}

/// The table whose items are drawn, and the draws, each with its file.
fn table_and_draws() -> Result<[(&'static str, Vec<u8>); 2]> {
    let table = named::items();
    let other = || Error::new(ErrorKind::InvalidData, "the walk's items are not the Rust's texts");
    let draws = draws::lines(&table).ok_or_else(other)?;
    Ok([(DRAWN, table), (DRAWS, draws)])
}

/// The images that are gathered and scattered, and what is printed of them, each with its file.
fn images_and_lines() -> [(&'static str, Vec<u8>); 2] {
    let images = tape::images();
    let lines: String = images.iter().map(|image| tape::lines(image)).collect();
    [(IMAGES, images.concat()), (IMAGE_LINES, lines.into_bytes())]
}

/// The files that `--check` looks at, and what must be stored there.
fn checked(crates: &Path) -> Result<impl Iterator<Item = (&'static str, Vec<u8>)>> {
    let answers = answers(crates)?.map(|(file, answers)| (file, answers.into_bytes()));
    Ok(answers.into_iter().chain(table_and_draws()?).chain(images_and_lines()))
}

/// A table's name, on a line, and its listing.
fn answer(name: &str, table: &[u8]) -> String {
    format!("{name}\n{}", listing::listing(table))
}

fn write(crates: &Path) -> Result<u8> {
    write_tables(crates)?;
    write_discs(crates)?;
    fs::create_dir_all(crates.join("draws"))?;
    fs::create_dir_all(crates.join("stored_images"))?;
    write_answers(crates)
}

fn add(crates: &Path) -> Result<u8> {
    add_tables(crates)?;
    add_discs(crates)?;
    write_answers(crates)
}

fn write_answers(crates: &Path) -> Result<u8> {
    for (file, bytes) in checked(crates)? {
        fs::write(crates.join(file), bytes)?;
    }
    Ok(0)
}

fn check(crates: &Path) -> Result<u8> {
    let mut status = 0;
    for (file, bytes) in checked(crates)? {
        if fs::read(crates.join(file))? != bytes {
            println!("sample: {file} is not what must be stored");
            status = 1;
        }
    }
    if !fs::read_to_string(crates.join(VECTORS))?.contains(&mapped::lines()) {
        println!("sample: {VECTORS} has other texts by a mapping");
        status = 1;
    }
    Ok(status)
}

fn main() -> ExitCode {
    let words: Vec<_> = std::env::args().skip(1).collect();
    let result = match &words[..] {
        [word, crates] if word == "--check" => check(Path::new(crates)),
        [word, crates] if word == "--answers" => write_answers(Path::new(crates)),
        [word, crates] if word == "--add" => add(Path::new(crates)),
        [crates] if !crates.starts_with('-') => write(Path::new(crates)),
        _ => Err(Error::new(ErrorKind::InvalidInput, USAGE)),
    };
    ExitCode::from(result.unwrap_or_else(|error| {
        eprintln!("sample: {error}");
        2
    }))
}
