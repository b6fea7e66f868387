//! `tables`: lists the tables of contents of an SACD image, and does what `commands` has.

#![deny(unsafe_code)]

use scarletbook::{Mappings, Refusal, SectorFormat, gather, scatter};
use std::fs;
use std::io::{self, ErrorKind, IsTerminal, Write};
use std::path::{Path, PathBuf};
use std::process::ExitCode;
use tables::arguments::{Arguments, Request, Wrong};
use tables::commands::{Form, Task};
use tables::dump::dump_reading;
use tables::json::json;
use tables::listing::{listing, printable};
use tables::map::Map;
use tables::mapping;
use tables::reading::{self, Reading};
use tables::report::{ERASE, Report, StandardReport, write_error};
use tables::sample;
use tables::sectors::Sectors;
use tables::signals::report_faults;
use tables::tape;

/// Names the file that the sample disc is written to.
const SAMPLE: &str = "TABLES_SAMPLE";
/// The release; `./tables` has the commit too.
const VERSION: &str = concat!("tables ", env!("CARGO_PKG_VERSION"), "\n");
/// Why a byte of a mapped file fails.
const UNREADABLE: &str = "cannot be read: a read error, or the file became shorter";
const UNWRITABLE: &str =
    "cannot be written: the disk is full, a write error, or the file became shorter";

/// What was found.
enum Answer {
    Accepted,
    /// Some header is blank or unsound.
    NotSound,
    Refused(Refusal),
    /// No format was given or found, and none is taken instead.
    NoFormat(Refusal),
}

/// What kept the command from an answer.
enum Failure {
    Usage(Wrong),
    File(PathBuf, io::Error),
    Output(io::Error),
}

fn main() -> ExitCode {
    let request = Request::parse(std::env::args_os().skip(1)).map_err(Failure::Usage);
    let status = request.and_then(|request| match request {
        Request::Help(command) => print(command.help).map(|()| 0),
        Request::Version => print(VERSION).map(|()| 0),
        Request::Run(arguments) => run(&arguments),
    });
    ExitCode::from(status.unwrap_or_else(|failure| {
        failure.tell();
        2
    }))
}

impl Failure {
    fn tell(&self) {
        match self {
            Failure::Usage(Wrong { why, command }) => {
                write_error(format_args!("tables: {}\n{}\n", printable(why), command.usage()));
            }
            Failure::File(path, error) => {
                write_error(format_args!("tables: {}: {error}\n", name(path)));
            }
            // The reader wants no more.
            Failure::Output(error) if error.kind() == ErrorKind::BrokenPipe => {}
            Failure::Output(error) => {
                write_error(format_args!("tables: standard output: {error}\n"));
            }
        }
    }
}

impl Answer {
    /// Says why a file is refused; the exit status.
    fn told(&self, path: &Path) -> u8 {
        self.tell(path);
        self.status()
    }

    fn tell(&self, path: &Path) {
        let name = name(path);
        match self {
            Answer::Accepted | Answer::NotSound => {}
            Answer::Refused(refusal) => write_error(format_args!("{name}: {refusal}\n")),
            Answer::NoFormat(refusal) => {
                let advice = "no format is found in it; --format 2 reads it all the same";
                write_error(format_args!("{name}: {refusal}\ntables: {name}: {advice}\n"));
            }
        }
    }

    fn status(&self) -> u8 {
        match self {
            Answer::Accepted => 0,
            Answer::NotSound | Answer::Refused(_) | Answer::NoFormat(_) => 1,
        }
    }
}

/// The exit status if nothing keeps the command from an answer.
fn run(arguments: &Arguments) -> Result<u8, Failure> {
    match arguments.task {
        Task::List(form) => list_by_mappings(arguments, form),
        Task::Audit => read(arguments, |format, map| each_sector(format, map, audit)),
        Task::Fingerprints => read(arguments, |format, map| each_sector(format, map, fingerprints)),
        Task::Gather => rewrite(arguments, gather),
        Task::Scatter => rewrite(arguments, scatter),
    }
}

/// Lists an image, its texts of sets 3 to 6 by the mappings that were given. One that is no mapping is
/// refused before the image is read.
fn list_by_mappings(arguments: &Arguments, form: Form) -> Result<u8, Failure> {
    let mut held = vec![];
    for (set, path) in &arguments.mappings {
        let words = mapping::read(path).map_err(|error| Failure::File(path.clone(), error))?;
        held.push((*set, path, words));
    }
    let mut mappings = Mappings::new();
    for (set, path, words) in &held {
        let checked = mapping::check(*set, words).and_then(|()| mappings.with(*set, words));
        mappings = match checked {
            Ok(mappings) => mappings,
            Err(refusal) => return Ok(Answer::Refused(refusal).told(path)),
        };
    }
    read(arguments, |format, map| list(form, format, map, mappings))
}

/// Presents an image, or the sample disc, in the format that was given or is found.
fn read(
    arguments: &Arguments,
    present: impl FnOnce(Result<u32, Refusal>, &Map) -> Result<Answer, Failure>,
) -> Result<u8, Failure> {
    let path = match arguments.files.first() {
        Some(path) => path.clone(),
        None => make_sample(arguments)?,
    };
    let map = open(&path)?;
    let detected = || SectorFormat::detect(map.bytes()).map(SectorFormat::number);
    let answer = present(arguments.format.map_or_else(detected, Ok), &map)?;
    Ok(answer.told(&path))
}

/// Writes a new file of what a call gives for the bytes of another.
fn rewrite(arguments: &Arguments, call: tape::Call) -> Result<u8, Failure> {
    let [from, out] = &arguments.files[..] else {
        unreachable!("both files are there, or the arguments are wrong");
    };
    let map = open(from)?;
    let written = tape::write(&map, out, call, fault(out, UNWRITABLE));
    written.map_err(|error| Failure::File(out.clone(), error))?;
    Ok(0)
}

fn open(path: &Path) -> Result<Map, Failure> {
    let map = Map::open(path).map_err(|error| Failure::File(path.to_owned(), error))?;
    report_faults(fault(path, UNREADABLE));
    Ok(map)
}

fn list(
    form: Form,
    format: Result<u32, Refusal>,
    map: &Map,
    mappings: Mappings,
) -> Result<Answer, Failure> {
    let format = format.unwrap_or(SectorFormat::Plain.number());
    let read = reading::read(format, map.bytes(), mappings);
    let reading = Reading::new(format, map.bytes(), &read);
    let text = match form {
        Form::Listing => listing(reading),
        Form::Dump => dump_reading(reading),
        Form::Json => json(reading),
    };
    print(&text)?;
    Ok(reading.refusal.map_or(Answer::Accepted, Answer::Refused))
}

fn each_sector(
    format: Result<u32, Refusal>,
    map: &Map,
    visit: impl FnOnce(&Sectors, &mut StandardReport) -> io::Result<Answer>,
) -> Result<Answer, Failure> {
    let format = match format {
        Ok(format) => format,
        Err(refusal) => return Ok(Answer::NoFormat(refusal)),
    };
    map.in_order();
    let image = map.bytes();
    let at_step = |done, all| map.forget_before(image.len() / all * done);
    let sectors = Sectors { format, image, at_step: &at_step };
    let mut report = Report::to_standard_output();
    let answer = visit(&sectors, &mut report).map_err(Failure::Output)?;
    report.end().map_err(Failure::Output)?;
    Ok(answer)
}

fn audit(sectors: &Sectors, report: &mut StandardReport) -> io::Result<Answer> {
    Ok(match sectors.audit(report)? {
        Ok(audited) if audited.all_sound() => Answer::Accepted,
        Ok(_) => Answer::NotSound,
        Err(refusal) => Answer::Refused(refusal),
    })
}

fn fingerprints(sectors: &Sectors, report: &mut StandardReport) -> io::Result<Answer> {
    let printed = sectors.fingerprints(report)?;
    Ok(printed.map_or_else(Answer::Refused, |()| Answer::Accepted))
}

/// Writes the sample disc, unless it is there, to the file that the environment names.
fn make_sample(arguments: &Arguments) -> Result<PathBuf, Failure> {
    let Some(path) = std::env::var_os(SAMPLE).map(PathBuf::from) else {
        let wrong = Wrong { why: "no image".to_owned(), command: arguments.command };
        return Err(Failure::Usage(wrong));
    };
    let image = sample::image();
    if fs::read(&path).ok().as_ref() != Some(&image) {
        fs::write(&path, image).map_err(|error| Failure::File(path.clone(), error))?;
    }
    let line = format!("No image given, so this is a sample disc: {}\n", name(&path));
    match arguments.task {
        Task::List(Form::Listing) => print(&format!("{line}\n"))?,
        _ => write_error(format_args!("{line}")),
    }
    Ok(path)
}

fn print(text: &str) -> Result<(), Failure> {
    let mut out = io::stdout().lock();
    out.write_all(text.as_bytes()).and_then(|()| out.flush()).map_err(Failure::Output)
}

/// The line for a byte of a mapped file that cannot be read or written.
fn fault(path: &Path, why: &str) -> String {
    let erase = if io::stderr().is_terminal() { ERASE } else { "" };
    format!("{erase}tables: {}: {why}\n", name(path))
}

/// A path as it is shown.
fn name(path: &Path) -> String {
    printable(&path.display().to_string())
}
