//! Compares the static library, and the dumps of `tables`, with the customer's Rust, in one process.
//!
//! Exit status: 0 all answers are equal; 1 some differ; 2 bad usage, a file or the command `tables`
//! that fails, or a class of cases is empty or too small, so that the comparison would say nothing
//! about it.

mod capping;
mod command;
mod coverage;
mod cuts;
mod disc;
mod draws;
mod endings;
mod extent;
mod fields;
mod guard;
mod headers;
mod heads;
mod held;
mod layouts;
mod lone;
mod mapped;
mod mappings;
mod mending;
mod noise;
mod numbers;
mod options;
mod plain;
mod progress;
mod rust;
mod sectors;
mod shapes;
mod strings;
mod tables;
mod tally;
mod tape;
mod texts;
mod threads;
mod times;
mod tracks;
mod values;
mod words;

use draws::Draws;
use endings::Endings;
use extent::Extent;
use fields::Fields;
use generate::Rng;
use generate::table;
use headers::Headers;
use mending::Mending;
use numbers::Numbers;
use options::{Mode, Options, USAGE};
use sectors::Sectors;
use shapes::Shapes;
use std::io;
use std::process::ExitCode;
use strings::Strings;
use tables::Tables;
use tally::Kind;
use texts::Texts;
use times::Times;
use values::Taken;

/// Numbers, texts, mappings, lone tables and discs.
fn all(options: &Options) -> io::Result<Vec<Kind>> {
    let mut extent = Extent::new();
    let mut sectors = Sectors::new();
    let mut numbers = Numbers::new();
    for case in 0..options.cases {
        let mut rng = Rng::of_case(options.seed, case);
        let image = generate::image::any_image(&mut rng);
        extent.cases(&mut rng, image.format, image.bytes.len());
        sectors.cases(&mut rng, &image);
        numbers.cases(&mut rng);
    }
    let (fields, strings, times) = texts(options);
    let Extent { sector_count, contains } = extent;
    let Sectors { read, compare, fingerprint, audit, mend } = sectors;
    let Numbers { byte, be16, be32, product, digest } = numbers;
    let Strings { string_bytes, string_end, decode } = strings;
    let Fields { charset, language, fixed_bytes, fixed_text } = fields;
    let sectors = [sector_count, contains, read, compare, fingerprint, audit, mend];
    let numbers = [product, digest, byte, be16, be32];
    let texts = [string_bytes, string_end, charset, decode, fixed_bytes, fixed_text, language];
    let times = [times.frame_number, times.cap];
    let tape = tape::kinds(options.seed, options.tapes);
    let sectors = sectors.into_iter().chain(headers(options)).chain(tape);
    let below = sectors.chain(numbers).chain(texts).chain(mappings(options)?).chain(times);
    let areas = areas(options).into_iter().chain([layouts::kind()]);
    Ok(below.chain(areas).chain(disc::kinds(options.seed, options.count)).collect())
}

/// Decoding by mappings, and lists of words.
fn mappings(options: &Options) -> io::Result<Vec<Kind>> {
    let Options { seed, mappings, lists, .. } = *options;
    Ok(mappings::kinds(seed, mappings)?.into_iter().chain(words::kinds(seed, lists)).collect())
}

/// The audit and mending of many headers.
fn headers(options: &Options) -> Vec<Kind> {
    let (mut headers, mut mending) = (Headers::new(), Mending::new());
    headers.cases(options.seed, options.headers);
    mending.cases(options.seed, options.headers);
    let Headers { many: audited, stretches } = headers;
    let Mending { many: mended, images, refusals } = mending;
    vec![audited, stretches, mended, images, refusals]
}

fn texts(options: &Options) -> (Fields, Strings, Times) {
    let (mut fields, mut strings, mut times) = (Fields::new(), Strings::new(), Times::new());
    fields.all();
    strings.all();
    times.all();
    for case in 0..options.texts {
        let mut rng = Rng::of_case(options.seed, case);
        fields.cases(&mut rng);
        strings.cases(&mut rng);
        times.cases(&mut rng);
    }
    (fields, strings, times)
}

/// Tables at the edges and at random; their texts; and draws.
fn areas(options: &Options) -> Vec<Kind> {
    let (mut tables, mut texts, mut draws) = (Tables::new(), Texts::new(), Draws::new());
    let plans = table::plans();
    // Four times, so that one of them is lent enough.
    let made = [table::endings(), vec![table::most_warnings(); 4]].concat();
    for case in 0..plans.len() + made.len() + options.tables as usize {
        let mut rng = Rng::of_case(options.seed, case as u64);
        let table = match (plans.get(case), made.get(case.wrapping_sub(plans.len()))) {
            (Some(plan), _) => table::table(&mut rng, plan),
            (None, Some(made)) => made.clone(),
            (None, None) => table::any_table(&mut rng),
        };
        if let Some(lone) = tables.case(&mut rng, &table) {
            texts.cases(&mut rng, &table, &lone);
            draws.cases(&table, &lone);
        }
        if rng.below(16) == 0 {
            tables.odd_case(&mut rng, &table);
        }
    }
    tables.finish();
    for case in 0..options.texts {
        draws.any_case(&mut Rng::of_case(options.seed, case));
    }
    let Tables { read, heads, shapes, tracks: handed, endings } = tables;
    let Shapes { walk, head, tracks, items, .. } = shapes;
    let Texts { area, track, lies } = texts;
    let Endings { lists, tracks: ended, areas } = endings;
    let records = [read, handed.stored, handed.capping, lists, ended, areas];
    let shapes = [heads, walk, head, tracks, items];
    records.into_iter().chain(shapes).chain([area, track, lies, draws.text, draws.any]).collect()
}

/// Says what is compared, and compares it.
fn run(options: &Options) -> io::Result<Vec<Kind>> {
    let Options { seed, cases, tapes, texts, mappings, tables, count, cuts, .. } = *options;
    match options.mode {
        Mode::All => {
            println!("seed {seed}, {cases} images, {texts} texts, {tables} tables, {count} discs");
            all(options)
        }
        Mode::Tape => {
            println!("seed {seed}, {tapes} longer images");
            Ok(tape::kinds(seed, tapes))
        }
        Mode::Mappings => {
            println!("seed {seed}, {mappings} mappings, {} lists of words", options.lists);
            self::mappings(options)
        }
        Mode::Discs => {
            println!("seed {seed}, {count} discs");
            Ok(disc::kinds(seed, count))
        }
        Mode::Command => {
            println!("seed {seed}, {count} discs in files");
            command::kinds(seed, count)
        }
        Mode::Noise => {
            println!("seed {seed}, {count} byte strings");
            Ok(noise::kinds(seed, count))
        }
        Mode::Cuts => {
            println!("seed {seed}, {cuts} cuts of each disc");
            Ok(cuts::kinds(seed, cuts))
        }
    }
}

/// What the fields of records took, in a run that is long enough.
fn taken(options: &Options, kinds: &[Kind]) -> Vec<Taken> {
    let long = options.count >= disc::SHORT && !guard::is_exact();
    match options.mode {
        Mode::All if long => values::taken(kinds, true),
        Mode::Discs if long => values::taken(kinds, false),
        _ => vec![],
    }
}

fn print_records(records: &[Taken]) {
    println!("{}", values::HEADING);
    for record in records {
        println!("{}", record.line());
    }
}

fn print(kinds: &[Kind]) {
    println!(
        "{:<19}{:>11}{:>11}{:>10}{:>13}",
        "kind", "cases", "accepted", "refused", "differences"
    );
    for kind in kinds {
        let Kind { name, cases, refused, differences, .. } = kind;
        let accepted = cases - refused;
        println!("{name:<19}{cases:>11}{accepted:>11}{refused:>10}{differences:>13}");
    }
    println!("of them");
    for kind in kinds.iter().filter(|kind| !kind.classes.is_empty()) {
        println!("  {}: {}", kind.name, kind.classes_line());
    }
}

/// Prints the fields with too few values, the classes with too few cases and the first differences;
/// the exit status.
fn verdict(kinds: &[Kind], records: &[Taken]) -> u8 {
    let mut status = 0;
    for scant in records.iter().flat_map(Taken::scant) {
        println!("{scant}");
        status = 2;
    }
    // An exact run is about memory: it may have few cases.
    for kind in kinds.iter().filter(|_| !guard::is_exact()) {
        for class in kind.scant_classes() {
            println!("{}: fewer than {} cases of the class '{class}'", kind.name, kind.least);
            status = 2;
        }
    }
    for (kind, first) in kinds.iter().filter_map(|kind| Some((kind, kind.first.as_ref()?))) {
        println!("first difference of {}: {first}", kind.name);
        status = 1;
    }
    status
}

fn main() -> ExitCode {
    let words = || std::env::args_os().skip(1).map(|word| word.to_string_lossy().into_owned());
    if words().any(|word| word == "--help") {
        println!("{USAGE}");
        return ExitCode::SUCCESS;
    }
    let Some(options) = options::options(words()) else {
        eprintln!("{USAGE}");
        return ExitCode::from(2);
    };
    if let Some(part) = options.part {
        mappings::print_part(options.seed, options.mappings, part);
        return ExitCode::SUCCESS;
    }
    if options.exact {
        guard::make_exact();
    }
    held::make(options.seed);
    let kinds = match run(&options) {
        Ok(kinds) => kinds,
        Err(error) => {
            eprintln!("host/compare: {error}");
            return ExitCode::from(2);
        }
    };
    let records = taken(&options, &kinds);
    print(&kinds);
    if !records.is_empty() {
        print_records(&records);
    }
    if matches!(options.mode, Mode::All | Mode::Discs) {
        println!("\n{}", coverage::table(&kinds, &records));
    }
    let status = verdict(&kinds, &records);
    print_sums(&kinds);
    ExitCode::from(status)
}

fn print_sums(kinds: &[Kind]) {
    let cases: u64 = kinds.iter().map(|kind| kind.cases).sum();
    let differences: u64 = kinds.iter().map(|kind| kind.differences).sum();
    println!("{cases} cases, {differences} differences");
}
