//! What the command line asks for.

pub const USAGE: &str = "usage: host/compare [--short] [--seed N] [--count N] [--cases N] \
    [--headers N] [--tapes N] [--texts N] [--mappings N] [--lists N] [--tables N] [--exact]
       host/compare tape [--short] [--seed N] [--tapes N]
       host/compare mappings [--short] [--seed N] [--mappings N] [--lists N]
       host/compare discs [--seed N] [--count N]
       host/compare command [--seed N] [--count N]
       host/compare noise [--seed N] [--count N]
       host/compare cuts [--short] [--seed N] [--cuts N]";

#[derive(Clone, Copy, Debug, PartialEq)]
pub enum Mode {
    /// Numbers, texts, lone tables and discs.
    All,
    /// Gathering for the tape store alone.
    Tape,
    /// Decoding by mappings, and lists of words, alone.
    Mappings,
    /// Discs alone.
    Discs,
    /// The command `tables --dump` over discs in files.
    Command,
    /// Random byte strings.
    Noise,
    /// Images that are cut.
    Cuts,
}

#[derive(Clone, Copy, Debug, PartialEq)]
pub struct Options {
    pub mode: Mode,
    pub seed: u64,
    /// Random discs, or byte strings.
    pub count: u64,
    /// Generated images, with a few questions about each.
    pub cases: u64,
    /// Headers for the audit, at least, and as many for mending.
    pub headers: u64,
    /// Longer images for the tape store, beside the shorter ones.
    pub tapes: u64,
    /// Random strings, as many texts to decode, and as many fields, draws and times.
    pub texts: u64,
    /// Mappings that strings are decoded by, some hundreds by each.
    pub mappings: u64,
    /// The part of the mappings that is compared and counted for another process; all without one.
    pub part: Option<u64>,
    /// Lists of words that are mappings, and others.
    pub lists: u64,
    /// Random lone tables, beside those at the edges.
    pub tables: u64,
    /// Cuts of each disc in each format.
    pub cuts: usize,
    /// Whether lent memory is allocated to its size, for a checker of memory.
    pub exact: bool,
}

const FULL: Options = Options {
    mode: Mode::All,
    seed: 1,
    count: 100_000,
    cases: 20_000,
    headers: 1_000_000,
    tapes: 1_000,
    texts: 100_000,
    mappings: 2_048,
    part: None,
    lists: 1_000_000,
    tables: 80_000,
    cuts: 1_100,
    exact: false,
};

const SHORT: Options = Options {
    count: 2_000,
    cases: 2_000,
    headers: 20_000,
    tapes: 50,
    texts: 5_000,
    mappings: 64,
    lists: 20_000,
    tables: 1_500,
    cuts: 60,
    ..FULL
};

/// The options of the words of a command line; nothing if they are none.
pub fn options(words: impl Iterator<Item = String>) -> Option<Options> {
    let words: Vec<_> = words.collect();
    let count = value_of(&words, "--count");
    // Few discs are no full run: then the rest is short too.
    let few =
        count.and_then(|count| count.parse().ok()).is_some_and(|count: u64| count < FULL.count);
    let short = few || words.iter().any(|word| word == "--short");
    let mut options = if short { SHORT } else { FULL };
    let mut words = words.iter().map(String::as_str);
    while let Some(word) = words.next() {
        match word {
            "--short" => {}
            "--exact" => options.exact = true,
            "--seed" => options.seed = words.next()?.parse().ok()?,
            "--count" => options.count = words.next()?.parse().ok()?,
            "--cases" => options.cases = words.next()?.parse().ok()?,
            "--headers" => options.headers = words.next()?.parse().ok()?,
            "--tapes" => options.tapes = words.next()?.parse().ok()?,
            "--texts" => options.texts = words.next()?.parse().ok()?,
            "--mappings" => options.mappings = words.next()?.parse().ok()?,
            "--part" => options.part = Some(words.next()?.parse().ok()?),
            "--lists" => options.lists = words.next()?.parse().ok()?,
            "--tables" => options.tables = words.next()?.parse().ok()?,
            "--cuts" => options.cuts = words.next()?.parse().ok()?,
            name if options.mode == Mode::All => options.mode = mode(name)?,
            _ => return None,
        }
    }
    if options.mode == Mode::Command && count.is_none() {
        options.count = SHORT.count;
    }
    Some(options)
}

fn value_of<'a>(words: &'a [String], name: &str) -> Option<&'a String> {
    let at = words.iter().rposition(|word| word == name)?;
    words.get(at + 1)
}

fn mode(name: &str) -> Option<Mode> {
    match name {
        "tape" => Some(Mode::Tape),
        "mappings" => Some(Mode::Mappings),
        "discs" => Some(Mode::Discs),
        "command" => Some(Mode::Command),
        "noise" => Some(Mode::Noise),
        "cuts" => Some(Mode::Cuts),
        _ => None,
    }
}

#[cfg(test)]
fn parsed(line: &str) -> Option<Options> {
    options(line.split_whitespace().map(str::to_string))
}

#[test]
fn options_are_found_in_any_order() {
    assert_eq!(parsed(""), Some(FULL));
    assert_eq!(parsed("--seed 7 --short"), Some(Options { seed: 7, ..SHORT }));
    let million = Options { count: 1_000_000, seed: 7, ..FULL };
    assert_eq!(parsed("--count 1000000 --seed 7"), Some(million));
    assert_eq!(parsed("--count 20000"), Some(Options { count: 20_000, ..SHORT }));
    let noise = Options { mode: Mode::Noise, count: 5, ..SHORT };
    assert_eq!(parsed("noise --count 5"), Some(noise));
}

#[test]
fn other_words_are_none() {
    for line in ["--count", "--count x", "nothing", "noise discs", "--seed -1"] {
        assert_eq!(parsed(line), None, "{line}");
    }
}
