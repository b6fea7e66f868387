//! Help, wrong arguments, files that cannot be read, and refusals: what is said, and the exit status.

mod common;

use common::{Ran, SECTOR, Scratch, command, ran, run};
use std::fs;
use std::path::Path;
use std::process::Stdio;
use tables::commands::{COMMANDS, Command, LISTING};
use tables::sample;

const USAGE: &str = "\
usage: tables [--dump | --json] [--format N] [--mapping SET=FILE].. [IMAGE]
       tables COMMAND [ARGUMENTS]
";
/// Where a field of the sample's master table stands.
const MASTER: usize = 510 * SECTOR;

fn wrong(arguments: &[&str], line: &str) {
    assert_eq!(run(arguments), ran(2, "", &format!("tables: {line}\n{USAGE}")));
}

/// The sample disc with other bytes at places of its master table.
fn changed(name: &str, changes: &[(usize, &[u8])]) -> Scratch {
    let mut image = sample::image();
    for (at, bytes) in changes {
        image[MASTER + at..][..bytes.len()].copy_from_slice(bytes);
    }
    Scratch::new(name, &image)
}

#[test]
fn wrong_arguments() {
    wrong(&[], "no image");
    wrong(&["--dump"], "no image");
    wrong(&["--what", "a"], "tables has no option --what");
    wrong(&["\u{1b}[2J", "--\u{1b}[2J"], "tables has no option --\u{fffd}[2J");
    wrong(&["a", "b"], "only one image, not a and b");
    wrong(&["--dump", "a", "--json"], "only one of --dump and --json");
    wrong(&["--format", "x", "a"], "--format needs 0, 1 or 2, not x");
    wrong(&["a", "--format"], "--format needs 0, 1 or 2");
}

#[test]
fn wrong_arguments_of_a_command() {
    let usage = "usage: tables audit [--format N] [IMAGE]\n";
    for (arguments, line) in [
        (&["audit"][..], "no image"),
        (&["audit", "--json", "a"], "audit has no option --json"),
        (&["audit", "a", "b"], "only one image, not a and b"),
        (&["audit", "audit"], "audit is a command, and stands first; a file: ./audit"),
    ] {
        assert_eq!(run(arguments), ran(2, "", &format!("tables: {line}\n{usage}")));
    }
}

#[test]
fn the_options_that_became_commands_name_them() {
    for word in ["audit", "fingerprints"] {
        let line = format!("tables has no option --{word}; the command is: tables {word}");
        wrong(&[&format!("--{word}"), "a"], &line);
        wrong(&["a", &format!("--{word}")], &line);
        wrong(&["--format", "2", word, "a"], &stands_first(word));
        wrong(&["a", word], &stands_first(word));
    }
}

fn stands_first(word: &str) -> String {
    format!("{word} is a command, and stands first; a file: ./{word}")
}

#[test]
fn help() {
    assert_eq!(LISTING.usage(), USAGE.trim_end());
    assert_eq!(run(&["--help"]), ran(0, LISTING.help, ""));
    assert_eq!(run(&["a", "b", "-h", "--what"]), ran(0, LISTING.help, ""));
    for command in &COMMANDS {
        assert_eq!(run(&[command.word, "--help"]), ran(0, command.help, ""));
        assert_eq!(run(&[command.word, "a", "b", "-h"]), ran(0, command.help, ""));
    }
}

#[test]
fn the_help_has_each_command_and_each_option() {
    let mut files = vec![LISTING.word];
    for command in &COMMANDS {
        let line = format!("\n  {:<12}  ", command.word);
        assert!(LISTING.help.contains(&line), "{}", command.word);
        assert!(command.usage().starts_with(&format!("usage: tables {} ", command.word)));
        files.push(command.word);
    }
    for command in COMMANDS.iter().chain([&LISTING]) {
        check_help(command);
    }
    let folder = Path::new(env!("CARGO_MANIFEST_DIR")).join("help");
    let entries = fs::read_dir(folder).expect("the help is there");
    let names = entries.map(|entry| entry.expect("it can be listed").file_name());
    let mut names: Vec<_> = names.map(|name| name.into_string().expect("a plain name")).collect();
    let mut files: Vec<_> = files.iter().map(|word| format!("{word}.txt")).collect();
    names.sort();
    files.sort();
    assert_eq!(names, files);
}

fn check_help(command: &Command) {
    assert!(command.help.lines().all(|line| line.len() <= 80), "{}", command.word);
    assert!(command.help.ends_with(".\n"));
    for option in command.options.iter().chain(&["--help"]) {
        assert!(command.help.contains(&format!("\n  {option} ")), "{} {option}", command.word);
    }
}

#[test]
fn the_release() {
    let version = format!("tables {}\n", env!("CARGO_PKG_VERSION"));
    assert_eq!(run(&["--version"]), ran(0, &version, ""));
    assert_eq!(run(&["audit", "a", "b", "--version"]), ran(0, &version, ""));
}

#[test]
fn a_file_with_a_command_s_name() {
    let folder = Scratch::folder("named");
    let image = folder.join("audit");
    fs::write(&image, sample::image()).expect("a scratch file is written");
    let in_folder = |arguments: &[&str]| {
        let output = command().current_dir(&*folder).args(arguments).output();
        Ran::from(output.expect("the command runs"))
    };
    let listing = include_str!("sample.txt");
    assert_eq!(in_folder(&["./audit"]), ran(0, listing, ""));
    assert_eq!(in_folder(&["--", "audit"]), ran(0, listing, ""));
    let refused = |name| ran(1, "", &format!("{name}: refused 11: no header\n"));
    assert_eq!(in_folder(&["audit", "./audit"]), refused("./audit"));
    assert_eq!(in_folder(&["audit", "--", "audit"]), refused("audit"));
    assert_eq!(in_folder(&["audit"]).status, Some(2));
}

#[test]
fn files_that_cannot_be_mapped() {
    let absent = Scratch::absent("absent.iso");
    let line = format!("tables: {}: No such file or directory (os error 2)\n", absent.name());
    for word in ["--dump", "--json", "audit", "fingerprints", "--format=0"] {
        assert_eq!(run(&[word, absent.name()]), ran(2, "", &line));
    }
    let folder = env!("CARGO_TARGET_TMPDIR");
    let line = format!("tables: {folder}: Is a directory (os error 21)\n");
    assert_eq!(run(&[folder]), ran(2, "", &line));
    let line = "tables: /dev/null: neither a file nor a block device\n";
    assert_eq!(run(&["/dev/null"]), ran(2, "", line));
    let piped = command().arg("/dev/stdin").stdin(Stdio::piped()).output().expect("it runs");
    let line = "tables: /dev/stdin: neither a file nor a block device\n";
    assert_eq!(Ran::from(piped), ran(2, "", line));
}

#[test]
fn a_sample_that_cannot_be_written() {
    let mut command = command();
    command.env("TABLES_SAMPLE", "/dev/null/sample.iso");
    let line = "tables: /dev/null/sample.iso: Not a directory (os error 20)\n";
    assert_eq!(Ran::from(command.output().expect("it runs")), ran(2, "", line));
}

#[test]
fn an_output_that_takes_nothing() {
    let scratch = Scratch::new("full.iso", &sample::image());
    let line = "tables: standard output: No space left on device (os error 28)\n";
    for word in ["--dump", "fingerprints"] {
        let full = std::fs::File::options().write(true).open("/dev/full").expect("it is there");
        let output = command().args([word, scratch.name()]).stdout(full).output();
        assert_eq!(Ran::from(output.expect("it runs")), ran(2, "", line));
    }
}

#[test]
fn an_empty_file() {
    let scratch = Scratch::new("empty.iso", &[]);
    let image = scratch.name();
    let cut = scratch.refused("3: cut master");
    assert_eq!(run(&[image]), ran(1, "", &cut));
    assert_eq!(run(&["--format", "0", image]), ran(1, "", &cut));
    assert_eq!(run(&["--dump", image]), ran(1, "refused 3\n", &cut));
    let audited = run(&["audit", "--format", "2", image]);
    assert_eq!(audited, ran(0, "0 headers: 0 sound, 0 blank, 0 unsound\n", ""));
    let refused = ran(1, "", &scratch.refused("11: no header"));
    assert_eq!(run(&["audit", "--format", "0", image]), refused);
    assert_eq!(run(&["fingerprints", "--format", "0", image]), ran(0, "", ""));
}

#[test]
fn an_image_in_which_no_format_is_found_is_read_as_format_0() {
    let zeros = vec![0; 520 * SECTOR];
    let short = Scratch::new("short.iso", &zeros[..520 * SECTOR - 1]);
    let whole = Scratch::new("whole.iso", &zeros);
    for (scratch, number, word) in [(&short, 3, "cut master"), (&whole, 4, "not Scarlet Book")] {
        let image = scratch.name();
        let error = scratch.refused(&format!("{number}: {word}"));
        assert_eq!(run(&[image]), ran(1, "", &error));
        assert_eq!(run(&["--dump", image]), ran(1, &format!("refused {number}\n"), &error));
        let json = run(&["--json", image]);
        assert!(json.out.contains(&format!("{{\"number\": {number}, ")), "{}", json.out);
        assert_eq!((json.status, json.error), (Some(1), error));
        let advice = "no format is found in it; --format 2 reads it all the same";
        let error =
            scratch.refused("4: not Scarlet Book") + &format!("tables: {image}: {advice}\n");
        for word in ["audit", "fingerprints"] {
            assert_eq!(run(&[word, image]), ran(1, "", &error));
        }
        let audited = run(&["audit", "--format", "2", image]);
        let lines = "0-514: blank headers\n515 headers: 0 sound, 515 blank, 0 unsound\n";
        assert_eq!(audited, ran(1, lines, ""));
        let printed = run(&["fingerprints", "--format", "2", image]);
        assert_eq!((printed.status, printed.out.lines().count()), (Some(0), 515));
    }
}

#[test]
fn refusals() {
    let sample = changed("sample.iso", &[]);
    let unsigned = changed("unsigned.iso", &[(7, b"D")]);
    let newer = changed("newer.iso", &[(8, &[2])]);
    let cases: [(&Scratch, &[&str], u8, &str); 6] = [
        (&sample, &["--format", "3"], 1, "foreign format"),
        (&sample, &["--format", "4294967295"], 1, "foreign format"),
        (&sample, &["--format", "2"], 4, "not Scarlet Book"),
        (&unsigned, &["--format", "0"], 4, "not Scarlet Book"),
        (&unsigned, &[], 4, "not Scarlet Book"),
        (&newer, &[], 5, "newer edition"),
    ];
    for (image, arguments, number, word) in cases {
        let error = image.refused(&format!("{number}: {word}"));
        let refused = |form: &[&str]| run(&[arguments, form, &[image.name()]].concat());
        assert_eq!(refused(&[]), ran(1, "", &error));
        assert_eq!(refused(&["--dump"]), ran(1, &format!("refused {number}\n"), &error));
        let member = format!("\"refused\": {{\"number\": {number}, \"word\": \"{word}\"}}");
        assert_eq!(refused(&["--json"]), ran(1, &format!("{{\n  {member}\n}}\n"), &error));
    }
}

#[test]
fn a_silent_disc_has_its_master_record_and_warnings() {
    // The second slot is unused; the first names a table past the end, and its text a set that is not held.
    let changes: [(usize, &[u8]); 5] =
        [(64, &[9; 8]), (72, &[0; 8]), (138, &[3]), (10 * SECTOR + 138, &[3]), (20 * SECTOR, b"x")];
    let silent = changed("silent.iso", &changes);
    let listed = run(&[silent.name()]);
    assert_eq!((listed.status, listed.error), (Some(1), silent.refused("6: silent disc")));
    let lines =
        ["Format", "Sectors", "Album", "Album artist", "Album catalogue", "Disc", "Disc artist"];
    for (line, begin) in listed.out.lines().zip(lines) {
        assert!(line.starts_with(begin), "{line}");
    }
    assert!(listed.out.contains("Album            (set 3, not held)\n"));
    let warnings = "
Warnings
  disc: a copy of the master table differs
  area 1: the first copy of its table cannot be read
  area 1: the second copy of its table cannot be read
  area 1: no copy of its table can be read; left out
";
    assert!(listed.out.ends_with(warnings), "{}", listed.out);
    let dumped = run(&["--dump", silent.name()]);
    assert!(dumped.out.starts_with("refused 6\nmaster.version 1 20\n"));
    assert!(dumped.out.contains("master.text.album_title present\n"));
    assert!(dumped.out.contains("master.text.album_copyright -\n"));
    assert!(dumped.out.ends_with("\nareas 0\nwarnings 4\n17 0 0\n4 1 0\n5 1 0\n7 1 0\n"));
    let written = run(&["--json", silent.name()]).out;
    assert!(written.starts_with("{\n  \"refused\": {\"number\": 6, \"word\": \"silent disc\"},\n"));
    assert!(written.contains("\n      \"album_title\": {\"set\": 3},\n"));
    assert!(written.contains("\n  \"areas\": [],\n  \"warnings\": [\n"));
}
