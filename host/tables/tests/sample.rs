//! The sample disc in each presentation, held to stored texts.

mod common;

use common::{SECTOR, Scratch, command, ran, run, stored};
use scarletbook::raw::{TRACK_RECORDS, Track, WARNING_WORDS, WORK_BYTES};
use scarletbook::{Disc, Memory};
use tables::dump::{dump, dump_in};
use tables::json::json;
use tables::listing::listing;
use tables::reading::Reading;
use tables::sample::image;

const DUMP: &str = include_str!("sample.dump");
const JSON: &str = include_str!("sample.json");
const LISTING: &str = include_str!("sample.txt");

#[test]
fn the_dump_is_the_stored_one_in_every_format() {
    for format in 0..3 {
        assert_eq!(dump(format, &stored(format, &image(), [0; 6])), DUMP);
    }
}

#[test]
fn the_dump_is_the_same_in_lent_memory() {
    let mut work = vec![90; WORK_BYTES];
    let mut tracks = vec![Track { number: 90, ..Track::default() }; TRACK_RECORDS];
    let mut words = vec![90; WARNING_WORDS];
    for _ in 0..2 {
        let memory = Memory { work: &mut work, tracks: &mut tracks, words: &mut words };
        assert_eq!(dump_in(memory, 0, &image()), DUMP);
    }
    let memory = Memory { work: &mut [], tracks: &mut tracks, words: &mut words };
    assert_eq!(dump_in(memory, 0, &image()), "refused 2\n");
}

#[test]
fn the_json_is_the_stored_one() {
    let image = image();
    let read = Disc::read(0_u32, &image);
    assert_eq!(json(Reading::new(0, &image, &read)), JSON);
}

#[test]
fn the_listing_is_the_stored_one() {
    let image = image();
    let read = Disc::read(0_u32, &image);
    assert_eq!(listing(Reading::new(0, &image, &read)), LISTING);
}

#[test]
fn the_command_prints_them() {
    let scratch = Scratch::new("presented.iso", &image());
    let image = scratch.name();
    assert_eq!(run(&[image]), ran(0, LISTING, ""));
    assert_eq!(run(&["--dump", image]), ran(0, DUMP, ""));
    assert_eq!(run(&[image, "--json"]), ran(0, JSON, ""));
    assert_eq!(run(&["--format", "0", "--dump", "--", image]), ran(0, DUMP, ""));
}

#[test]
fn the_format_is_found_out() {
    for (format, size) in [(1, "2,054"), (2, "2,064")] {
        let name = format!("format{format}.iso");
        let scratch = Scratch::new(&name, &stored(format, &image(), [0; 6]));
        assert_eq!(run(&["--dump", scratch.name()]), ran(0, DUMP, ""));
        let head =
            format!("Format           {format} ({size} bytes a sector)\nSectors          564\n");
        assert!(run(&[scratch.name()]).out.starts_with(&head));
        let members =
            format!("{{\n  \"refused\": null,\n  \"format\": {format},\n  \"sectors\": 564,\n");
        assert!(run(&["--json", scratch.name()]).out.starts_with(&members));
    }
}

#[test]
fn no_control_character_comes_out() {
    let mut image = image();
    // A catalogue number, an ISRC and a title.
    for (lsn, at) in [(510, 24), (544, 8), (541, 70)] {
        image[lsn * SECTOR + at..][..5].copy_from_slice(b"a\x1b\x7f\x9bz");
    }
    let scratch = Scratch::new("controls.iso", &image);
    let listed = run(&[scratch.name()]).out;
    assert!(listed.contains("Album catalogue  a\u{fffd}\u{fffd}\u{fffd}z600\n"), "{listed}");
    assert!(listed.contains("  a\u{fffd}\u{fffd}\u{fffd}z2600001\n"), "{listed}");
    // Decoding makes a blank of a control below 32.
    assert!(listed.contains("  a \u{fffd}\u{fffd}zde à l'étang  "), "{listed}");
    let written = run(&["--json", scratch.name()]).out;
    assert!(written.contains(r#""album_catalog_number": "a\u001b\u007f\u009bz600""#), "{written}");
    for out in [listed, written] {
        assert!(out.chars().all(|character| character == '\n' || !character.is_control()));
    }
}

#[test]
fn without_an_image_the_sample_is_made() {
    let scratch = Scratch::absent("made.iso");
    let made = |arguments: &[&str]| {
        let mut command = command();
        command.env("TABLES_SAMPLE", &*scratch).args(arguments);
        command.output().expect("the command runs").into()
    };
    let line = format!("No image given, so this is a sample disc: {}\n", scratch.name());
    for _ in 0..2 {
        let listed: common::Ran = made(&[]);
        assert_eq!(listed, ran(0, &format!("{line}\n{LISTING}"), ""));
    }
    assert_eq!(std::fs::read(&*scratch).expect("it was made"), image());
    assert_eq!(made(&["--json"]), ran(0, JSON, &line));
    let refused = line + &scratch.refused("11: no header");
    assert_eq!(made(&["audit"]), ran(1, "", &refused));
}
