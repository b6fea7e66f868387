//! The audit and the fingerprints, a reader that leaves early, and a file that becomes shorter.

mod common;

use common::{
    BLANK, MENDABLE, Ran, SECTOR, SOUND, Scratch, UNSOUND, command, on_terminal, ran, run, stored,
};
use std::fs::File;
use std::io::{BufRead, BufReader, Read};
use std::process::{Child, Stdio};
use std::sync::atomic::{AtomicUsize, Ordering};
use tables::sample;

/// What a line says of an unsound header of letter u, and of letter m.
const BEYOND: &str = "unsound header 000000010203, beyond mending";
const MENDS: &str = "unsound header 00a700010302, mends to 000000010302";

/// An image of format 2: a sector for each letter, its header sound, blank or unsound by it, its data all of one byte.
fn headers(letters: &str, data: u8) -> Vec<u8> {
    let sectors = letters.chars().flat_map(|letter| {
        let header = match letter {
            's' => SOUND,
            'b' => BLANK,
            'u' => UNSOUND,
            'm' => MENDABLE,
            _ => unreachable!("{letter} is no header"),
        };
        stored(2, &[data; SECTOR], header)
    });
    sectors.collect()
}

fn audit(image: &[u8]) -> Ran {
    static FILES: AtomicUsize = AtomicUsize::new(0);
    let file = FILES.fetch_add(1, Ordering::Relaxed);
    let scratch = Scratch::new(&format!("audited{file}.raw"), image);
    run(&["audit", "--format", "2", scratch.name()])
}

/// Audits the headers of these letters, before zeros and before other data. `BEYOND` and `MENDS` stand for their texts.
fn check_audit(letters: &str, status: i32, lines: &[&str]) {
    let lines: String = lines.iter().map(|line| format!("{line}\n")).collect();
    let lines = lines.replace("BEYOND", BEYOND).replace("MENDS", MENDS);
    for data in [0, 7] {
        let audited = audit(&headers(letters, data));
        assert_eq!(audited, ran(status, &lines, ""), "{letters}");
    }
}

#[test]
fn every_unsound_header_has_a_line() {
    check_audit("sssss", 0, &["5 headers: 5 sound, 0 blank, 0 unsound"]);
    let last = "5 headers: 3 sound, 0 blank, 2 unsound";
    check_audit("ussus", 1, &["0: BEYOND", "3: BEYOND", last]);
    let last = "2 headers: 0 sound, 0 blank, 2 unsound";
    check_audit("uu", 1, &["0: BEYOND", "1: BEYOND", last]);
}

#[test]
fn an_unsound_header_has_its_bytes_and_what_it_mends_to() {
    let last = "3 headers: 0 sound, 0 blank, 3 unsound";
    check_audit("mum", 1, &["0: MENDS", "1: BEYOND", "2: MENDS", last]);
    let last = "5 headers: 1 sound, 2 blank, 2 unsound";
    check_audit("bmbus", 1, &["0: blank header", "1: MENDS", "2: blank header", "3: BEYOND", last]);
    let far = stored(2, &[0; SECTOR], [0, 0, 0x04, 0xd2, 0x77, 0xa0]);
    let lines = "1234: unsound header 000004d277a0, mends to 000004d277a1\n\
                 1235 headers: 1234 sound, 0 blank, 1 unsound\n";
    assert_eq!(audit(&[headers(&"s".repeat(1234), 0), far].concat()), ran(1, lines, ""));
}

#[test]
fn a_bad_byte_in_any_place_of_a_sound_or_a_blank_header_mends() {
    for correct in [[0, 3, 0xa9, 0xfe, 0x76, 0x22], BLANK] {
        for at in 0..6 {
            let mut header = correct;
            header[at] ^= 0x5c;
            let [unsound, mended] = [header, correct].map(digits);
            let line = format!("0: unsound header {unsound}, mends to {mended}\n");
            let all = line + "1 headers: 0 sound, 0 blank, 1 unsound\n";
            assert_eq!(audit(&stored(2, &[7; SECTOR], header)), ran(1, &all, ""));
        }
    }
}

/// The 12 hexadecimal digits of a header.
fn digits(header: [u8; 6]) -> String {
    header.map(|byte| format!("{byte:02x}")).concat()
}

#[test]
fn every_run_of_blank_headers_has_a_line() {
    // At the start, in the middle, at the end.
    check_audit("bbss", 1, &["0-1: blank headers", "4 headers: 2 sound, 2 blank, 0 unsound"]);
    check_audit("sbbbs", 1, &["1-3: blank headers", "5 headers: 2 sound, 3 blank, 0 unsound"]);
    check_audit("ssbb", 1, &["2-3: blank headers", "4 headers: 2 sound, 2 blank, 0 unsound"]);
    // Of one.
    check_audit("bss", 1, &["0: blank header", "3 headers: 2 sound, 1 blank, 0 unsound"]);
    check_audit("sbs", 1, &["1: blank header", "3 headers: 2 sound, 1 blank, 0 unsound"]);
    check_audit("ssb", 1, &["2: blank header", "3 headers: 2 sound, 1 blank, 0 unsound"]);
    // None but blank ones.
    check_audit("b", 1, &["0: blank header", "1 headers: 0 sound, 1 blank, 0 unsound"]);
    check_audit("bbb", 1, &["0-2: blank headers", "3 headers: 0 sound, 3 blank, 0 unsound"]);
}

#[test]
fn a_sound_or_an_unsound_header_ends_a_run() {
    let last = "5 headers: 1 sound, 4 blank, 0 unsound";
    check_audit("bbsbb", 1, &["0-1: blank headers", "3-4: blank headers", last]);
    let lines = ["0-1: blank headers", "2: BEYOND", "3-4: blank headers"];
    let last = "5 headers: 0 sound, 4 blank, 1 unsound";
    check_audit("bbubb", 1, &[&lines[..], &[last]].concat());
    let lines = ["0: BEYOND", "2-4: blank headers", "5: BEYOND", "7: blank header"];
    let last = "8 headers: 2 sound, 4 blank, 2 unsound";
    check_audit("usbbbusb", 1, &[&lines[..], &[last]].concat());
    let lines = ["0: blank header", "1: BEYOND", "2: blank header"];
    check_audit("bub", 1, &[&lines[..], &["3 headers: 0 sound, 2 blank, 1 unsound"]].concat());
}

#[test]
fn a_run_goes_on_from_step_to_step() {
    let all = audit(&vec![0; 9000 * 2064]);
    let lines = "0-8999: blank headers\n9000 headers: 0 sound, 9000 blank, 0 unsound\n";
    assert_eq!(all, ran(1, lines, ""));
    // A step has 4,096 sectors: to its end, over it, from it on, all of it.
    for (sound, blank) in [(4000, 96), (4000, 97), (4095, 2), (4096, 2), (4096, 4096)] {
        let letters = "s".repeat(sound) + &"b".repeat(blank) + "u";
        let end = sound + blank;
        let lines = [
            format!("{sound}-{}: blank headers", end - 1),
            format!("{end}: BEYOND"),
            format!("{} headers: {sound} sound, {blank} blank, 1 unsound", end + 1),
        ];
        check_audit(&letters, 1, &lines.each_ref().map(String::as_str));
    }
}

#[test]
fn a_last_sector_that_is_not_whole_is_not_audited() {
    let cut = |letters| audit(&headers(letters, 0)[..letters.len() * 2064 - 1]);
    let four = "4 headers: 4 sound, 0 blank, 0 unsound\n";
    assert_eq!(cut("ssssu"), ran(0, four, ""));
    assert_eq!(cut("ssssb"), ran(0, four, ""));
    let blank = "2: blank header\n3 headers: 2 sound, 1 blank, 0 unsound\n";
    assert_eq!(cut("ssbb"), ran(1, blank, ""));
    assert_eq!(cut("b"), ran(0, "0 headers: 0 sound, 0 blank, 0 unsound\n", ""));
}

#[test]
fn the_audit_finds_out_the_format_and_refuses_those_without_headers() {
    let raw = Scratch::new("disc.raw", &stored(2, &sample::image(), UNSOUND));
    let audited = run(&["audit", raw.name()]);
    assert_eq!((audited.status, &*audited.error), (Some(1), ""));
    assert!(audited.out.starts_with(&format!("0: {BEYOND}\n1: {BEYOND}\n")));
    let counts = "564 headers: 0 sound, 0 blank, 564 unsound";
    assert!(audited.out.ends_with(&format!("\n563: {BEYOND}\n{counts}\n")));
    let plain = Scratch::new("disc.iso", &sample::image());
    let refused = ran(1, "", &plain.refused("11: no header"));
    assert_eq!(run(&["audit", plain.name()]), refused);
    assert_eq!(run(&["audit", "--format=1", plain.name()]), refused);
    let foreign = ran(1, "", &plain.refused("1: foreign format"));
    for word in ["audit", "fingerprints"] {
        assert_eq!(run(&[word, "--format=3", plain.name()]), foreign);
    }
}

#[test]
fn every_sector_has_a_fingerprint() {
    let mut image = vec![0; 3 * SECTOR];
    image[SECTOR..2 * SECTOR].fill(0xff);
    // FNV-1a by its definition.
    let fold = |hash: u64, byte: &u8| (hash ^ u64::from(*byte)).wrapping_mul(0x0100_0000_01b3);
    let fingerprints =
        image.chunks(SECTOR).map(|sector| sector.iter().fold(0xcbf2_9ce4_8422_2325, fold));
    let lines = fingerprints.enumerate().map(|(lsn, hash)| format!("{lsn} {hash:016x}\n"));
    let lines: String = lines.collect();
    for format in 0..3 {
        let scratch = Scratch::new(&format!("prints{format}"), &stored(format, &image, SOUND));
        let format = format.to_string();
        let printed = run(&["fingerprints", "--format", &format, scratch.name()]);
        assert_eq!(printed, ran(0, &lines, ""));
    }
}

/// A file of many sectors: its fingerprints fill a pipe and every buffer.
fn many(name: &str) -> Scratch {
    Scratch::sparse(name, &sample::image(), 40_000 * SECTOR as u64)
}

/// The command over such a file, its output not read yet.
fn fingerprints(scratch: &Scratch) -> Child {
    let mut command = command();
    command.args(["fingerprints", scratch.name()]);
    command.stdout(Stdio::piped()).stderr(Stdio::piped()).spawn().expect("it runs")
}

#[test]
fn a_reader_that_leaves_early_ends_it_quietly() {
    let scratch = many("closed.iso");
    let mut child = fingerprints(&scratch);
    let mut out = BufReader::new(child.stdout.take().expect("it is piped"));
    let mut line = String::new();
    out.read_line(&mut line).expect("it has a line");
    assert!(line.starts_with("0 "));
    drop(out);
    let ended = Ran::from(child.wait_with_output().expect("it ends"));
    assert_eq!(ended, ran(2, "", ""));
}

#[test]
fn a_file_that_becomes_shorter_is_an_error() {
    let scratch = many("shrunk.iso");
    let mut child = fingerprints(&scratch);
    let mut out = child.stdout.take().expect("it is piped");
    out.read_exact(&mut [0; 2]).expect("it has a line");
    // It cannot come to its end: the pipe does not take all lines.
    let file = File::options().write(true).open(&*scratch).expect("it is there");
    file.set_len(SECTOR as u64).expect("it can be made shorter");
    let mut lines = String::new();
    out.read_to_string(&mut lines).expect("lines are text");
    let ended = Ran::from(child.wait_with_output().expect("it ends"));
    let why = "cannot be read: a read error, or the file became shorter";
    assert_eq!(ended, ran(2, "", &format!("tables: {}: {why}\n", scratch.name())));
}

/// A percentage that is cleared again.
const CLEARED: &str = " %\r\u{1b}[K";

#[test]
fn progress_is_shown_on_a_terminal_and_cleared() {
    let large = Scratch::sparse("progress.iso", &[], 300_000 * SECTOR as u64);
    let fingerprints = format!("fingerprints --format 0 '{}'", large.name());
    let Some(shown) = on_terminal(&format!("{fingerprints} >/dev/null")) else {
        eprintln!("left out, for want of the command script or of a terminal");
        return;
    };
    assert!(shown.starts_with('\r') && shown.ends_with(CLEARED), "{shown:?}");
    assert!(shown.lines().count() == 1, "{shown:?}");
    let piped = on_terminal(&format!("{fingerprints} | cat >/dev/null"));
    assert_eq!(piped.as_deref(), Some(""));
    let shown = on_terminal(&fingerprints).expect("there is a terminal");
    assert!(shown.contains(CLEARED), "no percentage among the lines");
    for (lsn, line) in shown.lines().enumerate() {
        let line = line.rsplit(CLEARED).next().unwrap_or(line);
        assert!(line.starts_with(&format!("{lsn} ")), "{line:?}");
    }
}

#[test]
fn a_few_headers_are_audited_on_a_terminal_without_progress() {
    let some = Scratch::new("terminal.raw", &headers("sbbums", 0));
    if let Some(shown) = on_terminal(&format!("audit --format 2 '{}'", some.name())) {
        let lines = ["1-2: blank headers", &format!("3: {BEYOND}"), &format!("4: {MENDS}")];
        let counts = "6 headers: 2 sound, 2 blank, 2 unsound\r\n";
        assert_eq!(shown, lines.map(|line| format!("{line}\r\n")).concat() + counts);
    }
}

#[test]
fn a_long_run_of_blank_headers_is_a_clean_line_on_a_terminal() {
    let large = Scratch::sparse("stretch.raw", &UNSOUND, 200_000 * 2064);
    if let Some(shown) = on_terminal(&format!("audit --format 2 '{}'", large.name())) {
        let lines = shown.lines().map(|line| line.rsplit(CLEARED).next().unwrap_or(line));
        let counts = "200000 headers: 0 sound, 199999 blank, 1 unsound";
        let expected = [&format!("0: {BEYOND}"), "1-199999: blank headers", counts];
        assert!(lines.eq(expected), "{shown:?}");
    }
}
