//! Gathering and scattering: every length both ways, what stands at OUT, space, faults and signals.

mod common;

use common::{Ran, Scratch, command, on_terminal, ran, run};
use std::fs::{self, File};
use std::ops::Range;
use std::os::unix::fs::symlink;
use std::os::unix::process::ExitStatusExt;
use std::path::Path;
use std::process::{Child, Command, Output, Stdio};
use std::thread::sleep;
use std::time::{Duration, Instant};
use tables::map::free_space;
use tables::report::ERASE;

/// The bytes of a sector that has a header.
const STORED: usize = 2064;
/// The bytes of an image that takes long: no test lets it come to its end.
const LARGE: u64 = 4_700_000_000;

/// Bytes of which no two stretches are alike.
fn bytes(len: usize) -> Vec<u8> {
    let mut state = 1u32;
    let mut next = || {
        state = state.wrapping_mul(1_664_525).wrapping_add(1_013_904_223);
        (state >> 24) as u8
    };
    (0..len).map(|_| next()).collect()
}

/// What gathering means, written plainly.
fn gathered(image: &[u8]) -> Vec<u8> {
    let sectors = image.chunks_exact(STORED);
    let rest = sectors.remainder();
    let parts = |part: Range<usize>| sectors.clone().flat_map(move |sector| &sector[part.clone()]);
    parts(0..12).chain(parts(12..2060)).chain(parts(2060..2064)).chain(rest).copied().collect()
}

/// Nothing stands there, not even a link.
fn is_absent(path: &Path) -> bool {
    fs::symlink_metadata(path).is_err()
}

/// What a command makes of these bytes. A name is that of the test.
fn made(word: &str, name: &str, bytes: &[u8]) -> Vec<u8> {
    let image = Scratch::new(&format!("{name}-{word}.raw"), bytes);
    let out = Scratch::absent(&format!("{name}-{word}.out"));
    assert_eq!(run(&[word, image.name(), out.name()]), ran(0, "", ""), "{} bytes", bytes.len());
    assert!(fs::read(&*image).expect("it is there") == bytes, "the image is as it was");
    fs::read(&*out).expect("it was made")
}

/// Requires that bytes are gathered as they must be, and come back, both ways round.
fn check_both_ways(name: &str, len: usize) {
    let image = bytes(len);
    let tape = made("gather", name, &image);
    assert!(tape == gathered(&image), "{len} bytes are gathered");
    assert!(made("scatter", name, &tape) == image, "{len} bytes come back");
    let scattered = made("scatter", name, &image);
    assert!(gathered(&scattered) == image, "{len} bytes are scattered");
}

#[test]
fn every_length_around_a_sector_comes_back() {
    for len in [0, 1, 11, 12, 13, 2047, 2048, 2059, 2060, 2061] {
        check_both_ways("part", len);
    }
    for sectors in 1..4 {
        for len in sectors * STORED - 1..=sectors * STORED + 1 {
            check_both_ways("sectors", len);
        }
    }
}

#[test]
fn lengths_around_a_page_and_many_sectors_come_back() {
    for len in [4095, 4096, 4097, 256 * STORED, 1000 * STORED + 2063] {
        check_both_ways("many", len);
    }
}

#[test]
fn an_empty_file_gives_an_empty_file() {
    for word in ["gather", "scatter"] {
        assert_eq!(made(word, "empty", &[]), []);
    }
}

#[test]
fn names_without_a_folder_and_with_dashes() {
    let folder = Scratch::folder("dashes");
    let image = bytes(2 * STORED + 5);
    fs::write(folder.join("-a"), &image).expect("a scratch file is written");
    for arguments in [["gather", "--", "-a", "scatter"], ["scatter", "./scatter", "--", "-b"]] {
        let output = command().current_dir(&*folder).args(arguments).output();
        assert_eq!(Ran::from(output.expect("the command runs")), ran(0, "", ""));
    }
    assert!(fs::read(folder.join("-b")).expect("it was made") == image);
}

/// The run that fails for what is wrong with a file.
fn failed(file: &Path, why: &str) -> Ran {
    ran(2, "", &format!("tables: {}: {why}\n", file.display()))
}

#[test]
fn what_stands_at_out_is_refused_and_stays() {
    let folder = Scratch::folder("taken");
    let [image, old, link, dangling, inner] =
        ["image", "old", "link", "dangling", "inner"].map(|name| folder.join(name));
    let kept = bytes(3000);
    fs::write(&image, &kept).expect("a scratch file is written");
    fs::write(&old, "old").expect("a scratch file is written");
    symlink("old", &link).expect("a link is made");
    symlink("absent", &dangling).expect("a link is made");
    fs::create_dir(&inner).expect("a folder is made");
    for word in ["gather", "scatter"] {
        for out in [&image, &old, &link, &dangling, &inner] {
            let output = command().arg(word).args([&image, out]).output();
            let refused = failed(out, "File exists (os error 17)");
            assert_eq!(Ran::from(output.expect("it runs")), refused);
        }
    }
    assert!(fs::read(&image).expect("it is there") == kept);
    assert_eq!(fs::read_to_string(&old).expect("it is there"), "old");
    for (link, to) in [(&link, "old"), (&dangling, "absent")] {
        assert_eq!(fs::read_link(link).expect("it is there"), Path::new(to));
    }
    assert_eq!(fs::read_dir(&inner).expect("it is there").count(), 0);
    assert_eq!(fs::read_dir(&*folder).expect("it is there").count(), 5, "nothing was made");
}

#[test]
fn a_file_that_cannot_be_read_or_made_leaves_none() {
    let image = Scratch::new("unmade.raw", &bytes(STORED));
    let absent = Scratch::absent("unmade.absent");
    let out = Scratch::absent("unmade.out");
    let inside = absent.join("out");
    for word in ["gather", "scatter"] {
        let nowhere = run(&[word, image.name(), inside.to_str().expect("a plain name")]);
        assert_eq!(nowhere, failed(&inside, "No such file or directory (os error 2)"));
        let missing = run(&[word, absent.name(), out.name()]);
        assert_eq!(missing, failed(&absent, "No such file or directory (os error 2)"));
        let folder = run(&[word, env!("CARGO_TARGET_TMPDIR"), out.name()]);
        let why = "Is a directory (os error 21)";
        assert_eq!(folder, failed(Path::new(env!("CARGO_TARGET_TMPDIR")), why));
        let device = run(&[word, "/dev/null", out.name()]);
        assert_eq!(device, failed(Path::new("/dev/null"), "neither a file nor a block device"));
        assert!(is_absent(&out) && is_absent(&absent));
    }
}

#[test]
fn wrong_arguments() {
    for (word, first) in [("gather", "IMAGE"), ("scatter", "GATHERED")] {
        for (files, line) in [
            (&[][..], format!("no {first} and no OUT")),
            (&["a"], "no OUT".to_owned()),
            (&["a", "b", "c"], format!("only {first} and OUT, not c too")),
            (&["a", "b", "--force"], format!("{word} has no option --force")),
            (&["--format", "2", "a", "b"], format!("{word} has no option --format")),
        ] {
            // No sample disc stands in.
            let sample = ("TABLES_SAMPLE", "/dev/null/sample.iso");
            let output = command().envs([sample]).arg(word).args(files).output();
            let usage = format!("usage: tables {word} {first} OUT");
            let wrong = ran(2, "", &format!("tables: {line}\n{usage}\n"));
            assert_eq!(Ran::from(output.expect("it runs")), wrong);
        }
    }
}

#[test]
fn too_little_space_is_said_before_anything_is_made() {
    let free = free_space(Path::new(env!("CARGO_TARGET_TMPDIR"))).expect("the folder is there");
    // Much more than may become free meanwhile.
    let len = free.saturating_mul(4).saturating_add(1 << 40);
    let image = Scratch::new("space.raw", &[]);
    let file = File::options().write(true).open(&*image).expect("it was written");
    if file.set_len(len).is_err() {
        eprintln!("left out: a file cannot be longer than the free space");
        return;
    }
    let out = Scratch::absent("space.out");
    for word in ["gather", "scatter"] {
        let refused = run(&[word, image.name(), out.name()]);
        assert_eq!((refused.status, &*refused.out), (Some(2), ""));
        let line = format!("tables: {}: too little space: {len} bytes are needed, ", out.name());
        assert!(refused.error.starts_with(&line), "{}", refused.error);
        assert!(refused.error.ends_with(" are free\n"), "{}", refused.error);
        assert!(is_absent(&out));
    }
}

#[test]
fn a_file_longer_than_the_limit_of_the_user_is_an_error() {
    let image = Scratch::new("limit.raw", &bytes(100 * STORED));
    let out = Scratch::absent("limit.out");
    let mut limited = Command::new("sh");
    limited.args(["-c", "ulimit -f 8; exec \"$0\" gather \"$1\" \"$2\""]);
    limited.arg(command().get_program()).args([&*image, &*out]);
    let why = "File too large (os error 27)";
    assert_eq!(Ran::from(limited.output().expect("sh runs")), failed(&out, why));
    assert!(is_absent(&out));
}

/// A gathering that takes long, on its way.
struct Gathering {
    image: Scratch,
    out: Scratch,
    child: Child,
}

impl Gathering {
    /// Starts it, behind other commands of a shell, and waits until OUT has its length. Nothing where
    /// there is no space for it.
    fn start(name: &str, before: &str) -> Option<Self> {
        let free = free_space(Path::new(env!("CARGO_TARGET_TMPDIR"))).expect("it is there");
        if free < 2 * LARGE {
            eprintln!("left out, for want of space");
            return None;
        }
        let image = Scratch::sparse(&format!("{name}.raw"), &bytes(3000), LARGE);
        let out = Scratch::absent(&format!("{name}.out"));
        let mut shell = Command::new("sh");
        shell.args(["-c", &format!("{before} exec \"$0\" gather \"$1\" \"$2\"")]);
        shell.arg(command().get_program()).args([&*image, &*out]);
        let child = shell.stdout(Stdio::piped()).stderr(Stdio::piped()).spawn().expect("sh runs");
        let late = Instant::now() + Duration::from_secs(60);
        while fs::metadata(&*out).map_or(0, |data| data.len()) < LARGE {
            assert!(Instant::now() < late, "no OUT of this length");
            sleep(Duration::from_micros(200));
        }
        Some(Gathering { image, out, child })
    }

    /// Sends a signal by its name.
    fn send(&self, signal: &str) {
        let line = format!("kill -s {signal} {}", self.child.id());
        assert!(Command::new("sh").args(["-c", &line]).status().expect("sh runs").success());
    }

    /// Waits for the end, after which there must be no OUT.
    fn end(self) -> Output {
        let output = self.child.wait_with_output().expect("it ends");
        assert!(is_absent(&self.out), "OUT is left");
        output
    }
}

/// Whether this program, and so what it runs, ignores a signal.
fn is_ignored(number: u32) -> bool {
    let status = fs::read_to_string("/proc/self/status").expect("Linux has it");
    let ignored = status.lines().find_map(|line| line.strip_prefix("SigIgn:"));
    let ignored = ignored.and_then(|mask| u64::from_str_radix(mask.trim(), 16).ok());
    ignored.expect("it has a mask") >> (number - 1) & 1 == 1
}

#[test]
fn a_signal_removes_the_file_and_ends_the_program() {
    let signals = [
        ("HUP", 1),
        ("INT", 2),
        ("QUIT", 3),
        ("ABRT", 6),
        ("USR1", 10),
        ("TERM", 15),
        ("XCPU", 24),
    ];
    for (signal, number) in signals {
        if is_ignored(number) {
            eprintln!("{signal} is left out: it is ignored here");
            continue;
        }
        let Some(gathering) = Gathering::start(&format!("signal{number}"), "") else { return };
        gathering.send(signal);
        let ended = gathering.end();
        assert_eq!(ended.status.signal(), Some(number as i32), "{signal}");
        assert_eq!((ended.stdout, ended.stderr), (vec![], vec![]));
    }
}

#[test]
fn a_signal_that_is_ignored_stays_so() {
    let Some(gathering) = Gathering::start("nohup", "trap '' HUP;") else { return };
    gathering.send("HUP");
    gathering.send("TERM");
    assert_eq!(gathering.end().status.signal(), Some(15));
}

#[test]
fn what_another_made_at_out_meanwhile_stays() {
    let Some(gathering) = Gathering::start("replaced", "") else { return };
    fs::remove_file(&*gathering.out).expect("it is there");
    fs::write(&*gathering.out, "another's").expect("a scratch file is written");
    gathering.send("TERM");
    let Gathering { out, mut child, .. } = gathering;
    assert_eq!(child.wait().expect("it ends").signal(), Some(15));
    assert_eq!(fs::read_to_string(&*out).expect("it stays"), "another's");
}

/// Makes a file shorter.
fn cut(file: &Path) {
    let file = File::options().write(true).open(file).expect("it is there");
    file.set_len(STORED as u64).expect("it can be made shorter");
}

#[test]
fn an_image_that_becomes_shorter_is_an_error() {
    let Some(gathering) = Gathering::start("shrunk", "") else { return };
    cut(&gathering.image);
    let why = "cannot be read: a read error, or the file became shorter";
    let failed = failed(&gathering.image, why);
    assert_eq!(Ran::from(gathering.end()), failed);
}

#[test]
fn bytes_that_cannot_be_written_are_an_error() {
    let Some(gathering) = Gathering::start("unwritten", "") else { return };
    cut(&gathering.out);
    let why = "cannot be written: the disk is full, a write error, or the file became shorter";
    let failed = failed(&gathering.out, why);
    assert_eq!(Ran::from(gathering.end()), failed);
}

#[test]
fn nothing_is_left_on_a_terminal() {
    let image = Scratch::sparse("terminal.raw", &bytes(3000), 100_000_000);
    let out = Scratch::absent("terminal.out");
    if let Some(shown) = on_terminal(&format!("gather '{}' '{}'", image.name(), out.name())) {
        // It may be too quick for a percentage.
        let cleared = shown.starts_with('\r') && shown.ends_with(ERASE) && !shown.contains('\n');
        assert!(shown.is_empty() || cleared, "{shown:?}");
        assert_eq!(fs::metadata(&*out).expect("it was made").len(), 100_000_000);
    }
}
