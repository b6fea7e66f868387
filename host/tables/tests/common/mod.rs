//! Runs the command over files that are removed again.

// Each test program uses a part of this.
#![allow(dead_code)]

use std::fs::{self, File};
use std::ops::Deref;
use std::path::{Path, PathBuf};
use std::process::{Command, Output};

pub const SECTOR: usize = 2048;
/// A header that is sound, one that is blank, one that is neither and beyond mending, and the sound one with a bad byte.
pub const SOUND: [u8; 6] = [0, 0, 0, 1, 3, 2];
pub const BLANK: [u8; 6] = [0; 6];
pub const UNSOUND: [u8; 6] = [0, 0, 0, 1, 2, 3];
pub const MENDABLE: [u8; 6] = [0, 0xa7, 0, 1, 3, 2];

/// A file or folder that is removed when it is dropped.
pub struct Scratch(PathBuf);

impl Scratch {
    /// A file of a name that no other test uses.
    pub fn new(name: &str, bytes: &[u8]) -> Self {
        let scratch = Scratch::absent(name);
        fs::write(&scratch.0, bytes).expect("a scratch file is written");
        scratch
    }

    /// A file with these bytes at its start, and then so many in all.
    pub fn sparse(name: &str, bytes: &[u8], len: u64) -> Self {
        let scratch = Scratch::new(name, bytes);
        let file = File::options().write(true).open(&*scratch).expect("it was written");
        file.set_len(len).expect("a file may have holes");
        scratch
    }

    /// A name without a file.
    pub fn absent(name: &str) -> Self {
        let folder = Path::new(env!("CARGO_TARGET_TMPDIR"));
        Scratch(folder.join(format!("tables-{}-{name}", std::process::id())))
    }

    /// A folder.
    pub fn folder(name: &str) -> Self {
        let scratch = Scratch::absent(name);
        fs::create_dir(&scratch.0).expect("a scratch folder is made");
        scratch
    }

    /// The line by which the file is refused.
    pub fn refused(&self, number_and_word: &str) -> String {
        format!("{}: refused {number_and_word}\n", self.name())
    }

    pub fn name(&self) -> &str {
        self.0.to_str().expect("the folder of scratch files has a plain name")
    }
}

impl Deref for Scratch {
    type Target = Path;

    fn deref(&self) -> &Path {
        &self.0
    }
}

impl Drop for Scratch {
    fn drop(&mut self) {
        let _ = fs::remove_file(&self.0).or_else(|_| fs::remove_dir_all(&self.0));
    }
}

/// The built command, without a place for a sample disc.
pub fn command() -> Command {
    let mut command = Command::new(env!("CARGO_BIN_EXE_tables"));
    command.env_remove("TABLES_SAMPLE");
    command
}

/// What a run gave.
#[derive(Debug, PartialEq, Eq)]
pub struct Ran {
    pub status: Option<i32>,
    pub out: String,
    pub error: String,
}

impl From<Output> for Ran {
    fn from(output: Output) -> Self {
        let text = |bytes| String::from_utf8(bytes).expect("the command writes UTF-8");
        let (out, error) = (text(output.stdout), text(output.stderr));
        Ran { status: output.status.code(), out, error }
    }
}

pub fn run(arguments: &[&str]) -> Ran {
    command().args(arguments).output().expect("the command runs").into()
}

/// The run of a command that ends with a status and writes these.
pub fn ran(status: i32, out: &str, error: &str) -> Ran {
    Ran { status: Some(status), out: out.to_owned(), error: error.to_owned() }
}

/// What a line of commands shows on a terminal; nothing without the command `script`.
fn script(line: &str) -> Option<Output> {
    Command::new("script").args(["-qec", line, "/dev/null"]).output().ok()
}

/// What the command shows on a terminal. Nothing where there can be none.
pub fn on_terminal(arguments: &str) -> Option<String> {
    script("true").filter(|output| output.status.success())?;
    let line = format!("'{}' {arguments}", command().get_program().display());
    Some(String::from_utf8(script(&line)?.stdout).expect("a terminal gets UTF-8"))
}

/// An image of format 0 in another one, each header in it the one given.
pub fn stored(format: u32, image: &[u8], header: [u8; 6]) -> Vec<u8> {
    let (before, behind) = [(0, 0), (6, 0), (12, 4)][format as usize];
    let mut stored = vec![];
    for sector in image.chunks(SECTOR) {
        stored.extend(header.iter().chain(&[0; 6]).take(before));
        stored.extend(sector);
        stored.resize(stored.len() + behind, 0);
    }
    stored
}
