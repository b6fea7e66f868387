//! The script `./tables`, in a small tree with stand-ins for rt and cargo: when it builds, and what it runs.

mod common;

use common::{Ran, Scratch, ran};
use std::fs;
use std::os::unix::fs::MetadataExt;
use std::path::{Path, PathBuf};
use std::process::Command;

const HERE: &str = env!("CARGO_MANIFEST_DIR");
const NO_RT: &str = "tables: rt, the command of the Rattle kit, is not on the PATH\n";

struct Tree(Scratch);

impl Tree {
    fn new(name: &str) -> Self {
        let tree = Tree(Scratch::absent(name));
        let mut make = Command::new("sh");
        make.arg(Path::new(HERE).join("tests/tree"))
            .arg(Path::new(HERE).join("../.."))
            .arg(&*tree.0);
        assert!(make.status().expect("sh runs").success());
        tree
    }

    /// One that is built.
    fn built(name: &str) -> Self {
        let tree = Tree::new(name);
        assert_eq!(tree.run(&[]).status, Some(0));
        tree.asked();
        tree
    }

    fn path(&self, name: &str) -> PathBuf {
        self.0.join(name)
    }

    fn write(&self, name: &str, text: &str) {
        fs::write(self.path(name), text).expect("a file of the tree is written");
    }

    fn rename(&self, from: &str, to: &str) {
        fs::rename(self.path(from), self.path(to)).expect("a file of the tree is renamed");
    }

    /// A line of commands at the tree's top, with these folders of it on the PATH.
    fn shell(&self, folders: &[&str], line: &str) -> Ran {
        let path: Vec<_> = folders.iter().map(|folder| self.path(folder)).collect();
        let mut shell = Command::new("/bin/sh");
        shell.args(["-c", line]).current_dir(&*self.0);
        shell.env("PATH", std::env::join_paths(path).expect("plain names"));
        shell.output().expect("sh runs").into()
    }

    /// A run of the script.
    fn run(&self, arguments: &[&str]) -> Ran {
        self.shell(&["bin", "plain"], &format!("./tables {}", arguments.join(" ")))
    }

    /// A run of the script where neither rt nor cargo is on the PATH.
    fn run_alone(&self, arguments: &[&str]) -> Ran {
        self.shell(&["plain"], &format!("./tables {}", arguments.join(" ")))
    }

    /// What rt and cargo were asked for since this was asked.
    fn asked(&self) -> Vec<String> {
        let asked = fs::read_to_string(self.path("asked")).unwrap_or_default();
        let _ = fs::remove_file(self.path("asked"));
        asked.lines().map(str::to_owned).collect()
    }

    /// The sources as they are now, as what is built of them prints them.
    fn sources(&self) -> String {
        self.shell(&["plain"], "bin/made library; bin/made command").out
    }

    /// Requires that the command is that of the sources as they are now, and that neither rt nor cargo is needed for it.
    fn check_kept(&self) {
        assert_eq!(self.run_alone(&["IMAGE"]), ran(0, &self.sources(), ""));
        assert_eq!(self.asked(), [""; 0]);
    }

    /// Requires that a change is noticed: that nothing is run without rt and cargo, and then that what is run is new.
    fn check_noticed(&self, change: &str) {
        assert_eq!(self.run_alone(&["IMAGE"]), ran(2, "", NO_RT), "{change}");
        let printed = self.run(&["IMAGE"]);
        assert_eq!((printed.status, printed.out), (Some(0), self.sources()), "{change}");
        assert!(self.asked().contains(&"cargo build".to_owned()), "{change}");
        self.check_kept();
    }

    /// Of each file of the tree its name and what a change of it changes.
    fn files(&self) -> Vec<(PathBuf, u64, i64, i64)> {
        let mut folders = vec![self.0.to_path_buf()];
        let mut files = vec![];
        while let Some(folder) = folders.pop() {
            for entry in fs::read_dir(folder).expect("a folder of the tree") {
                let path = entry.expect("an entry").path();
                let data = fs::symlink_metadata(&path).expect("an entry of the tree");
                if data.is_dir() {
                    folders.push(path.clone());
                }
                files.push((path, data.ino(), data.ctime(), data.ctime_nsec()));
            }
        }
        files
    }
}

#[test]
fn it_is_built_once() {
    let tree = Tree::new("once");
    assert_eq!(tree.run_alone(&[]), ran(2, "", NO_RT));
    let built = tree.run(&["IMAGE"]);
    assert_eq!((built.status, built.out), (Some(0), tree.sources()));
    let asked = tree.asked();
    for word in ["rt verdict", "rt lib", "cargo build"] {
        assert_eq!(asked.iter().filter(|asked| *asked == word).count(), 1, "{asked:?}");
    }
    let files = tree.files();
    assert_eq!(tree.run(&["IMAGE"]), ran(0, &tree.sources(), ""));
    assert_eq!(tree.asked(), [""; 0]);
    tree.check_kept();
    assert_eq!(tree.files(), files, "a run over a built tree writes nothing");
}

#[test]
fn every_change_of_the_sources_is_noticed() {
    let tree = Tree::built("changed");
    for file in [
        "crates/sectors/src/a.rt",
        "crates/scarletbook/proofs/B.antt",
        "host/scarletbook/src/lib.rs",
        "host/tables/src/main.rs",
        "host/tables/help/audit.txt",
    ] {
        tree.write(file, &format!("other of {file}\n"));
        tree.check_noticed(file);
    }
    for script in ["tables", "host/archive", "host/Cargo.toml", "host/Cargo.lock"] {
        tree.shell(&["plain"], &format!("echo '# more' >>{script}"));
        tree.check_noticed(script);
    }
}

#[test]
fn a_change_that_leaves_size_and_time_is_noticed() {
    let tree = Tree::built("times");
    let line = "
        cp -p host/tables/src/main.rs kept && sed 's/first/third/' kept >host/tables/src/main.rs
        touch -r kept host/tables/src/main.rs";
    assert_eq!(tree.shell(&["plain", "bin"], line).status, Some(0));
    tree.check_noticed("another text");
    // Older than what was built of the text between.
    tree.rename("kept", "host/tables/src/main.rs");
    tree.check_noticed("the first text, with its time");
}

#[test]
fn files_that_come_go_and_move_are_noticed() {
    let tree = Tree::built("moved");
    tree.write("crates/sectors/src/d.rt", "a file more\n");
    tree.check_noticed("a file more");
    tree.rename("crates/sectors/src/d.rt", "crates/sectors/src/e.rt");
    tree.check_noticed("another name");
    fs::create_dir(tree.path("crates/sectors/specs")).expect("a folder is made");
    tree.rename("crates/sectors/src/e.rt", "crates/sectors/specs/e.rt");
    tree.check_noticed("a folder more");
    tree.rename("crates/sectors/specs", "crates/sectors/proofs");
    tree.check_noticed("a folder with another name");
    fs::remove_dir_all(tree.path("crates/sectors/proofs")).expect("a folder is removed");
    tree.check_noticed("a folder less");
    tree.write("crates.txt", "sectors:\nvectors: sectors\nscarletbook staticlib: vectors\n");
    tree.check_noticed("a crate more");
    tree.write("crates/vectors/src/c.rt", "other\n");
    tree.check_noticed("a file of it");
}

#[test]
fn another_rt_and_another_command_are_noticed() {
    let tree = Tree::built("rt");
    tree.rename("rt.other", "bin/rt");
    let proved = tree.run(&["IMAGE"]);
    assert_eq!((proved.status, proved.out), (Some(0), tree.sources()));
    assert!(tree.asked().contains(&"rt verdict".to_owned()));
    tree.check_kept();
    tree.write("host/target/command/release/tables", "#!/bin/sh\necho something else\n");
    tree.check_noticed("another command");
}

#[test]
fn what_is_not_built_into_it_is_no_change() {
    let tree = Tree::built("apart");
    tree.write("crates/sectors/must-fail/a.edit", "other\n");
    tree.write("crates/vectors/src/c.rt", "other\n");
    tree.write("host/tables/tests/t.rs", "other\n");
    tree.check_kept();
    let touched = tree.shell(&["plain"], "touch crates.txt tables host/tables/src/main.rs bin/rt");
    assert_eq!(touched.status, Some(0));
    tree.check_kept();
    assert_eq!(tree.run(&["IMAGE"]).status, Some(0));
    assert_eq!(tree.asked(), ["rt version"]);
    assert_eq!(tree.run(&["IMAGE"]).status, Some(0));
    tree.check_kept();
}

#[test]
fn a_copy_of_a_built_tree_is_built() {
    let tree = Tree::built("copied");
    let copy = Tree(Scratch::absent("copy"));
    let line = format!("cp -R . '{}'", copy.0.name());
    assert_eq!(tree.shell(&["plain"], &line).status, Some(0));
    copy.check_kept();
    let files = copy.files();
    copy.check_kept();
    assert_eq!(copy.files(), files, "its second run writes nothing");
    copy.write("crates/sectors/src/a.rt", "other\n");
    copy.check_noticed("a change of the copy");
}

/// Requires that a run ends with an error and prints nothing.
fn check_stopped(tree: &Tree, error: &str) {
    let stopped = tree.run(&["IMAGE"]);
    assert_eq!((stopped.status, &*stopped.out), (Some(2), ""));
    assert!(stopped.error.ends_with(&format!("tables: {error}\n")), "{}", stopped.error);
}

#[test]
fn sources_that_change_while_it_is_built_are_noticed() {
    let tree = Tree::new("meanwhile");
    let changed = "the sources changed while the command was built: run it again";
    for (moment, file, error) in [
        ("at-build", "crates/scarletbook/src/b.rt", changed),
        ("at-build", "host/tables/src/main.rs", changed),
        ("at-verdict", "crates/sectors/src/a.rt", "the library could not be built"),
    ] {
        // The second time the text is again what it was.
        for after in ["after", "before"] {
            tree.write(file, "before\n");
            let change = format!("echo during >{file}; echo {after} >{file}");
            tree.write(moment, &format!("{change}; rm {moment}"));
            check_stopped(&tree, error);
            assert!(!tree.path(moment).exists());
            tree.check_noticed(file);
        }
    }
}

#[test]
fn a_library_whose_sources_changed_before_the_command_is_built_is_proved_again() {
    let tree = Tree::new("between");
    let change = "echo during >crates/sectors/src/a.rt; rm at-find";
    let is_built = "[ -e host/target/archive/sum ]";
    tree.write("at-find", &format!("if {is_built}; then {change}; fi"));
    let printed = tree.run(&["IMAGE"]);
    assert!(!tree.path("at-find").exists());
    assert_eq!((printed.status, printed.out), (Some(0), tree.sources()));
}

#[test]
fn what_cannot_be_built_is_not_run() {
    let tree = Tree::built("unbuilt");
    let fails = |error| check_stopped(&tree, error);
    tree.write("host/tables/src/main.rs", "other\n");
    tree.write("at-build", "exit 1");
    fails("the command could not be built");
    fails("the command could not be built");
    tree.write("at-build", "");
    tree.write("crates/sectors/src/a.rt", "other\n");
    tree.write("unproved", "");
    fails("the library could not be built");
    fails("the library could not be built");
    fs::remove_file(tree.path("unproved")).expect("it was written");
    fs::rename(tree.path("bin/cargo"), tree.path("cargo")).expect("it is there");
    fails("cargo is not on the PATH");
    tree.rename("cargo", "bin/cargo");
    tree.check_noticed("all of that");
}

#[test]
fn two_runs_at_once_build_it_once() {
    let tree = Tree::new("twice");
    if !tree.path("plain/flock").exists() {
        eprintln!("left out, for want of the command flock");
        return;
    }
    tree.write("at-build", "sleep 0.3");
    let both = tree.shell(&["bin", "plain"], "./tables a >first & ./tables b >second; wait");
    assert_eq!(both.status, Some(0));
    for printed in ["first", "second"] {
        let printed = fs::read_to_string(tree.path(printed)).expect("it was written");
        assert_eq!(printed, tree.sources());
    }
    assert_eq!(tree.asked().iter().filter(|asked| *asked == "cargo build").count(), 1);
}

#[test]
fn help_needs_no_build() {
    let tree = Tree::new("help");
    let help = |name: &str| fs::read_to_string(tree.path("host/tables/help").join(name));
    for (name, lines) in [
        ("tables.txt", &["--help", "-h", "IMAGE --help", "--what -h", "./audit --help"][..]),
        ("audit.txt", &["audit --help", "audit IMAGE -h", "audit --what --help --version"]),
        ("fingerprints.txt", &["fingerprints --help", "fingerprints a b --help"]),
        ("gather.txt", &["gather --help", "gather a b -h"]),
        ("scatter.txt", &["scatter --help", "scatter a --help"]),
    ] {
        let help = help(name).expect("it is there");
        for line in lines {
            assert_eq!(tree.run_alone(&[line]), ran(0, &help, ""), "{line}");
        }
    }
    assert_eq!(tree.run_alone(&["-- --help"]), ran(2, "", NO_RT));
    assert_eq!(tree.asked(), [""; 0]);
}

#[test]
fn the_version_needs_no_build() {
    let tree = Tree::new("version");
    let version = |rest: &str| {
        let line = format!("tables {}, commit {rest}\n", env!("CARGO_PKG_VERSION"));
        for arguments in ["--version", "audit a --version"] {
            assert_eq!(tree.run_alone(&[arguments]), ran(0, &line, ""));
        }
    };
    version("unknown: this tree has no .git");
    if !tree.path("plain/git").exists() {
        eprintln!("the commit is left out, for want of git");
        return;
    }
    let commit = "
        git init -q && git add tables && echo '*' >.git/info/exclude
        git -c user.name=a -c user.email=b commit -qm first && git rev-parse HEAD";
    let commit = tree.shell(&["plain"], commit).out;
    let commit = commit.trim_end();
    assert_eq!(commit.len(), 40);
    version(commit);
    tree.shell(&["plain"], "echo '# more' >>tables");
    version(&format!("{commit} and changes since"));
    tree.rename("plain/git", "git");
    version("unknown: git does not tell it");
    assert_eq!(tree.asked(), [""; 0]);
}

#[test]
fn a_closed_output_is_said() {
    let tree = Tree::built("closed");
    let closed = tree.shell(&["plain"], "./tables IMAGE >&-");
    assert_eq!(closed, ran(2, "", "tables: standard output is closed\n"));
}

#[test]
fn it_is_found_by_a_link_and_from_elsewhere() {
    let tree = Tree::built("link");
    let line =
        "mkdir -p some/where; cd some/where; ln -s ../../tables link; ./link a; ../../tables a";
    let twice = tree.sources().repeat(2);
    assert_eq!(tree.shell(&["plain"], line), ran(0, &twice, ""));
}
