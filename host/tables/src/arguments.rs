//! The arguments of the command.

use crate::commands::{Command, Form, LISTING, Task};
use std::ffi::{OsStr, OsString};
use std::os::unix::ffi::OsStrExt;
use std::path::PathBuf;

const NEEDS_MAPPING: &str = "--mapping needs SET=FILE, SET 3, 4, 5 or 6";

/// What is asked for.
#[derive(Debug, PartialEq, Eq)]
pub enum Request {
    Help(&'static Command),
    Version,
    Run(Arguments),
}

#[derive(Debug, PartialEq, Eq)]
pub struct Arguments {
    pub command: &'static Command,
    pub task: Task,
    /// Any number; the library refuses foreign ones.
    pub format: Option<u32>,
    /// Sets, 3 to 6, and the files with their mappings; no set twice.
    pub mappings: Vec<(u8, PathBuf)>,
    /// Those that the command takes; none if the sample disc is to stand in.
    pub files: Vec<PathBuf>,
}

/// What is wrong with the arguments, and of which command.
#[derive(Debug, PartialEq, Eq)]
pub struct Wrong {
    pub why: String,
    pub command: &'static Command,
}

impl Request {
    /// What the arguments behind the program's name ask for. The first may be a command's word;
    /// `--help` and `--version` stand anywhere before `--`, whatever else is there.
    pub fn parse(arguments: impl IntoIterator<Item = OsString>) -> Result<Self, Wrong> {
        let mut rest: Vec<OsString> = arguments.into_iter().collect();
        let word = rest.first().and_then(|first| first.to_str());
        let command = word.and_then(Command::of_word);
        if command.is_some() {
            rest.remove(0);
        }
        let command = command.unwrap_or(&LISTING);
        for argument in rest.iter().take_while(|argument| *argument != "--") {
            match argument.to_str() {
                Some("--help" | "-h") => return Ok(Request::Help(command)),
                Some("--version") => return Ok(Request::Version),
                _ => {}
            }
        }
        let parsed = Arguments::parse(command, rest);
        parsed.map(Request::Run).map_err(|why| Wrong { why, command })
    }
}

impl Arguments {
    /// The arguments of a command, or what is wrong with them.
    fn parse(command: &'static Command, arguments: Vec<OsString>) -> Result<Self, String> {
        let task = command.task;
        let mut parsed = Arguments { command, task, format: None, mappings: vec![], files: vec![] };
        let mut rest = arguments.into_iter();
        let mut options = true;
        while let Some(argument) = rest.next() {
            match argument.to_str() {
                Some("--") if options => options = false,
                Some(option) if options && option.starts_with('-') => {
                    parsed.set_option(option, &mut rest)?;
                }
                Some(word) if options && Command::of_word(word).is_some() => {
                    return Err(format!("{word} is a command, and stands first; a file: ./{word}"));
                }
                _ => parsed.add_file(argument)?,
            }
        }
        parsed.check_files()?;
        Ok(parsed)
    }

    /// Sets an option; its value stands behind `=`, or comes next.
    fn set_option(
        &mut self,
        option: &str,
        rest: &mut impl Iterator<Item = OsString>,
    ) -> Result<(), String> {
        let (name, value) = match option.split_once('=') {
            Some((name @ ("--format" | "--mapping"), value)) => (name, Some(value.into())),
            _ => (option, None),
        };
        check_option(self.command, name)?;
        let value = || value.or_else(|| rest.next());
        match name {
            "--dump" => self.set_form(Form::Dump),
            "--json" => self.set_form(Form::Json),
            "--format" => {
                let number = value().ok_or("--format needs 0, 1 or 2")?;
                self.set_format(&number.to_string_lossy())
            }
            "--mapping" => self.add_mapping(&value().ok_or(NEEDS_MAPPING)?),
            _ => unreachable!("every option of a command is set here"),
        }
    }

    fn set_form(&mut self, form: Form) -> Result<(), String> {
        if self.task != self.command.task {
            return Err("only one of --dump and --json".to_owned());
        }
        self.task = Task::List(form);
        Ok(())
    }

    fn set_format(&mut self, number: &str) -> Result<(), String> {
        let parsed =
            number.parse().map_err(|_| format!("--format needs 0, 1 or 2, not {number}"))?;
        match self.format.replace(parsed) {
            None => Ok(()),
            Some(_) => Err("only one --format".to_owned()),
        }
    }

    fn add_mapping(&mut self, argument: &OsStr) -> Result<(), String> {
        let (set, file) = match argument.as_bytes() {
            [set @ b'3'..=b'6', b'=', file @ ..] if !file.is_empty() => (set - b'0', file),
            _ => return Err(format!("{NEEDS_MAPPING}, not {}", argument.display())),
        };
        if self.mappings.iter().any(|(other, _)| *other == set) {
            return Err(format!("only one --mapping of set {set}"));
        }
        self.mappings.push((set, OsStr::from_bytes(file).into()));
        Ok(())
    }

    fn add_file(&mut self, file: OsString) -> Result<(), String> {
        let names = self.command.files;
        match &self.files[..] {
            files if files.len() < names.len() => {
                self.files.push(file.into());
                Ok(())
            }
            [first] => {
                Err(format!("only one image, not {} and {}", first.display(), file.display()))
            }
            _ => Err(format!("only {}, not {} too", names.join(" and "), file.display())),
        }
    }

    /// What is wrong if one of two files is missing, or both are.
    fn check_files(&self) -> Result<(), String> {
        let missing = &self.command.files[self.files.len()..];
        if self.command.files.len() < 2 || missing.is_empty() {
            return Ok(());
        }
        let missing: Vec<_> = missing.iter().map(|name| format!("no {name}")).collect();
        Err(missing.join(" and "))
    }
}

/// What is wrong if the command does not take the option.
fn check_option(command: &Command, option: &str) -> Result<(), String> {
    if command.options.contains(&option) {
        return Ok(());
    }
    let wrong = format!("{} has no option {option}", command.word);
    match option.strip_prefix("--").and_then(Command::of_word) {
        Some(named) => Err(format!("{wrong}; the command is: tables {}", named.word)),
        None => Err(wrong),
    }
}

#[cfg(test)]
mod tests {
    use super::*;
    use crate::commands::COMMANDS;

    const LISTED: Task = Task::List(Form::Listing);

    fn parse(line: &str) -> Result<Request, Wrong> {
        Request::parse(line.split_whitespace().map(OsString::from))
    }

    /// A run over files, with blanks between their names.
    fn run(task: Task, format: Option<u32>, files: &str) -> Result<Request, Wrong> {
        let command = COMMANDS.iter().find(|command| command.task == task).unwrap_or(&LISTING);
        let files = files.split_whitespace().map(PathBuf::from).collect();
        Ok(Request::Run(Arguments { command, task, format, mappings: vec![], files }))
    }

    /// A listing of an image by mappings.
    fn listed_by(mappings: &[(u8, &str)]) -> Result<Request, Wrong> {
        let mappings = mappings.iter().map(|(set, file)| (*set, file.into())).collect();
        let (command, files) = (&LISTING, vec!["a".into()]);
        Ok(Request::Run(Arguments { command, task: LISTED, format: None, mappings, files }))
    }

    #[test]
    fn options_stand_before_or_behind_the_image() {
        assert_eq!(parse(""), run(LISTED, None, ""));
        assert_eq!(parse("a.iso"), run(LISTED, None, "a.iso"));
        assert_eq!(parse("--dump --format 2 a"), run(Task::List(Form::Dump), Some(2), "a"));
        assert_eq!(
            parse("a --format=4294967295 --json"),
            run(Task::List(Form::Json), Some(u32::MAX), "a")
        );
        assert_eq!(parse("-- --dump"), run(LISTED, None, "--dump"));
    }

    #[test]
    fn a_mapping_for_each_set() {
        assert_eq!(parse("--mapping 3=b a"), listed_by(&[(3, "b")]));
        assert_eq!(parse("a --mapping=6=b=c"), listed_by(&[(6, "b=c")]));
        let four = [(4, "b"), (3, "b"), (6, "-c"), (5, "audit")];
        let line = "--mapping 4=b --mapping 3=b a --mapping=6=-c --mapping 5=audit";
        assert_eq!(parse(line), listed_by(&four));
        // A file's name is any bytes.
        let name = OsStr::from_bytes(b"\xff");
        let words = [OsStr::new("--mapping"), OsStr::from_bytes(b"3=\xff"), OsStr::new("a")];
        let parsed = Request::parse(words.map(OsString::from));
        let named = |arguments: &Arguments| arguments.mappings == [(3, PathBuf::from(name))];
        assert!(matches!(parsed, Ok(Request::Run(arguments)) if named(&arguments)));
    }

    #[test]
    fn a_command_stands_first() {
        assert_eq!(parse("audit a --format 1"), run(Task::Audit, Some(1), "a"));
        assert_eq!(parse("fingerprints --format=2 a"), run(Task::Fingerprints, Some(2), "a"));
        assert_eq!(parse("audit"), run(Task::Audit, None, ""));
        for image in ["./audit", "audit.iso", "audi", "Audit"] {
            assert_eq!(parse(image), run(LISTED, None, image));
            assert_eq!(parse(&format!("audit {image}")), run(Task::Audit, None, image));
        }
        assert_eq!(parse("-- audit"), run(LISTED, None, "audit"));
        assert_eq!(parse("audit -- audit"), run(Task::Audit, None, "audit"));
    }

    #[test]
    fn a_command_of_two_files_has_both() {
        assert_eq!(parse("gather a b"), run(Task::Gather, None, "a b"));
        assert_eq!(parse("scatter b a"), run(Task::Scatter, None, "b a"));
        assert_eq!(parse("gather ./gather a"), run(Task::Gather, None, "./gather a"));
        assert_eq!(parse("gather -- -a gather"), run(Task::Gather, None, "-a gather"));
        assert_eq!(parse("scatter a -- --help"), run(Task::Scatter, None, "a --help"));
        for (command, names) in [(&COMMANDS[2], "IMAGE"), (&COMMANDS[3], "GATHERED")] {
            let word = command.word;
            let wrong = |line: &str, why: String| {
                check_wrong(command, &[(&format!("{word} {line}"), &why)]);
            };
            wrong("", format!("no {names} and no OUT"));
            wrong("--", format!("no {names} and no OUT"));
            wrong("a", "no OUT".to_owned());
            wrong("a b c", format!("only {names} and OUT, not c too"));
            wrong("a b -- -c d", format!("only {names} and OUT, not -c too"));
            wrong("--format 2 a b", format!("{word} has no option --format"));
            wrong("a b --force", format!("{word} has no option --force"));
            wrong("a -", format!("{word} has no option -"));
            wrong("a scatter", "scatter is a command, and stands first; a file: ./scatter".into());
        }
    }

    #[test]
    fn every_option_of_a_command_is_taken() {
        for command in COMMANDS.iter().chain([&LISTING]) {
            let word = if command == &LISTING { "" } else { command.word };
            for option in command.options {
                let value = if *option == "--mapping" { "3=b" } else { "0" };
                let parsed = parse(&format!("{word} {option} {value}"));
                assert!(matches!(parsed, Ok(Request::Run(_))), "{word} {option}");
            }
        }
    }

    #[test]
    fn help_and_the_version_stand_anywhere_before_the_dashes() {
        for line in ["--help", "-h", "--what --help", "a b --help", "--format --help --version"] {
            assert_eq!(parse(line), Ok(Request::Help(&LISTING)), "{line}");
        }
        for command in &COMMANDS {
            for line in ["--help", "a --help", "--dump -h"] {
                let line = format!("{} {line}", command.word);
                assert_eq!(parse(&line), Ok(Request::Help(command)), "{line}");
            }
        }
        assert_eq!(parse("--version"), Ok(Request::Version));
        assert_eq!(parse("audit --version --help"), Ok(Request::Version));
        assert_eq!(parse("-- --help"), run(LISTED, None, "--help"));
    }

    fn check_wrong(command: &'static Command, lines: &[(&str, &str)]) {
        for (line, why) in lines {
            assert_eq!(parse(line), Err(Wrong { why: (*why).to_owned(), command }), "{line}");
        }
    }

    #[test]
    fn what_is_wrong_is_said() {
        check_wrong(
            &LISTING,
            &[
                ("--what", "tables has no option --what"),
                ("-d a", "tables has no option -d"),
                ("--dump=a", "tables has no option --dump=a"),
                ("--dump --json a", "only one of --dump and --json"),
                ("a b", "only one image, not a and b"),
                ("a -- b", "only one image, not a and b"),
                ("fingerprint a", "only one image, not fingerprint and a"),
                ("--format", "--format needs 0, 1 or 2"),
                ("--format x a", "--format needs 0, 1 or 2, not x"),
                ("--format=-1 a", "--format needs 0, 1 or 2, not -1"),
                ("--format 4294967296 a", "--format needs 0, 1 or 2, not 4294967296"),
                ("--format 0 --format 0 a", "only one --format"),
                ("a audit", "audit is a command, and stands first; a file: ./audit"),
                ("--format 2 audit", "audit is a command, and stands first; a file: ./audit"),
            ],
        );
        check_wrong(
            &COMMANDS[0],
            &[
                ("audit --dump a", "audit has no option --dump"),
                ("audit --mapping 3=b a", "audit has no option --mapping"),
                ("audit a b", "only one image, not a and b"),
                ("audit audit", "audit is a command, and stands first; a file: ./audit"),
                (
                    "audit --fingerprints a",
                    "audit has no option --fingerprints; the command is: tables fingerprints",
                ),
            ],
        );
    }

    #[test]
    fn what_is_wrong_with_a_mapping_is_said() {
        let needs = "--mapping needs SET=FILE, SET 3, 4, 5 or 6";
        check_wrong(&LISTING, &[("a --mapping", needs)]);
        for wrong in ["a", "3", "3=", "=b", "2=b", "7=b", "33=b", "x=b"] {
            let why = format!("{needs}, not {wrong}");
            check_wrong(&LISTING, &[(&format!("--mapping {wrong} a"), &why)]);
            check_wrong(&LISTING, &[(&format!("a --mapping={wrong}"), &why)]);
        }
        check_wrong(&LISTING, &[("--mapping= a", &format!("{needs}, not "))]);
        check_wrong(&LISTING, &[("--mapping 3=b a --mapping=3=c", "only one --mapping of set 3")]);
    }

    #[test]
    fn the_options_that_became_commands_name_them() {
        for command in &COMMANDS {
            let word = command.word;
            let why = format!("tables has no option --{word}; the command is: tables {word}");
            check_wrong(
                &LISTING,
                &[(&format!("--{word} a"), &why), (&format!("a --{word}"), &why)],
            );
        }
    }
}
