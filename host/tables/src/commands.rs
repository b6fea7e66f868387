//! The commands by their words. A new one is an entry here, a file `help/WORD.txt`, which `./tables`
//! prints too, and a line in `help/tables.txt`.

/// What is done with an image.
#[derive(Clone, Copy, Debug, PartialEq, Eq)]
pub enum Task {
    List(Form),
    Audit,
    Fingerprints,
    Gather,
    Scatter,
}

/// How a disc is presented.
#[derive(Clone, Copy, Debug, PartialEq, Eq)]
pub enum Form {
    Listing,
    Dump,
    Json,
}

/// What the first argument may name.
#[derive(Debug, PartialEq, Eq)]
pub struct Command {
    pub word: &'static str,
    pub task: Task,
    /// The options that it takes, but for `--help`.
    pub options: &'static [&'static str],
    /// The files that it takes, by their names in the help. If there is one, the sample disc can stand
    /// in for it; of two, both must be given.
    pub files: &'static [&'static str],
    /// How it is used, a blank line, and more about it.
    pub help: &'static str,
}

/// What is done without a word.
pub const LISTING: Command = Command {
    word: "tables",
    task: Task::List(Form::Listing),
    options: &["--dump", "--json", "--format", "--mapping"],
    files: &["IMAGE"],
    help: include_str!("../help/tables.txt"),
};

pub const COMMANDS: [Command; 4] = [
    Command {
        word: "audit",
        task: Task::Audit,
        options: &["--format"],
        files: &["IMAGE"],
        help: include_str!("../help/audit.txt"),
    },
    Command {
        word: "fingerprints",
        task: Task::Fingerprints,
        options: &["--format"],
        files: &["IMAGE"],
        help: include_str!("../help/fingerprints.txt"),
    },
    Command {
        word: "gather",
        task: Task::Gather,
        options: &[],
        files: &["IMAGE", "OUT"],
        help: include_str!("../help/gather.txt"),
    },
    Command {
        word: "scatter",
        task: Task::Scatter,
        options: &[],
        files: &["GATHERED", "OUT"],
        help: include_str!("../help/scatter.txt"),
    },
];

impl Command {
    pub fn of_word(word: &str) -> Option<&'static Command> {
        COMMANDS.iter().find(|command| command.word == word)
    }

    /// The lines that say how it is used.
    pub fn usage(&self) -> &'static str {
        self.help.split("\n\n").next().unwrap_or_default()
    }
}
