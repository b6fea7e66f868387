//! Lines on standard output, and how far the work is on standard error.

use std::fmt::Arguments;
use std::fs::File;
use std::io::{self, BufWriter, IsTerminal, Stderr, Stdout, StdoutLock, Write};
use std::os::fd::AsFd;
use std::os::unix::fs::FileTypeExt;
use std::time::{Duration, Instant};

/// The least time between two updates.
pub const PAUSE: Duration = Duration::from_millis(250);
/// Takes the cursor to the line's start and clears the line.
pub const ERASE: &str = "\r\x1b[K";

/// Lines, and a percentage if someone can see it.
pub struct Report<W, E: Write> {
    out: W,
    progress: Option<Progress<E>>,
    /// Whether the lines go to the terminal that shows the percentage.
    shared: bool,
}

/// Lines on standard output, a percentage on standard error.
pub type StandardReport = Report<BufWriter<StdoutLock<'static>>, Stderr>;

impl StandardReport {
    /// Lines on standard output. The percentage is on standard error if that is a terminal, and none
    /// where the lines are piped to another program, which may use the same terminal.
    pub fn to_standard_output() -> Self {
        let out = io::stdout();
        let shared = out.is_terminal();
        let progress = Progress::on_standard_error().filter(|_| !is_piped(&out));
        Report { out: BufWriter::with_capacity(1 << 16, out.lock()), progress, shared }
    }
}

/// Whether standard output goes to another program.
fn is_piped(out: &Stdout) -> bool {
    let kind = out.as_fd().try_clone_to_owned().map(File::from).and_then(|out| out.metadata());
    kind.is_ok_and(|kind| kind.file_type().is_fifo() || kind.file_type().is_socket())
}

impl<W: Write, E: Write> Report<W, E> {
    pub fn line(&mut self, line: Arguments) -> io::Result<()> {
        if let Some(progress) = self.progress.as_mut().filter(|_| self.shared) {
            progress.erase();
        }
        writeln!(self.out, "{line}")
    }

    /// So many parts of all are done. On one terminal the lines come first.
    pub fn done(&mut self, done: usize, all: usize) -> io::Result<()> {
        let progress = self.progress.as_mut();
        if let Some(progress) = progress.filter(|progress| Instant::now() >= progress.next) {
            if self.shared {
                self.out.flush()?;
            }
            progress.show_percentage(done as u64, all as u64);
        }
        Ok(())
    }

    /// Clears the percentage, and writes what is held back.
    pub fn end(mut self) -> io::Result<()> {
        self.progress = None;
        self.out.flush()
    }
}

/// A percentage on a terminal, cleared when it is dropped. No one can be told if writing it fails.
pub struct Progress<E: Write> {
    error: E,
    /// When it may be shown again.
    next: Instant,
    shown: bool,
}

impl Progress<Stderr> {
    /// On standard error, if that is a terminal.
    pub fn on_standard_error() -> Option<Self> {
        let error = io::stderr();
        error.is_terminal().then(|| Progress::new(error, Instant::now() + PAUSE))
    }
}

impl<E: Write> Progress<E> {
    pub(crate) fn new(error: E, next: Instant) -> Self {
        Progress { error, next, shown: false }
    }

    /// So much of all is done; more than all is shown as all, and nothing of nothing as nothing.
    pub fn show_percentage(&mut self, done: u64, all: u64) {
        let percent = (u128::from(done) * 100 / u128::from(all.max(1))).min(100);
        self.show(format_args!("{percent:3} %"));
    }

    /// Shows a text, no shorter than the one before.
    pub fn show(&mut self, text: Arguments) {
        let _ = write!(self.error, "\r{text}").and_then(|()| self.error.flush());
        self.next = Instant::now() + PAUSE;
        self.shown = true;
    }

    fn erase(&mut self) {
        if self.shown {
            let _ = write!(self.error, "{ERASE}").and_then(|()| self.error.flush());
        }
        self.shown = false;
    }
}

impl<E: Write> Drop for Progress<E> {
    fn drop(&mut self) {
        self.erase();
    }
}

/// Writes to standard error in one piece; no one can be told if that fails.
pub fn write_error(text: Arguments) {
    let _ = io::stderr().write_all(text.to_string().as_bytes());
}

#[cfg(test)]
mod tests {
    use super::*;
    use crate::sectors::Sectors;
    use std::cell::RefCell;
    use std::thread::sleep;

    /// A terminal that several write to.
    struct Terminal<'a>(&'a RefCell<String>);

    impl Write for Terminal<'_> {
        fn write(&mut self, bytes: &[u8]) -> io::Result<usize> {
            self.0.borrow_mut().push_str(str::from_utf8(bytes).map_err(io::Error::other)?);
            Ok(bytes.len())
        }

        fn flush(&mut self) -> io::Result<()> {
            Ok(())
        }
    }

    type TerminalReport<'a> = Report<BufWriter<Terminal<'a>>, Terminal<'a>>;

    /// What a report shows whose percentage comes at once, on one terminal or on two.
    fn shown(
        shared: bool,
        tell: impl Fn(&mut TerminalReport) -> io::Result<()>,
    ) -> (String, String) {
        let (lines, errors) = (RefCell::default(), RefCell::default());
        let out = BufWriter::new(Terminal(&lines));
        let error = Terminal(if shared { &lines } else { &errors });
        let progress = Progress::new(error, Instant::now());
        let mut report = Report { out, progress: Some(progress), shared };
        tell(&mut report).and_then(|()| report.end()).expect("a terminal takes it");
        (lines.into_inner(), errors.into_inner())
    }

    fn three_lines(report: &mut TerminalReport) -> io::Result<()> {
        report.line(format_args!("first"))?;
        report.done(1, 3)?;
        // It is too early for this one.
        report.done(2, 3)?;
        report.line(format_args!("second"))?;
        report.line(format_args!("third"))
    }

    /// 9,000 blank headers, in three steps; after each there is time for a percentage.
    fn blank_headers(report: &mut TerminalReport) -> io::Result<()> {
        let image = vec![0; 9000 * 2064];
        let at_step = |_, _| sleep(PAUSE);
        let sectors = Sectors { format: 2, image: &image, at_step: &at_step };
        sectors.audit(report).map(|audited| assert_eq!(audited.map(|all| all.blank), Ok(9000)))
    }

    #[test]
    fn lines_and_the_percentage_on_one_terminal_do_not_mix() {
        let lines = "first\n\r 33 %\r\x1b[Ksecond\nthird\n".to_owned();
        assert_eq!(shown(true, three_lines), (lines, String::new()));
    }

    #[test]
    fn the_percentage_is_cleared_in_the_end() {
        let lines = "first\nsecond\nthird\n".to_owned();
        assert_eq!(shown(false, three_lines), (lines, "\r 33 %\r\x1b[K".to_owned()));
    }

    #[test]
    fn a_run_of_blank_headers_and_the_percentage_do_not_mix() {
        let lines = "0-8999: blank headers\n9000 headers: 0 sound, 9000 blank, 0 unsound\n";
        let percentages = "\r  0 %\r 45 %\r 91 %\r\x1b[K";
        assert_eq!(shown(true, blank_headers), (format!("{percentages}{lines}"), String::new()));
        assert_eq!(shown(false, blank_headers), (lines.to_owned(), percentages.to_owned()));
    }
}
