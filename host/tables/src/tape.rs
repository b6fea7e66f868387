//! A new file for the tape store, made of an image by one call of the library.

use crate::map::{Map, MapMut, free_space};
use crate::report::{PAUSE, Progress};
use crate::signals;
use scarletbook::Refusal;
use std::ffi::CString;
use std::fs::File;
use std::io::{self, Write};
use std::os::unix::ffi::OsStrExt;
use std::os::unix::fs::MetadataExt;
use std::path::Path;
use std::sync::mpsc::{Receiver, RecvTimeoutError, Sender, channel};
use std::thread::{self, Scope};

/// Fills a buffer from another one of the same length.
pub type Call = fn(&[u8], &mut [u8]) -> Result<(), Refusal>;

/// The bytes of the blocks in which a file's space on the disk is counted.
const BLOCK: u64 = 512;

/// Makes the file `out`, where nothing may stand, of what the call gives for an image; then all of it
/// is on the disk. `fault` is the line for a byte of it that cannot be written. Whatever goes wrong, and
/// if a signal ends the program, there is no such file.
pub fn write(image: &Map, out: &Path, call: Call, fault: String) -> io::Result<()> {
    let len = image.bytes().len();
    let folder = folder(out);
    check_space(folder, len as u64)?;
    image.in_order();
    let held = signals::hold();
    let new = NewFile::make(out)?;
    thread::scope(|scope| {
        let watch = Watch::start(scope, &new.file, len as u64);
        drop(held);
        new.fill(image.bytes(), call, fault)?;
        watch.at_flush();
        new.file.sync_all()
    })?;
    flush_names(folder);
    new.keep();
    Ok(())
}

/// The folder of a file.
fn folder(file: &Path) -> &Path {
    match file.parent() {
        Some(folder) if folder.as_os_str().is_empty() => Path::new("."),
        Some(folder) => folder,
        None => file,
    }
}

/// Flushes the names in a folder, which a file's flush need not do. One that cannot be opened for this,
/// and a file system that has no such flush, are left to themselves.
fn flush_names(folder: &Path) {
    let _ = File::open(folder).and_then(|folder| folder.sync_all());
}

/// What is wrong if the folder's file system has too little space for a file.
fn check_space(folder: &Path, needed: u64) -> io::Result<()> {
    let free = free_space(folder)?;
    if free < needed {
        let why = format!("too little space: {needed} bytes are needed, {free} are free");
        return Err(io::Error::other(why));
    }
    Ok(())
}

/// A new file, removed unless it is kept: when this is dropped, by a fault, and by a signal that ends
/// the program.
struct NewFile {
    file: File,
}

impl NewFile {
    /// Makes an empty file where nothing stands, not even a link. Signals must be held meanwhile: one
    /// that came between would leave the file, or remove another's.
    fn make(path: &Path) -> io::Result<Self> {
        let name = CString::new(path.as_os_str().as_bytes())?;
        let file = File::options().read(true).write(true).create_new(true).open(path)?;
        signals::remove_at_end(name);
        Ok(NewFile { file })
    }

    /// Gives it an image's length and what the call gives for that. An empty one is not mapped.
    fn fill(&self, image: &[u8], call: Call, fault: String) -> io::Result<()> {
        self.file.set_len(image.len() as u64)?;
        let mut map = MapMut::of_file(&self.file, image.len())?;
        signals::report_write_faults(map.addresses(), fault);
        call(image, map.bytes()).map_err(io::Error::other)
    }

    fn keep(self) {
        signals::keep_finished();
    }
}

impl Drop for NewFile {
    fn drop(&mut self) {
        signals::remove_unfinished();
    }
}

/// Shows on a terminal how far a file is, until it is dropped.
struct Watch(Sender<()>);

impl Watch {
    /// Starts a thread for it; none where nobody would see it, or there can be none.
    fn start<'a>(scope: &'a Scope<'a, '_>, file: &'a File, len: u64) -> Self {
        let (sender, flushed) = channel();
        if let Some(progress) = Progress::on_standard_error() {
            let written = || file.metadata().map_or(0, |data| data.blocks() * BLOCK);
            let show = move || show(progress, flushed, written, len);
            // The file is written all the same.
            let _ = thread::Builder::new().spawn_scoped(scope, show);
        }
        Watch(sender)
    }

    /// All is written, and must only come to the disk.
    fn at_flush(&self) {
        // Nobody may be watching.
        let _ = self.0.send(());
    }
}

/// Shows how much is written of all, and then that it is flushed, until the other side is dropped.
fn show(
    mut progress: Progress<impl Write>,
    flushed: Receiver<()>,
    written: impl Fn() -> u64,
    len: u64,
) {
    let mut flushes = false;
    loop {
        match flushed.recv_timeout(PAUSE) {
            Ok(()) => flushes = true,
            Err(RecvTimeoutError::Timeout) if flushes => {
                progress.show(format_args!("100 %, flushing to the disk"));
            }
            Err(RecvTimeoutError::Timeout) => progress.show_percentage(written(), len),
            Err(RecvTimeoutError::Disconnected) => return,
        }
    }
}

#[cfg(test)]
mod tests {
    use super::*;
    use crate::report::ERASE;
    use std::cell::{Cell, RefCell};
    use std::time::Instant;

    /// A terminal that goes on with the work by what it shows: at half of it flushing begins, and the
    /// work ends when that is shown.
    struct Terminal<'a> {
        shown: &'a RefCell<String>,
        watch: Option<Watch>,
    }

    impl Write for Terminal<'_> {
        fn write(&mut self, bytes: &[u8]) -> io::Result<usize> {
            let text = str::from_utf8(bytes).map_err(io::Error::other)?;
            self.shown.borrow_mut().push_str(text);
            Ok(bytes.len())
        }

        fn flush(&mut self) -> io::Result<()> {
            let shown = self.shown.borrow();
            match &self.watch {
                Some(watch) if shown.ends_with(" 50 %") => watch.at_flush(),
                Some(_) if shown.ends_with("flushing to the disk") => self.watch = None,
                _ => {}
            }
            Ok(())
        }
    }

    #[test]
    fn how_far_a_file_is_and_its_flush_are_shown_and_cleared() {
        let (shown, asked) = (RefCell::default(), Cell::new(0));
        let (sender, flushed) = channel();
        let terminal = Terminal { shown: &shown, watch: Some(Watch(sender)) };
        let written = || asked.replace(asked.get() + 1024);
        show(Progress::new(terminal, Instant::now()), flushed, written, 2048);
        let percentages = "\r  0 %\r 50 %\r100 %, flushing to the disk";
        assert_eq!(shown.into_inner(), format!("{percentages}{ERASE}"));
    }

    #[test]
    fn a_percentage_is_at_most_all() {
        let mut shown = vec![];
        let mut progress = Progress::new(&mut shown, Instant::now());
        for (done, all) in [(0, 0), (0, 3), (2, 3), (3, 3), (4, 3), (u64::MAX, 1)] {
            progress.show_percentage(done, all);
        }
        drop(progress);
        let percentages = "\r  0 %\r  0 %\r 66 %\r100 %\r100 %\r100 %";
        assert_eq!(String::from_utf8(shown), Ok(format!("{percentages}{ERASE}")));
    }
}
