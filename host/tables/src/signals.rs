//! What signals do to the program. A mapped byte that cannot be read or written (SIGBUS) ends it with a
//! line; and a new file that is not finished is removed first, there and when a signal ends the program.
//! The handlers make only calls that a handler may make.

use std::ffi::{CStr, CString, c_char, c_int, c_void};
use std::ops::Range;
use std::ptr;
use std::sync::OnceLock;
use std::sync::atomic::{AtomicPtr, Ordering};

const SIGBUS: c_int = 7;
const SIGXFSZ: c_int = 25;
/// Signals from outside that end a program which does nothing about them: HUP, INT, QUIT, ABRT, USR1,
/// USR2, ALRM, TERM, XCPU, VTALRM, PROF, IO and PWR.
const DEADLY: [c_int; 13] = [1, 2, 3, 6, 10, 12, 14, 15, 24, 26, 27, 29, 30];
/// In place of a handler: what the system does by itself, and nothing.
const DEFAULT: *const c_void = ptr::null();
const IGNORED: *const c_void = ptr::without_provenance(1);
/// The handler is told more than the signal's number.
const SA_SIGINFO: c_int = 4;
const SIG_BLOCK: c_int = 0;
const SIG_SETMASK: c_int = 2;
const STANDARD_ERROR: c_int = 2;
/// The exit status of an I/O error.
const IO_ERROR: c_int = 2;

/// A set of signals: number n is bit n - 1.
type Signals = [u64; 16];

/// What is done at a signal.
#[repr(C)]
struct Action {
    handler: *const c_void,
    held: Signals,
    flags: c_int,
    restorer: *const c_void,
}

/// What the handler of a fault is told.
#[repr(C)]
struct Fault {
    number: c_int,
    error: c_int,
    code: c_int,
    /// Of the byte that could not be read or written.
    address: usize,
}

/// What is asked of a file, a struct stat: which one it is.
#[repr(C)]
#[derive(Default)]
struct Status {
    device: u64,
    inode: u64,
    others: [u64; 16],
}

/// A file that is not finished.
struct Unfinished {
    path: CString,
    /// Which one stood there when it was made.
    which: [u64; 2],
}

unsafe extern "C" {
    fn sigaction(number: c_int, action: *const Action, before: *mut Action) -> c_int;
    fn pthread_sigmask(how: c_int, set: *const Signals, before: *mut Signals) -> c_int;
    fn write(file: c_int, bytes: *const u8, len: usize) -> isize;
    fn lstat(path: *const c_char, answer: *mut Status) -> c_int;
    fn unlink(path: *const c_char) -> c_int;
    safe fn raise(number: c_int) -> c_int;
    safe fn _exit(status: c_int) -> !;
}

/// What is written when a mapped byte cannot be read.
static UNREADABLE: OnceLock<String> = OnceLock::new();
/// The addresses of a mapped file that is written, and what is written when one of them cannot be.
static UNWRITABLE: OnceLock<(Range<usize>, String)> = OnceLock::new();
/// The file that is not finished; null for none. It is never dropped.
static UNFINISHED: AtomicPtr<Unfinished> = AtomicPtr::new(ptr::null_mut());

/// From now on a mapped byte that cannot be read, for a read error or because the file was made
/// shorter, ends the program with this line on standard error and exit status 2.
pub fn report_faults(line: String) {
    UNREADABLE.get_or_init(|| line);
    set_action(SIGBUS, on_fault as *const c_void, SA_SIGINFO);
}

/// The same for bytes that are written, with a line of their own.
pub fn report_write_faults(addresses: Range<usize>, line: String) {
    UNWRITABLE.get_or_init(|| (addresses, line));
}

/// From now on a signal that ends the program, and a fault, first remove the file of this path, until
/// [`remove_unfinished`] or [`keep_finished`]. Signals that are ignored, as by nohup, stay so.
pub fn remove_at_end(path: CString) {
    let which = which(&path);
    UNFINISHED.store(Box::into_raw(Box::new(Unfinished { path, which })), Ordering::SeqCst);
    for number in DEADLY {
        if action(number).handler != IGNORED {
            set_action(number, on_death as *const c_void, 0);
        }
    }
    // A file longer than the limit of this user is an error of the call that makes it so.
    set_action(SIGXFSZ, IGNORED, 0);
}

/// Removes the file that is not finished, if there is one, and once. What came to its path since is
/// another's, and stays.
pub fn remove_unfinished() {
    let _held = hold();
    let unfinished = UNFINISHED.swap(ptr::null_mut(), Ordering::SeqCst);
    // SAFETY: it is null, or one that is never dropped nor changed.
    if let Some(Unfinished { path, which: made }) = unsafe { unfinished.as_ref() }
        && which(path) == *made
    {
        // SAFETY: the path ends with a zero.
        unsafe { unlink(path.as_ptr()) };
    }
}

/// Which file stands at a path, by device and inode; zeros if there is none.
fn which(path: &CStr) -> [u64; 2] {
    let mut status = Status::default();
    // SAFETY: the path ends with a zero, and the answer has the room of a struct stat.
    unsafe { lstat(path.as_ptr(), &mut status) };
    [status.device, status.inode]
}

/// The file is finished: it is no longer removed.
pub fn keep_finished() {
    UNFINISHED.store(ptr::null_mut(), Ordering::SeqCst);
}

/// While this lives, the signals that are handled here wait. In a thread that is started meanwhile they
/// wait for ever, so that they come to the others.
#[must_use]
pub struct Held(Signals);

pub fn hold() -> Held {
    let numbers = DEADLY.iter().chain(&[SIGBUS]);
    let mut set = [0; 16];
    set[0] = numbers.fold(0, |set, number| set | 1 << (number - 1));
    Held(set_mask(SIG_BLOCK, &set))
}

impl Drop for Held {
    fn drop(&mut self) {
        set_mask(SIG_SETMASK, &self.0);
    }
}

/// Sets which signals wait in this thread; answers which did before.
fn set_mask(how: c_int, set: &Signals) -> Signals {
    let mut before = [0; 16];
    // SAFETY: both are sets of signals.
    unsafe { pthread_sigmask(how, set, &mut before) };
    before
}

/// What is done now at a signal.
fn action(number: c_int) -> Action {
    let mut action = Action { handler: DEFAULT, held: [0; 16], flags: 0, restorer: ptr::null() };
    // SAFETY: it is asked for alone.
    unsafe { sigaction(number, ptr::null(), &mut action) };
    action
}

fn set_action(number: c_int, handler: *const c_void, flags: c_int) {
    let action = Action { handler, held: [0; 16], flags, restorer: ptr::null() };
    // SAFETY: a handler of this module is set with its flags, or one of the two that are no functions;
    // and no other part of the program needs what was there before.
    unsafe { sigaction(number, &action, ptr::null_mut()) };
}

/// Ends the program as the signal would have done.
extern "C" fn on_death(number: c_int) {
    remove_unfinished();
    set_action(number, DEFAULT, 0);
    // It waits until this handler has returned.
    raise(number);
}

extern "C" fn on_fault(_: c_int, fault: &Fault, _: *mut c_void) {
    remove_unfinished();
    let unwritable = UNWRITABLE.get().filter(|(addresses, _)| addresses.contains(&fault.address));
    if let Some(line) = unwritable.map(|(_, line)| line).or(UNREADABLE.get()) {
        // SAFETY: the pointer and length are those of a string that is never dropped.
        unsafe { write(STANDARD_ERROR, line.as_ptr(), line.len()) };
    }
    _exit(IO_ERROR)
}
