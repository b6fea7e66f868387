//! Files mapped into memory and not read or written: what is not looked at costs nothing. This module and
//! [`crate::signals`] alone have `unsafe`. The constants are those of Linux on x86-64, as the library is.

use std::cell::Cell;
use std::ffi::{CStr, CString, c_char, c_int, c_ulong, c_void};
use std::fs::{File, OpenOptions};
use std::io::{self, Seek, SeekFrom};
use std::mem::MaybeUninit;
use std::ops::Range;
use std::os::fd::AsRawFd;
use std::os::unix::ffi::OsStrExt;
use std::os::unix::fs::{FileTypeExt, OpenOptionsExt};
use std::path::Path;
use std::ptr::{self, NonNull};
use std::slice;

const O_NONBLOCK: c_int = 0o4000;
const EISDIR: i32 = 21;
const PROT_READ: c_int = 1;
const PROT_WRITE: c_int = 2;
const MAP_SHARED: c_int = 1;
const MAP_PRIVATE: c_int = 2;
const MADV_SEQUENTIAL: c_int = 2;
const MADV_DONTNEED: c_int = 4;
/// The bytes of a page of memory.
const PAGE: usize = 4096;

/// What a file system says of itself.
#[repr(C)]
struct FileSystem {
    block: c_ulong,
    /// The bytes of the blocks that are counted here.
    fragment: c_ulong,
    blocks: u64,
    free: u64,
    /// The free blocks that this user may take.
    available: u64,
    others: [u64; 9],
}

unsafe extern "C" {
    fn mmap(
        address: *mut c_void,
        len: usize,
        protection: c_int,
        flags: c_int,
        file: c_int,
        offset: i64,
    ) -> *mut c_void;
    fn munmap(address: *mut c_void, len: usize) -> c_int;
    fn madvise(address: *mut c_void, len: usize, advice: c_int) -> c_int;
    fn statvfs(path: *const c_char, answer: *mut FileSystem) -> c_int;
}

/// Bytes of a file in memory, from its start on; nothing is mapped for none.
#[derive(Debug)]
struct Mapped {
    start: NonNull<u8>,
    len: usize,
}

impl Mapped {
    fn new(file: &File, len: usize, protection: c_int, flags: c_int) -> io::Result<Self> {
        if len == 0 {
            return Ok(Mapped { start: NonNull::dangling(), len });
        }
        // SAFETY: the kernel chooses the address, so that no other memory is touched.
        let start = unsafe { mmap(ptr::null_mut(), len, protection, flags, file.as_raw_fd(), 0) };
        // A failed call answers -1.
        if start.addr() == usize::MAX {
            return Err(io::Error::last_os_error());
        }
        let start = NonNull::new(start.cast()).ok_or_else(|| io::Error::other("mapped at 0"))?;
        Ok(Mapped { start, len })
    }
}

impl Drop for Mapped {
    fn drop(&mut self) {
        if self.len > 0 {
            // SAFETY: this was mapped with this length, and no slice of it is left.
            unsafe { munmap(self.start.as_ptr().cast(), self.len) };
        }
    }
}

/// A file in memory, for reading; empty for an empty file.
#[derive(Debug)]
pub struct Map {
    mapped: Mapped,
    /// The memory of so many bytes was given back.
    forgotten: Cell<usize>,
}

impl Map {
    /// Maps a file or a block device.
    pub fn open(path: &Path) -> io::Result<Self> {
        // A pipe without a writer must not block here.
        let mut file = OpenOptions::new().read(true).custom_flags(O_NONBLOCK).open(path)?;
        let kind = file.metadata()?.file_type();
        if kind.is_dir() {
            return Err(io::Error::from_raw_os_error(EISDIR));
        }
        if !kind.is_file() && !kind.is_block_device() {
            return Err(io::Error::other("neither a file nor a block device"));
        }
        let len = file.seek(SeekFrom::End(0))?;
        let len = usize::try_from(len).map_err(io::Error::other)?;
        let mapped = Mapped::new(&file, len, PROT_READ, MAP_PRIVATE)?;
        Ok(Map { mapped, forgotten: Cell::new(0) })
    }

    /// The bytes of the file. One that cannot be read ends the program: see
    /// [`crate::signals::report_faults`].
    pub fn bytes(&self) -> &[u8] {
        // SAFETY: so many bytes are mapped from there on, for reading, until this is dropped. That
        // no other program writes to the file meanwhile is assumed.
        unsafe { slice::from_raw_parts(self.mapped.start.as_ptr(), self.mapped.len) }
    }

    /// Says that the bytes will be looked at in order.
    pub fn in_order(&self) {
        self.advise(0..self.mapped.len, MADV_SEQUENTIAL);
    }

    /// Gives back the memory of bytes before a place; they are mapped again when looked at.
    pub fn forget_before(&self, place: usize) {
        let to = place.min(self.mapped.len) / PAGE * PAGE;
        let from = self.forgotten.replace(to);
        self.advise(from..to, MADV_DONTNEED);
    }

    /// Advises on bytes from the start of a page on. Advice that is not taken changes nothing.
    fn advise(&self, bytes: Range<usize>, advice: c_int) {
        let bytes = self.bytes().get(bytes).unwrap_or_default();
        if !bytes.is_empty() {
            // SAFETY: the bytes are mapped, and both advices leave what a file has as it is.
            unsafe { madvise(bytes.as_ptr().cast_mut().cast(), bytes.len(), advice) };
        }
    }
}

/// A file in memory, for reading and writing: what is written there is written to the file.
#[derive(Debug)]
pub struct MapMut(Mapped);

impl MapMut {
    /// Maps so many bytes of a file that is open for reading and writing.
    pub fn of_file(file: &File, len: usize) -> io::Result<Self> {
        Mapped::new(file, len, PROT_READ | PROT_WRITE, MAP_SHARED).map(MapMut)
    }

    /// The bytes of the file. One that cannot be written ends the program, as one that cannot be read.
    pub fn bytes(&mut self) -> &mut [u8] {
        // SAFETY: so many bytes are mapped from there on, for reading and writing, until this is
        // dropped. That no other program uses the file meanwhile is assumed.
        unsafe { slice::from_raw_parts_mut(self.0.start.as_ptr(), self.0.len) }
    }

    /// Where the bytes are.
    pub fn addresses(&self) -> Range<usize> {
        let start = self.0.start.addr().get();
        start..start + self.0.len
    }
}

/// The bytes that this user may still write to the file system of a folder: any number if that does not
/// tell its size.
pub fn free_space(folder: &Path) -> io::Result<u64> {
    let folder = CString::new(folder.as_os_str().as_bytes())?;
    let file_system = file_system(&folder)?;
    if file_system.blocks == 0 {
        return Ok(u64::MAX);
    }
    Ok(file_system.available.saturating_mul(file_system.fragment))
}

fn file_system(path: &CStr) -> io::Result<FileSystem> {
    let mut answer = MaybeUninit::uninit();
    // SAFETY: the path ends with a zero, and the answer has the room of a struct statvfs.
    if unsafe { statvfs(path.as_ptr(), answer.as_mut_ptr()) } != 0 {
        return Err(io::Error::last_os_error());
    }
    // SAFETY: the call has succeeded, and so has written it; any numbers may stand there.
    Ok(unsafe { answer.assume_init() })
}

#[cfg(test)]
mod tests {
    use super::*;

    #[test]
    fn free_space_is_told_if_the_file_system_has_a_size() {
        let free = free_space(Path::new(".")).expect("it is there");
        assert!(free > 0 && free < 1 << 60, "{free}");
        assert_eq!(free_space(Path::new("/proc")).ok(), Some(u64::MAX));
        let absent = free_space(Path::new("/proc/absent")).map_err(|error| error.kind());
        assert_eq!(absent, Err(io::ErrorKind::NotFound));
    }
}
