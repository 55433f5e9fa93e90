//! A file mapped into memory, which other processes see as it is written, and which outlives the process that writes it.
use std::ffi::c_void;
use std::fs::{File, OpenOptions};
use std::os::fd::AsRawFd;
use std::path::Path;
use std::{io, ptr, slice};

extern "C" {
    fn mmap(start: *mut c_void, len: usize, protection: i32, flags: i32, file: i32, offset: i64) -> *mut c_void;
    fn munmap(start: *mut c_void, len: usize) -> i32;
}

// of Linux on x86-64
const READ_AND_WRITE: i32 = 1 | 2;
const SHARED: i32 = 1;
const FAILED: usize = usize::MAX;

pub struct Mapped {
    start: *mut u8,
    len: usize,
}

impl Mapped {
    /// A new file of so many bytes, all 0.
    pub fn create(path: &Path, len: usize) -> io::Result<Mapped> {
        let file = OpenOptions::new().read(true).write(true).create(true).truncate(true).open(path)?;
        file.set_len(len as u64)?;
        Mapped::of(&file)
    }

    /// A file that is there.
    pub fn open(path: &Path) -> io::Result<Mapped> {
        Mapped::of(&OpenOptions::new().read(true).write(true).open(path)?)
    }

    fn of(file: &File) -> io::Result<Mapped> {
        let len = file.metadata()?.len() as usize;
        // a mapping of its own, which nothing in this process shares; it stays when the file is closed
        let start = unsafe { mmap(ptr::null_mut(), len, READ_AND_WRITE, SHARED, file.as_raw_fd(), 0) };
        match start as usize {
            FAILED => Err(io::Error::last_os_error()),
            _ => Ok(Mapped { start: start.cast(), len }),
        }
    }

    pub fn bytes(&mut self) -> &mut [u8] {
        unsafe { slice::from_raw_parts_mut(self.start, self.len) }
    }
}

impl Drop for Mapped {
    fn drop(&mut self) {
        unsafe { munmap(self.start.cast(), self.len) };
    }
}
