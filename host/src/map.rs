//! Files side by side as one slice. Where each is a whole number of pages they are mapped, and a page is copied when it is
//! written: what a step puts reaches a file only when the caller writes it there. Otherwise they are read.
use std::ffi::{c_int, c_void};
use std::fs::File;
use std::io::{self, Error, ErrorKind};
use std::os::fd::AsRawFd;
use std::os::unix::fs::FileExt;

const PAGE: usize = 4096;
const READ_AND_WRITE: c_int = 1 | 2;
const PRIVATE: c_int = 2;
const FIXED: c_int = 16;
const ANONYMOUS: c_int = 32;

extern "C" {
    fn mmap(
        at: *mut c_void,
        len: usize,
        how: c_int,
        flags: c_int,
        file: c_int,
        from: i64,
    ) -> *mut c_void;
    fn munmap(at: *mut c_void, len: usize) -> c_int;
}

/// A slice of its own pages.
pub struct Map {
    at: *mut u8,
    len: usize,
}

/// Maps memory: of a file, or zeros; at a place, or anywhere.
fn pages(at: *mut u8, len: usize, flags: c_int, file: c_int) -> io::Result<*mut u8> {
    // SAFETY: a fixed place lies within pages that are the caller's; the kernel chooses any other.
    let got = unsafe { mmap(at.cast(), len, READ_AND_WRITE, PRIVATE | flags, file, 0) };
    if got as isize == -1 {
        return Err(Error::last_os_error());
    }
    Ok(got.cast())
}

impl Map {
    /// The files, each of `size` bytes, one behind the other; where there is none, zeros. A file of another length is refused.
    pub fn of(files: &[Option<File>], size: usize) -> io::Result<Map> {
        let len = files.len() * size;
        let map = Map {
            at: pages(std::ptr::null_mut(), len, ANONYMOUS, -1)?,
            len,
        };
        let mut map = map;
        for (slot, file) in files.iter().enumerate() {
            let Some(file) = file else { continue };
            if file.metadata()?.len() != size as u64 {
                return Err(Error::new(
                    ErrorKind::InvalidData,
                    "a file of another length",
                ));
            }
            let from = slot * size;
            if size % PAGE == 0 {
                // SAFETY: the part lies within the map.
                pages(unsafe { map.at.add(from) }, size, FIXED, file.as_raw_fd())?;
            } else {
                file.read_exact_at(&mut map.as_mut()[from..from + size], 0)?;
            }
        }
        Ok(map)
    }
}

impl AsRef<[u8]> for Map {
    fn as_ref(&self) -> &[u8] {
        // SAFETY: the pages are mapped, all of them readable, until this is dropped.
        unsafe { std::slice::from_raw_parts(self.at, self.len) }
    }
}

impl AsMut<[u8]> for Map {
    fn as_mut(&mut self) -> &mut [u8] {
        // SAFETY: as above, and they are this one's alone.
        unsafe { std::slice::from_raw_parts_mut(self.at, self.len) }
    }
}

impl Drop for Map {
    fn drop(&mut self) {
        // SAFETY: nothing borrows the pages any more.
        unsafe { munmap(self.at.cast(), self.len) };
    }
}
