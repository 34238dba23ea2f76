//! exsm for Rust: the library for C (`exsm.h`) behind types that close what they open.
//!
//! This one file is the whole binding: `mod exsm;`, and link with `libexsm.so` or `libexsm.a`.
//!
//! ```ignore
//! let mut volume = exsm::Volume::open("v", 0)?;
//! let note = volume.transaction(|volume| {
//!     volume.file("notes")?;
//!     let note = volume.create("notes")?;
//!     volume.append(note, b"some bytes")?;
//!     Ok(note)
//! })?;
//! assert_eq!(volume.read(note, 0, 4)?, b"some");
//! ```
#![allow(dead_code)]

use std::ffi::{c_char, c_int, c_uint, c_void, CStr, CString};
use std::fmt;
use std::os::unix::ffi::OsStrExt;
use std::path::Path;
use std::ptr;
use std::str::FromStr;

/// The volume is read into memory whole, in place of a mapping.
pub const READ_ALL: u32 = 1;

/// Commits are answered before they are on the disk: a crash may lose the last ones, in order.
pub const LATER: u32 = 2;

const OK: c_int = 0;
const LAST_REFUSAL: c_int = 25;
const SYNTAX: c_int = 2;
const NAME_ROOM: usize = 33;

/// The identifier of a version: `page.slot.unique`.
#[repr(C)]
#[derive(Clone, Copy, Debug, Default, PartialEq, Eq, Hash)]
pub struct Oid {
    pub page: u32,
    pub slot: u16,
    pub unique: u64,
}

impl fmt::Display for Oid {
    fn fmt(&self, out: &mut fmt::Formatter<'_>) -> fmt::Result {
        write!(out, "{}.{}.{}", self.page, self.slot, self.unique)
    }
}

impl FromStr for Oid {
    type Err = std::num::ParseIntError;

    fn from_str(text: &str) -> Result<Oid, Self::Err> {
        let mut parts = text.splitn(3, '.');
        let mut next = || parts.next().unwrap_or("");
        Ok(Oid { page: next().parse()?, slot: next().parse()?, unique: next().parse()? })
    }
}

/// What the core knows of a call that wasn't done; `exsm.h` says which numbers go with which result.
#[repr(C)]
#[derive(Clone, Copy, Debug, Default, PartialEq, Eq)]
pub struct Reason {
    pub code: u32,
    pub scans: u8,
    pub area: u8,
    pub updates: u32,
    pub touched: u32,
    pub need: u64,
    pub free: u64,
    pub derived: u64,
    pub page: u32,
    pub want_kind: u8,
    pub want_level: u8,
    pub got_kind: u8,
    pub got_level: u8,
    pub want_total: u64,
    pub got_total: u64,
}

/// Why a call wasn't done: `exsm_why`.
#[repr(C)]
#[derive(Clone, Copy, Debug, Default, PartialEq, Eq)]
pub struct Error {
    /// The result, by the numbers of `exsm.h`.
    pub code: c_int,
    /// The system's reason where a call on the file failed, else 0.
    pub os_error: c_int,
    /// The first part that fails of a bad volume, else 0.
    pub part: u8,
    pub told: Reason,
}

impl Error {
    /// Whether it is a refusal: nothing changed, and the volume goes on.
    pub fn is_refusal(&self) -> bool {
        (1..=LAST_REFUSAL).contains(&self.code)
    }
}

impl fmt::Display for Error {
    fn fmt(&self, out: &mut fmt::Formatter<'_>) -> fmt::Result {
        let text = unsafe { CStr::from_ptr(exsm_text(self.code)) };
        out.write_str(&text.to_string_lossy())?;
        match self.os_error {
            0 => Ok(()),
            reason => write!(out, ": {}", std::io::Error::from_raw_os_error(reason)),
        }
    }
}

impl std::error::Error for Error {}

/// The units in use, and all that there are.
#[repr(C)]
#[derive(Clone, Copy, Debug, Default, PartialEq, Eq)]
pub struct Space {
    pub pages: u32,
    pub of_pages: u32,
    pub segs: u32,
    pub of_segs: u32,
}

#[repr(C)]
struct Handle {
    _private: [u8; 0],
}

#[link(name = "exsm")]
extern "C" {
    fn exsm_text(code: c_int) -> *const c_char;
    fn exsm_open(path: *const c_char, flags: c_uint, out: *mut *mut Handle, why: *mut Error) -> c_int;
    fn exsm_close(db: *mut Handle) -> c_int;
    fn exsm_sync(db: *mut Handle) -> c_int;
    fn exsm_last(db: *const Handle, out: *mut Error);
    fn exsm_line(db: *mut Handle, line: *const c_char, len: usize, reply: *mut *const c_char, reply_len: *mut usize) -> c_int;
    fn exsm_begin(db: *mut Handle, number: *mut u64) -> c_int;
    fn exsm_commit(db: *mut Handle, number: *mut u64) -> c_int;
    fn exsm_abort(db: *mut Handle) -> c_int;
    fn exsm_checkpoint(db: *mut Handle) -> c_int;
    fn exsm_file(db: *mut Handle, name: *const c_char) -> c_int;
    fn exsm_unfile(db: *mut Handle, name: *const c_char) -> c_int;
    fn exsm_files(db: *mut Handle, count: *mut usize) -> c_int;
    fn exsm_list(db: *mut Handle, file: *const c_char, count: *mut usize) -> c_int;
    fn exsm_name_at(db: *mut Handle, number: usize, name: *mut c_char) -> c_int;
    fn exsm_oid_at(db: *mut Handle, number: usize, x: *mut Oid) -> c_int;
    fn exsm_create(db: *mut Handle, file: *const c_char, made: *mut Oid) -> c_int;
    fn exsm_destroy(db: *mut Handle, x: *const Oid) -> c_int;
    fn exsm_size(db: *mut Handle, x: *const Oid, size: *mut u64) -> c_int;
    fn exsm_read(db: *mut Handle, x: *const Oid, position: u64, out: *mut c_void, len: usize) -> c_int;
    fn exsm_append(db: *mut Handle, x: *const Oid, bytes: *const c_void, len: usize, size: *mut u64) -> c_int;
    fn exsm_insert(db: *mut Handle, x: *const Oid, position: u64, bytes: *const c_void, len: usize, size: *mut u64) -> c_int;
    fn exsm_replace(db: *mut Handle, x: *const Oid, position: u64, bytes: *const c_void, len: usize, size: *mut u64) -> c_int;
    fn exsm_delete(db: *mut Handle, x: *const Oid, position: u64, len: u64, size: *mut u64) -> c_int;
    fn exsm_digest(db: *mut Handle, x: *const Oid, out: *mut u8) -> c_int;
    fn exsm_freeze(db: *mut Handle, x: *const Oid, frozen: *mut Oid) -> c_int;
    fn exsm_derive(db: *mut Handle, x: *const Oid, made: *mut Oid) -> c_int;
    fn exsm_versions(db: *mut Handle, x: *const Oid, count: *mut usize) -> c_int;
    fn exsm_drop(db: *mut Handle, x: *const Oid) -> c_int;
    fn exsm_space_of(db: *mut Handle, out: *mut Space) -> c_int;
}

/// An open volume. It is closed where this value is dropped, which aborts an open transaction.
pub struct Volume {
    handle: *mut Handle,
}

// A handle may be used by any thread, by one at a time, which `&mut` sees to.
unsafe impl Send for Volume {}

impl Drop for Volume {
    fn drop(&mut self) {
        unsafe { exsm_close(self.handle) };
    }
}

impl Volume {
    /// Opens the volume at a path, a file or a block device, with `READ_ALL`, `LATER`, both or 0.
    pub fn open(path: impl AsRef<Path>, flags: u32) -> Result<Volume, Error> {
        let path = text_of(path.as_ref().as_os_str().as_bytes())?;
        let (mut handle, mut why) = (ptr::null_mut(), Error::default());
        match unsafe { exsm_open(path.as_ptr(), flags, &mut handle, &mut why) } {
            OK => Ok(Volume { handle }),
            _ => Err(why),
        }
    }

    /// Closes it, and says whether what waited under `LATER` was written.
    pub fn close(self) -> Result<(), Error> {
        let code = unsafe { exsm_close(self.handle) };
        std::mem::forget(self);
        if code == OK { Ok(()) } else { Err(Error { code, ..Error::default() }) }
    }

    fn hold(&mut self, code: c_int) -> Result<(), Error> {
        if code == OK {
            return Ok(());
        }
        let mut why = Error::default();
        unsafe { exsm_last(self.handle, &mut why) };
        Err(Error { code, ..why })
    }

    /// Writes what waits under `LATER`: each commit that was answered outlasts a loss of power.
    pub fn sync(&mut self) -> Result<(), Error> {
        let code = unsafe { exsm_sync(self.handle) };
        self.hold(code)
    }

    /// Steps on a line of a script, and gives its reply, also where that is a refusal.
    pub fn line(&mut self, line: &[u8]) -> Result<String, Error> {
        let (mut reply, mut len) = (ptr::null(), 0);
        let code = unsafe { exsm_line(self.handle, line.as_ptr().cast(), line.len(), &mut reply, &mut len) };
        if code > LAST_REFUSAL {
            self.hold(code)?;
        }
        let bytes = unsafe { std::slice::from_raw_parts(reply.cast(), len) };
        Ok(String::from_utf8_lossy(bytes).into_owned())
    }

    /// Does something in a transaction: commits it where that succeeds, and aborts it where it doesn't.
    pub fn transaction<T>(&mut self, work: impl FnOnce(&mut Volume) -> Result<T, Error>) -> Result<T, Error> {
        self.begin()?;
        match work(self) {
            Ok(done) => self.commit().map(|_| done),
            Err(fault) => {
                if fault.is_refusal() {
                    self.abort()?;
                }
                Err(fault)
            }
        }
    }

    /// Begins a transaction, and gives the number that its commit will have.
    pub fn begin(&mut self) -> Result<u64, Error> {
        let mut number = 0;
        let code = unsafe { exsm_begin(self.handle, &mut number) };
        self.hold(code).map(|()| number)
    }

    /// Makes the transaction's state the committed one, and gives the commit's number.
    pub fn commit(&mut self) -> Result<u64, Error> {
        let mut number = 0;
        let code = unsafe { exsm_commit(self.handle, &mut number) };
        self.hold(code).map(|()| number)
    }

    /// Drops the transaction's state.
    pub fn abort(&mut self) -> Result<(), Error> {
        let code = unsafe { exsm_abort(self.handle) };
        self.hold(code)
    }

    /// Writes logged pages home and empties the log.
    pub fn checkpoint(&mut self) -> Result<(), Error> {
        let code = unsafe { exsm_checkpoint(self.handle) };
        self.hold(code)
    }

    /// Makes an empty file.
    pub fn file(&mut self, name: &str) -> Result<(), Error> {
        let name = text_of(name.as_bytes())?;
        let code = unsafe { exsm_file(self.handle, name.as_ptr()) };
        self.hold(code)
    }

    /// Removes a file without objects.
    pub fn unfile(&mut self, name: &str) -> Result<(), Error> {
        let name = text_of(name.as_bytes())?;
        let code = unsafe { exsm_unfile(self.handle, name.as_ptr()) };
        self.hold(code)
    }

    /// The names of all files, in byte order.
    pub fn files(&mut self) -> Result<Vec<String>, Error> {
        let mut count = 0;
        let code = unsafe { exsm_files(self.handle, &mut count) };
        self.hold(code)?;
        (0..count).map(|number| self.name_at(number)).collect()
    }

    fn name_at(&mut self, number: usize) -> Result<String, Error> {
        let mut name = [0 as c_char; NAME_ROOM];
        let code = unsafe { exsm_name_at(self.handle, number, name.as_mut_ptr()) };
        self.hold(code)?;
        Ok(unsafe { CStr::from_ptr(name.as_ptr()) }.to_string_lossy().into_owned())
    }

    fn oid_at(&mut self, number: usize) -> Result<Oid, Error> {
        let mut x = Oid::default();
        let code = unsafe { exsm_oid_at(self.handle, number, &mut x) };
        self.hold(code).map(|()| x)
    }

    /// The current versions in a file, in order of their numbers.
    pub fn list(&mut self, file: &str) -> Result<Vec<Oid>, Error> {
        let (file, mut count) = (text_of(file.as_bytes())?, 0);
        let code = unsafe { exsm_list(self.handle, file.as_ptr(), &mut count) };
        self.hold(code)?;
        (0..count).map(|number| self.oid_at(number)).collect()
    }

    /// Makes an empty object in a file.
    pub fn create(&mut self, file: &str) -> Result<Oid, Error> {
        let (file, mut made) = (text_of(file.as_bytes())?, Oid::default());
        let code = unsafe { exsm_create(self.handle, file.as_ptr(), &mut made) };
        self.hold(code).map(|()| made)
    }

    /// Removes a current version, and its object with the last one.
    pub fn destroy(&mut self, x: Oid) -> Result<(), Error> {
        let code = unsafe { exsm_destroy(self.handle, &x) };
        self.hold(code)
    }

    /// The bytes of a version.
    pub fn size(&mut self, x: Oid) -> Result<u64, Error> {
        let mut size = 0;
        let code = unsafe { exsm_size(self.handle, &x, &mut size) };
        self.hold(code).map(|()| size)
    }

    /// Fills a buffer with the bytes from a position on.
    pub fn read_into(&mut self, x: Oid, position: u64, out: &mut [u8]) -> Result<(), Error> {
        let code = unsafe { exsm_read(self.handle, &x, position, out.as_mut_ptr().cast(), out.len()) };
        self.hold(code)
    }

    /// So many bytes from a position on.
    pub fn read(&mut self, x: Oid, position: u64, len: usize) -> Result<Vec<u8>, Error> {
        let mut out = vec![0; len];
        self.read_into(x, position, &mut out).map(|()| out)
    }

    /// Puts bytes at the end, and gives the new size.
    pub fn append(&mut self, x: Oid, bytes: &[u8]) -> Result<u64, Error> {
        let mut size = 0;
        let code = unsafe { exsm_append(self.handle, &x, bytes.as_ptr().cast(), bytes.len(), &mut size) };
        self.hold(code).map(|()| size)
    }

    /// Puts bytes in before the one at a position, and gives the new size.
    pub fn insert(&mut self, x: Oid, position: u64, bytes: &[u8]) -> Result<u64, Error> {
        let mut size = 0;
        let code = unsafe { exsm_insert(self.handle, &x, position, bytes.as_ptr().cast(), bytes.len(), &mut size) };
        self.hold(code).map(|()| size)
    }

    /// Puts bytes over those from a position on, and gives the size.
    pub fn replace(&mut self, x: Oid, position: u64, bytes: &[u8]) -> Result<u64, Error> {
        let mut size = 0;
        let code = unsafe { exsm_replace(self.handle, &x, position, bytes.as_ptr().cast(), bytes.len(), &mut size) };
        self.hold(code).map(|()| size)
    }

    /// Takes bytes from a position on out, and gives the new size.
    pub fn delete(&mut self, x: Oid, position: u64, len: u64) -> Result<u64, Error> {
        let mut size = 0;
        let code = unsafe { exsm_delete(self.handle, &x, position, len, &mut size) };
        self.hold(code).map(|()| size)
    }

    /// The SHA-256 of a version's bytes.
    pub fn digest(&mut self, x: Oid) -> Result<[u8; 32], Error> {
        let mut out = [0; 32];
        let code = unsafe { exsm_digest(self.handle, &x, out.as_mut_ptr()) };
        self.hold(code).map(|()| out)
    }

    /// Puts a frozen copy of a current version before it.
    pub fn freeze(&mut self, x: Oid) -> Result<Oid, Error> {
        let mut frozen = Oid::default();
        let code = unsafe { exsm_freeze(self.handle, &x, &mut frozen) };
        self.hold(code).map(|()| frozen)
    }

    /// Makes a current version with the bytes of a frozen one.
    pub fn derive(&mut self, x: Oid) -> Result<Oid, Error> {
        let mut made = Oid::default();
        let code = unsafe { exsm_derive(self.handle, &x, &mut made) };
        self.hold(code).map(|()| made)
    }

    /// All versions of an object, each before those derived from it.
    pub fn versions(&mut self, x: Oid) -> Result<Vec<Oid>, Error> {
        let mut count = 0;
        let code = unsafe { exsm_versions(self.handle, &x, &mut count) };
        self.hold(code)?;
        (0..count).map(|number| self.oid_at(number)).collect()
    }

    /// Removes a frozen version.
    pub fn drop_version(&mut self, x: Oid) -> Result<(), Error> {
        let code = unsafe { exsm_drop(self.handle, &x) };
        self.hold(code)
    }

    /// The units in use, and all that there are.
    pub fn space(&mut self) -> Result<Space, Error> {
        let mut space = Space::default();
        let code = unsafe { exsm_space_of(self.handle, &mut space) };
        self.hold(code).map(|()| space)
    }
}

// A text that C takes; one with a zero byte is no name.
fn text_of(bytes: &[u8]) -> Result<CString, Error> {
    CString::new(bytes).map_err(|_| Error { code: SYNTAX, ..Error::default() })
}
