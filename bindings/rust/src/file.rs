//! Files that are read and written as those of `std::fs`.

use std::io::{self, Read, Seek, SeekFrom, Write};

use crate::call::{Call, Stat};
use crate::error::{Errno, Error, ErrorKind};
use crate::path::AsPath;
use crate::whole::{self, Calls};

/// Linux's number for a file that was not opened for what is asked.
const EBADF: i32 = 9;

/// How a file is opened, as by `std::fs::OpenOptions`.
///
/// ```
/// use std::io::{Read, Seek, SeekFrom, Write};
///
/// # fn main() -> std::io::Result<()> {
/// let mut tree = atomfs::Tree::new()?;
/// let mut file = atomfs::OpenOptions::new().read(true).write(true).create(true).open(&mut tree, "/f")?;
/// writeln!(file, "hello")?;
/// file.seek(SeekFrom::Start(1))?;
/// let mut text = String::new();
/// file.read_to_string(&mut text)?;
/// assert_eq!(text, "ello\n");
/// # Ok(())
/// # }
/// ```
#[derive(Clone, Debug, Default, PartialEq, Eq)]
pub struct OpenOptions {
    read: bool,
    write: bool,
    append: bool,
    truncate: bool,
    create: bool,
    create_new: bool,
}

impl OpenOptions {
    /// Options, none of which is set.
    pub fn new() -> OpenOptions {
        OpenOptions::default()
    }

    /// Whether the file can be read.
    pub fn read(&mut self, read: bool) -> &mut OpenOptions {
        self.read = read;
        self
    }

    /// Whether the file can be written.
    pub fn write(&mut self, write: bool) -> &mut OpenOptions {
        self.write = write;
        self
    }

    /// Whether each write goes to the end of the file, as it is then.
    pub fn append(&mut self, append: bool) -> &mut OpenOptions {
        self.append = append;
        self
    }

    /// Whether the file is emptied.
    pub fn truncate(&mut self, truncate: bool) -> &mut OpenOptions {
        self.truncate = truncate;
        self
    }

    /// Whether the file is made if it does not exist.
    pub fn create(&mut self, create: bool) -> &mut OpenOptions {
        self.create = create;
        self
    }

    /// Whether the file is made and must be new: then it is an error if something is there. `create` and `truncate` are
    /// ignored.
    pub fn create_new(&mut self, create_new: bool) -> &mut OpenOptions {
        self.create_new = create_new;
        self
    }

    /// Opens a file of a tree.
    ///
    /// `ErrorKind::BadOptions` if the options ask for no access, make or empty a file without write, or empty a file to
    /// append to it. `EISDIR` if a directory is there. Other errors are those of the calls. After an error the tree is
    /// as it was.
    pub fn open<C: Calls>(&self, mut calls: C, path: impl AsPath) -> Result<File<C>, Error> {
        let path = path.path_bytes().to_vec();
        let writes = self.write || self.append;
        let empties = self.truncate && !self.create_new;
        let changes = empties || self.create || self.create_new;
        let none = !self.read && !writes;
        if none || (changes && !writes) || (empties && self.append) {
            return Err(Error::at(ErrorKind::BadOptions, &path));
        }
        if !self.make(&mut calls, &path)? && empties {
            calls.call(&Call::Truncate(&path, 0))?;
        }
        Ok(File { calls, path, place: 0, reads: self.read, writes, appends: self.append })
    }

    /// Sees to it that a file is there, and returns whether it was made.
    fn make(&self, calls: &mut impl Calls, path: &[u8]) -> Result<bool, Error> {
        if self.create_new {
            return calls.call(&Call::Mknod(path)).map(|_| true);
        }
        let mut found = whole::stat(calls, path);
        if self.create && whole::failed(&found, Errno::ENOENT) {
            let made = calls.call(&Call::Mknod(path));
            if !whole::failed(&made, Errno::EEXIST) {
                return made.map(|_| true);
            }
            // Another thread made it first.
            found = whole::stat(calls, path);
        }
        if found?.is_dir {
            return Err(Error::at(ErrorKind::Failed(Errno::EISDIR), path));
        }
        Ok(false)
    }
}

/// A file of a tree with a position, from which it is read and written. [`Tree::open`](crate::Tree::open),
/// [`Tree::create`](crate::Tree::create) and [`OpenOptions`] make it.
///
/// It keeps its path, and each read and each write is a call with that path. So it reads and writes whatever is at the
/// path then. If nothing is there any more, the call fails. A write is made whole or not at all. An append takes two
/// calls, and the first one asks for the size.
#[derive(Debug)]
pub struct File<C> {
    calls: C,
    path: Vec<u8>,
    place: u64,
    reads: bool,
    writes: bool,
    appends: bool,
}

impl<C: Calls> File<C> {
    /// What is at the path now.
    pub fn stat(&mut self) -> Result<Stat, Error> {
        whole::stat(&mut self.calls, &self.path)
    }

    /// Cuts the file to a size, or adds zeros up to it. The position stays.
    pub fn set_len(&mut self, size: u64) -> io::Result<()> {
        opened(self.writes)?;
        self.calls.call(&Call::Truncate(&self.path, size))?;
        Ok(())
    }
}

impl<C: Calls> Read for File<C> {
    fn read(&mut self, out: &mut [u8]) -> io::Result<usize> {
        opened(self.reads)?;
        let told = whole::read(&mut self.calls, &self.path, self.place, out.len() as u64)?;
        out[..told.len()].copy_from_slice(&told);
        self.place += told.len() as u64;
        Ok(told.len())
    }
}

impl<C: Calls> Write for File<C> {
    fn write(&mut self, bytes: &[u8]) -> io::Result<usize> {
        opened(self.writes)?;
        let place = match self.appends {
            true => self.stat()?.size,
            false => self.place,
        };
        let wrote = whole::write(&mut self.calls, &self.path, place, bytes)?;
        self.place = place + wrote;
        Ok(bytes.len())
    }

    /// Does nothing, since every write is made at once.
    fn flush(&mut self) -> io::Result<()> {
        Ok(())
    }
}

impl<C: Calls> Seek for File<C> {
    fn seek(&mut self, to: SeekFrom) -> io::Result<u64> {
        let (from, by) = match to {
            SeekFrom::Start(place) => (place, 0),
            SeekFrom::Current(by) => (self.place, by),
            SeekFrom::End(by) => (self.stat()?.size, by),
        };
        let place = i128::from(from) + i128::from(by);
        self.place = u64::try_from(place).map_err(|_| {
            let words = "a position before the first byte, or after the last number";
            io::Error::new(io::ErrorKind::InvalidInput, words)
        })?;
        Ok(self.place)
    }
}

fn opened(so: bool) -> io::Result<()> {
    match so {
        true => Ok(()),
        false => Err(io::Error::from_raw_os_error(EBADF)),
    }
}
