//! What takes several calls: directories with those above them, whole files, and all below a path.

use std::ffi::OsStr;
use std::os::unix::ffi::OsStrExt;
use std::path::{Path, PathBuf};

use crate::call::{Call, Reply, Stat};
use crate::error::{Errno, Error, ErrorKind};
use crate::file::{File, OpenOptions};
use crate::limits::{Limits, LISTED};
use crate::path::AsPath;
use crate::tree::Tree;

/// What makes calls: a [`Tree`](crate::Tree), a [`Session`](crate::Session), or a mutable reference to one.
///
/// [`OpenOptions::open`](crate::OpenOptions::open) takes any of them.
pub trait Calls {
    /// Makes a call from its begin to its return, and returns its reply.
    fn call(&mut self, call: &Call) -> Result<Reply, Error>;

    /// The limits of its tree.
    fn limits(&mut self) -> Limits {
        Limits::default()
    }
}

impl<C: Calls + ?Sized> Calls for &mut C {
    fn call(&mut self, call: &Call) -> Result<Reply, Error> {
        (**self).call(call)
    }

    fn limits(&mut self) -> Limits {
        (**self).limits()
    }
}

impl Calls for Tree {
    fn call(&mut self, call: &Call) -> Result<Reply, Error> {
        Tree::call(self, call)
    }

    fn limits(&mut self) -> Limits {
        Tree::limits(self)
    }
}

impl Tree {
    /// Opens a file to read it from its start. [`OpenOptions`] open it for more.
    ///
    /// ```
    /// use std::io::Read;
    ///
    /// # fn main() -> std::io::Result<()> {
    /// let mut tree = atomfs::Tree::new()?;
    /// tree.write_file("/f", "hello")?;
    /// let mut text = String::new();
    /// tree.open("/f")?.read_to_string(&mut text)?;
    /// assert_eq!(text, "hello");
    /// # Ok(())
    /// # }
    /// ```
    pub fn open(&mut self, path: impl AsPath) -> Result<File<&mut Tree>, Error> {
        OpenOptions::new().read(true).open(self, path)
    }

    /// Opens a file to write it from its start. A new file is made, and one that exists is emptied.
    pub fn create(&mut self, path: impl AsPath) -> Result<File<&mut Tree>, Error> {
        created().open(self, path)
    }

    /// Makes a directory, and those above it that are missing. It is no error if the directory exists. After an error
    /// those that it made are removed again. It takes a call for each.
    pub fn create_dir_all(&mut self, path: impl AsPath) -> Result<(), Error> {
        create_dir_all(self, path.path_bytes())
    }

    /// All names of a directory, in byte order. It makes one `readdir`, or with [`Limits::V3`] a `list` for each 256
    /// names.
    pub fn read_dir(&mut self, path: impl AsPath) -> Result<Vec<Vec<u8>>, Error> {
        read_dir(self, path.path_bytes())
    }

    /// What is at a path and all below it. Each directory comes before its entries, and names are in byte order. It
    /// takes a call for a file, and for a directory one and those of [`read_dir`](Tree::read_dir).
    ///
    /// ```
    /// let mut tree = atomfs::Tree::new()?;
    /// tree.create_dir_all("/a/b")?;
    /// tree.write_file("/a/f", "hello")?;
    /// let found: Vec<_> = tree.walk("/a")?.into_iter().map(|entry| entry.path().to_owned()).collect();
    /// assert_eq!(found, ["/a", "/a/b", "/a/f"].map(std::path::PathBuf::from));
    /// # Ok::<(), atomfs::Error>(())
    /// ```
    pub fn walk(&mut self, path: impl AsPath) -> Result<Vec<Entry>, Error> {
        walk(self, path.path_bytes())
    }

    /// All bytes of a file. A call reads at most [`Limits::read_bytes`] of them.
    pub fn read_to_end(&mut self, path: impl AsPath) -> Result<Vec<u8>, Error> {
        read_to_end(self, path.path_bytes())
    }

    /// Gives a file these bytes, and makes it if it does not exist. After an error the tree is as it was. It takes two
    /// or three calls.
    pub fn write_file(&mut self, path: impl AsPath, bytes: impl AsRef<[u8]>) -> Result<(), Error> {
        write_file(self, path.path_bytes(), bytes.as_ref())
    }

    /// Removes a directory with all below it. It takes some calls for each entry. It ends half-way only if memory runs
    /// out, or if calls of other seats are pending.
    pub fn remove_dir_all(&mut self, path: impl AsPath) -> Result<(), Error> {
        remove_dir_all(self, path.path_bytes())
    }
}

/// As `create` opens.
pub(crate) fn created() -> OpenOptions {
    let mut options = OpenOptions::new();
    options.write(true).create(true).truncate(true);
    options
}

/// A path that [`Tree::walk`](crate::Tree::walk) found, and what is there.
#[derive(Clone, Debug, PartialEq, Eq)]
pub struct Entry {
    path: PathBuf,
    stat: Stat,
}

impl Entry {
    /// Its path.
    pub fn path(&self) -> &Path {
        &self.path
    }

    /// What is at the path.
    pub fn stat(&self) -> Stat {
        self.stat
    }

    /// The last name of its path; none of the root.
    pub fn name(&self) -> Option<&OsStr> {
        self.path.file_name()
    }
}

pub(crate) fn stat(calls: &mut impl Calls, path: &[u8]) -> Result<Stat, Error> {
    match calls.call(&Call::Stat(path))? {
        Reply::Stat(stat) => Ok(stat),
        _ => Err(ErrorKind::NoReply.into()),
    }
}

pub(crate) fn readdir(calls: &mut impl Calls, path: &[u8]) -> Result<Vec<Vec<u8>>, Error> {
    match calls.call(&Call::Readdir(path))? {
        Reply::Names(names) => Ok(names),
        _ => Err(ErrorKind::NoReply.into()),
    }
}

pub(crate) fn list(calls: &mut impl Calls, path: &[u8], after: &[u8], count: u32) -> Result<Vec<Vec<u8>>, Error> {
    match calls.call(&Call::List(path, after, count))? {
        Reply::Names(names) => Ok(names),
        _ => Err(ErrorKind::NoReply.into()),
    }
}

/// All names of a directory.
pub(crate) fn read_dir(calls: &mut impl Calls, path: &[u8]) -> Result<Vec<Vec<u8>>, Error> {
    if !calls.limits().has_list() {
        return readdir(calls, path);
    }
    let mut names = list(calls, path, b"/", LISTED as u32)?;
    let mut told = names.len();
    while told == LISTED {
        let after = below(b"", names.last().map_or(&[][..], Vec::as_slice));
        let more = list(calls, path, &after, LISTED as u32)?;
        told = more.len();
        names.extend(more);
    }
    Ok(names)
}

pub(crate) fn read(calls: &mut impl Calls, path: &[u8], offset: u64, count: u64) -> Result<Vec<u8>, Error> {
    match calls.call(&Call::Read(path, offset, count))? {
        Reply::Bytes(bytes) => Ok(bytes),
        _ => Err(ErrorKind::NoReply.into()),
    }
}

pub(crate) fn write(calls: &mut impl Calls, path: &[u8], offset: u64, bytes: &[u8]) -> Result<u64, Error> {
    match calls.call(&Call::Write(path, offset, bytes))? {
        Reply::Wrote(count) => Ok(count),
        _ => Err(ErrorKind::NoReply.into()),
    }
}

/// Whether a call failed with this error.
pub(crate) fn failed<T>(came: &Result<T, Error>, errno: Errno) -> bool {
    matches!(came, Err(error) if error.errno() == Some(errno))
}

/// Makes a directory, and those above it that are missing. By an error those that it made are taken back.
pub(crate) fn create_dir_all(calls: &mut impl Calls, path: &[u8]) -> Result<(), Error> {
    let mut made = Vec::new();
    let came = create_missing(calls, path, &mut made);
    if came.is_err() {
        for path in made.into_iter().rev() {
            // One in which another thread has put something stays.
            let _ = calls.call(&Call::Rmdir(path));
        }
    }
    came
}

fn create_missing<'p>(calls: &mut impl Calls, path: &'p [u8], made: &mut Vec<&'p [u8]>) -> Result<(), Error> {
    // What is no path is refused as a whole, before any part of it is made.
    match stat(calls, path) {
        Ok(found) if found.is_dir => return Ok(()),
        Ok(_) => return Err(Error::at(ErrorKind::Failed(Errno::EEXIST), path)),
        Err(error) if error.errno() == Some(Errno::ENOENT) => {}
        Err(error) => return Err(error),
    }
    // Where slashes stand together, the name before them ends at the first one.
    let names = (1..path.len()).filter(|at| path[*at] == b'/' && path[*at - 1] != b'/');
    for end in names.chain([path.len()]) {
        let part = &path[..end];
        let came = calls.call(&Call::Mkdir(part));
        if failed(&came, Errno::EEXIST) {
            if end == path.len() && !stat(calls, part)?.is_dir {
                return came.map(|_| ());
            }
        } else {
            came?;
            made.push(part);
        }
    }
    Ok(())
}

/// All bytes of a file.
pub(crate) fn read_to_end(calls: &mut impl Calls, path: &[u8]) -> Result<Vec<u8>, Error> {
    let limits = calls.limits();
    let mut bytes = read(calls, path, 0, u64::MAX)?;
    let mut told = bytes.len();
    while told == limits.read_bytes() && bytes.len() < limits.file_bytes() {
        let more = read(calls, path, bytes.len() as u64, u64::MAX)?;
        told = more.len();
        bytes.extend(more);
    }
    Ok(bytes)
}

/// Makes a file of these bytes, or gives them to the file that is there. By an error the file is as before.
pub(crate) fn write_file(calls: &mut impl Calls, path: &[u8], bytes: &[u8]) -> Result<(), Error> {
    let made = calls.call(&Call::Mknod(path));
    if made.is_err() && !failed(&made, Errno::EEXIST) {
        return made.map(|_| ());
    }
    // The bytes that were there and go beyond these are cut only once these are written, so an error leaves all as it
    // was.
    let came = write(calls, path, 0, bytes);
    match came {
        Ok(_) if made.is_ok() => Ok(()),
        Ok(_) => calls.call(&Call::Truncate(path, bytes.len() as u64)).map(|_| ()),
        Err(error) => {
            if made.is_ok() {
                let _ = calls.call(&Call::Unlink(path));
            }
            Err(error)
        }
    }
}

/// A path and all below it, each directory before what it has, names in byte order.
pub(crate) fn walk(calls: &mut impl Calls, path: &[u8]) -> Result<Vec<Entry>, Error> {
    let mut found = Vec::new();
    let mut left = vec![path.to_vec()];
    while let Some(at) = left.pop() {
        let came = look(calls, &at, &mut left);
        let gone = failed(&came, Errno::ENOENT) || failed(&came, Errno::ENOTDIR);
        // What another thread took away since its name was read is left out.
        if gone && !found.is_empty() {
            continue;
        }
        found.push(Entry { path: PathBuf::from(OsStr::from_bytes(&at)), stat: came? });
    }
    Ok(found)
}

/// What is at a path. The paths below a directory are put onto those that are left.
fn look(calls: &mut impl Calls, path: &[u8], left: &mut Vec<Vec<u8>>) -> Result<Stat, Error> {
    let found = stat(calls, path)?;
    if found.is_dir {
        let names = read_dir(calls, path)?;
        left.extend(names.iter().rev().map(|name| below(path, name)));
    }
    Ok(found)
}

fn below(path: &[u8], name: &[u8]) -> Vec<u8> {
    let path = path.strip_suffix(b"/").unwrap_or(path);
    [path, b"/", name].concat()
}

/// Removes a directory with all below it.
pub(crate) fn remove_dir_all(calls: &mut impl Calls, path: &[u8]) -> Result<(), Error> {
    let came = calls.call(&Call::Rmdir(path));
    if !failed(&came, Errno::ENOTEMPTY) {
        return came.map(|_| ());
    }
    for entry in walk(calls, path)?.iter().rev() {
        let at = entry.path.as_os_str().as_bytes();
        let call = if entry.stat.is_dir { Call::Rmdir(at) } else { Call::Unlink(at) };
        let came = calls.call(&call);
        if !failed(&came, Errno::ENOENT) {
            came?;
        }
    }
    Ok(())
}
