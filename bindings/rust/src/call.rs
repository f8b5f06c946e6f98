//! Calls that are begun by themselves, and what comes of them.

use crate::ffi::Request;
use crate::path::AsPath;

/// What is at a path: a directory and how many entries it has, or a file and how many bytes.
#[derive(Clone, Copy, Debug, PartialEq, Eq)]
pub struct Stat {
    /// Whether it is a directory.
    pub is_dir: bool,
    /// How many entries, or how many bytes.
    pub size: u64,
}

/// A slot for one pending call. Only the tree that made it takes it. When a session has ended, `ErrorKind::NoSeat`
/// refuses its seat, though another session may have the number by then.
#[derive(Clone, Copy, Debug, PartialEq, Eq, Hash)]
pub struct Seat {
    /// The number of its tree, which no other tree of the process has.
    pub(crate) tree: u64,
    pub(crate) number: u64,
    /// How many sessions that had the number have ended before.
    pub(crate) turn: u64,
}

impl Seat {
    /// Its number in the journal: 0, 1, 2 and so on. The tree's own calls have a seat too, which is the first.
    pub fn number(self) -> u64 {
        self.number
    }
}

/// What a step did. Nodes and calls are named by their numbers.
#[derive(Clone, Copy, Debug, PartialEq, Eq)]
pub enum Did {
    /// Nothing: the seat has no pending call.
    Idle,
    /// The call locked this node.
    Took(u64),
    /// It would lock a node that this call holds.
    WaitsFor(u64),
    /// It unlocked this node.
    LetGo(u64),
    /// It helped this call, which has committed now.
    Helped(u64),
    /// It committed: it has its place in the order, and made its change.
    Committed,
    /// It had been helped before, and now made its change.
    CarriedOut,
    /// It returned.
    Returned,
    /// It began: this is its number. No step does so, but a gate is called with it.
    Began(u64),
}

impl Did {
    pub(crate) fn of(did: u8, about: u64) -> Did {
        match did {
            1 => Did::Took(about),
            2 => Did::WaitsFor(about),
            3 => Did::LetGo(about),
            4 => Did::Helped(about),
            5 => Did::Committed,
            6 => Did::CarriedOut,
            7 => Did::Returned,
            8 => Did::Began(about),
            _ => Did::Idle,
        }
    }
}

/// A call: its constructors have the names of the methods of [`Tree`](crate::Tree).
#[derive(Clone, Copy, Debug, PartialEq, Eq)]
pub enum Call<'a> {
    /// Makes an empty directory.
    Mkdir(&'a [u8]),
    /// Makes an empty file.
    Mknod(&'a [u8]),
    /// Removes the entry of a file.
    Unlink(&'a [u8]),
    /// Removes the entry of an empty directory.
    Rmdir(&'a [u8]),
    /// Moves what is at the first path to the second.
    Rename(&'a [u8], &'a [u8]),
    /// Exchanges what is at two paths.
    Exchange(&'a [u8], &'a [u8]),
    /// Returns what is at a path.
    Stat(&'a [u8]),
    /// Returns the names of a directory.
    Readdir(&'a [u8]),
    /// Returns the names of a directory after the last name of the second path, at most so many.
    List(&'a [u8], &'a [u8], u32),
    /// Reads at most so many bytes from an offset on.
    Read(&'a [u8], u64, u64),
    /// Writes bytes into a file at an offset.
    Write(&'a [u8], u64, &'a [u8]),
    /// Cuts a file to a size, or adds zeros up to it.
    Truncate(&'a [u8], u64),
}

impl<'a> Call<'a> {
    /// Makes an empty directory.
    pub fn mkdir(path: &'a (impl AsPath + ?Sized)) -> Self {
        Call::Mkdir(path.path_bytes())
    }

    /// Makes an empty file.
    pub fn mknod(path: &'a (impl AsPath + ?Sized)) -> Self {
        Call::Mknod(path.path_bytes())
    }

    /// Removes the entry of a file.
    pub fn unlink(path: &'a (impl AsPath + ?Sized)) -> Self {
        Call::Unlink(path.path_bytes())
    }

    /// Removes the entry of an empty directory.
    pub fn rmdir(path: &'a (impl AsPath + ?Sized)) -> Self {
        Call::Rmdir(path.path_bytes())
    }

    /// Moves what is at the first path to the second.
    pub fn rename(path: &'a (impl AsPath + ?Sized), other: &'a (impl AsPath + ?Sized)) -> Self {
        Call::Rename(path.path_bytes(), other.path_bytes())
    }

    /// Exchanges what is at two paths.
    pub fn exchange(path: &'a (impl AsPath + ?Sized), other: &'a (impl AsPath + ?Sized)) -> Self {
        Call::Exchange(path.path_bytes(), other.path_bytes())
    }

    /// Returns what is at a path.
    pub fn stat(path: &'a (impl AsPath + ?Sized)) -> Self {
        Call::Stat(path.path_bytes())
    }

    /// Returns the names of a directory.
    pub fn readdir(path: &'a (impl AsPath + ?Sized)) -> Self {
        Call::Readdir(path.path_bytes())
    }

    /// Returns the names of a directory after the last name of `after`, or from the first on if that is the root: at
    /// most `count`, and at most 256. Only a tree with [`Limits::V3`](crate::Limits::V3) has it.
    pub fn list(path: &'a (impl AsPath + ?Sized), after: &'a (impl AsPath + ?Sized), count: u32) -> Self {
        Call::List(path.path_bytes(), after.path_bytes(), count)
    }

    /// Reads at most so many bytes from an offset on.
    pub fn read(path: &'a (impl AsPath + ?Sized), offset: u64, count: u64) -> Self {
        Call::Read(path.path_bytes(), offset, count)
    }

    /// Writes bytes into a file at an offset.
    pub fn write(path: &'a (impl AsPath + ?Sized), offset: u64, bytes: &'a (impl AsRef<[u8]> + ?Sized)) -> Self {
        Call::Write(path.path_bytes(), offset, bytes.as_ref())
    }

    /// Cuts a file to a size, or adds zeros up to it.
    pub fn truncate(path: &'a (impl AsPath + ?Sized), size: u64) -> Self {
        Call::Truncate(path.path_bytes(), size)
    }

    /// The request of C's, which borrows what this call borrows.
    pub(crate) fn request(&self) -> Request {
        let none: &[u8] = &[];
        let (call, path, other, offset, size, bytes) = match *self {
            Call::Mkdir(path) => (0, path, none, 0, 0, none),
            Call::Mknod(path) => (1, path, none, 0, 0, none),
            Call::Unlink(path) => (2, path, none, 0, 0, none),
            Call::Rmdir(path) => (3, path, none, 0, 0, none),
            Call::Rename(path, other) => (4, path, other, 0, 0, none),
            Call::Exchange(path, other) => (5, path, other, 0, 0, none),
            Call::Stat(path) => (6, path, none, 0, 0, none),
            Call::Readdir(path) => (7, path, none, 0, 0, none),
            Call::Read(path, offset, count) => (8, path, none, offset, count, none),
            Call::Write(path, offset, bytes) => (9, path, none, offset, 0, bytes),
            Call::Truncate(path, size) => (10, path, none, 0, size, none),
            Call::List(path, after, count) => (11, path, after, 0, u64::from(count), none),
        };
        Request {
            call,
            path: path.as_ptr(),
            length: path.len(),
            other: other.as_ptr(),
            other_length: other.len(),
            offset,
            size,
            bytes: bytes.as_ptr(),
            bytes_length: bytes.len(),
        }
    }

    /// The path after whose last name a list begins; none of another call.
    pub(crate) fn after(&self) -> Option<&'a [u8]> {
        match *self {
            Call::List(_, after, _) => Some(after),
            _ => None,
        }
    }

    /// Its path, and the second one of a rename or an exchange.
    pub(crate) fn paths(&self) -> (&'a [u8], Option<&'a [u8]>) {
        match *self {
            Call::Rename(path, other) | Call::Exchange(path, other) => (path, Some(other)),
            Call::Mkdir(path)
            | Call::Mknod(path)
            | Call::Unlink(path)
            | Call::Rmdir(path)
            | Call::Stat(path)
            | Call::Readdir(path)
            | Call::List(path, ..)
            | Call::Read(path, ..)
            | Call::Write(path, ..)
            | Call::Truncate(path, _) => (path, None),
        }
    }

    /// Which reply its return has.
    pub(crate) fn kind(&self) -> Kind {
        match self {
            Call::Stat(_) => Kind::Stat,
            Call::Readdir(_) | Call::List(..) => Kind::Names,
            Call::Read(..) => Kind::Bytes,
            Call::Write(..) => Kind::Wrote,
            _ => Kind::Done,
        }
    }
}

/// The kind of a reply.
#[derive(Clone, Copy, Debug, Default, PartialEq, Eq)]
pub(crate) enum Kind {
    #[default]
    Done,
    Stat,
    Names,
    Bytes,
    Wrote,
}

/// The reply of a call that did not fail.
#[derive(Clone, Debug, PartialEq, Eq)]
pub enum Reply {
    /// It is done.
    Done,
    /// What is at the path.
    Stat(Stat),
    /// The names, in byte order.
    Names(Vec<Vec<u8>>),
    /// The bytes.
    Bytes(Vec<u8>),
    /// How many bytes were written.
    Wrote(u64),
}
