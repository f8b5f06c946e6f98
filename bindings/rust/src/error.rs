//! Errors of calls, and what else the library refuses.

use std::ffi::OsStr;
use std::fmt;
use std::io;
use std::os::unix::ffi::OsStrExt;
use std::path::{Path, PathBuf};

use crate::call::{Call, Seat};
use crate::ffi;
use crate::limits::{Limits, LISTED};

/// The error of a call, with Linux's number.
#[derive(Clone, Copy, Debug, PartialEq, Eq, Hash)]
pub enum Errno {
    /// Not permitted: an unlink of a directory.
    EPERM = 1,
    /// No such file or directory.
    ENOENT = 2,
    /// The root can't be moved or removed.
    EBUSY = 16,
    /// It exists.
    EEXIST = 17,
    /// Not a directory.
    ENOTDIR = 20,
    /// A directory.
    EISDIR = 21,
    /// A directory below itself.
    EINVAL = 22,
    /// A file would pass its limit.
    EFBIG = 27,
    /// A directory has as many entries as it may have.
    ENOSPC = 28,
    /// A directory that is not empty.
    ENOTEMPTY = 39,
    /// A directory has more names than one call returns.
    EOVERFLOW = 75,
}

impl Errno {
    const ALL: [Errno; 11] = [
        Errno::EPERM,
        Errno::ENOENT,
        Errno::EBUSY,
        Errno::EEXIST,
        Errno::ENOTDIR,
        Errno::EISDIR,
        Errno::EINVAL,
        Errno::EFBIG,
        Errno::ENOSPC,
        Errno::ENOTEMPTY,
        Errno::EOVERFLOW,
    ];

    /// The operating system's number.
    pub fn number(self) -> i32 {
        self as i32
    }
}

/// Why bytes are not a path: the first check that they fail.
#[derive(Clone, Copy, Debug, PartialEq, Eq, Hash)]
pub enum PathFault {
    /// It is empty, or its first byte is not a slash.
    NotAbsolute,
    /// It has a byte 0.
    Nul,
    /// A name has more bytes than the limits allow.
    NameTooLong,
    /// It has more names than the limits allow.
    TooManyNames,
    /// A name is `.` or `..`.
    Dot,
    /// It has a name, and a slash at its end.
    TrailingSlash,
}

impl PathFault {
    const ALL: [(u8, PathFault); 6] = [
        (ffi::PATH_NOT_ABSOLUTE, PathFault::NotAbsolute),
        (ffi::PATH_NUL, PathFault::Nul),
        (ffi::PATH_NAME_TOO_LONG, PathFault::NameTooLong),
        (ffi::PATH_TOO_MANY_NAMES, PathFault::TooManyNames),
        (ffi::PATH_DOT, PathFault::Dot),
        (ffi::PATH_TRAILING_SLASH, PathFault::TrailingSlash),
    ];

    fn status(self) -> u8 {
        let found = PathFault::ALL.into_iter().find(|(_, fault)| *fault == self);
        found.map_or(ffi::BAD_PATH, |(status, _)| status)
    }
}

/// Why a call or a question failed: its kind, and the path that it is about. After the kinds `Waits`, `TimedOut` and
/// `Untold` the call has begun. After every other kind nothing has changed, except that a failed call is in the
/// journal.
///
/// ```
/// use atomfs::{Errno, ErrorKind, PathFault, Tree};
///
/// let error = Tree::new()?.mknod("/a/f").unwrap_err();
/// assert_eq!(error, ErrorKind::Failed(Errno::ENOENT));
/// assert_eq!(error.path(), Some("/a/f".as_ref()));
/// let error = Tree::new()?.mkdir("/a/").unwrap_err();
/// assert_eq!(error, ErrorKind::BadPath(PathFault::TrailingSlash));
/// # Ok::<(), atomfs::Error>(())
/// ```
#[derive(Clone, Debug, PartialEq, Eq, Hash)]
pub struct Error {
    kind: ErrorKind,
    paths: Option<Box<(PathBuf, Option<PathBuf>)>>,
    holders: Option<Box<str>>,
}

impl Error {
    /// Its kind.
    pub fn kind(&self) -> ErrorKind {
        self.kind
    }

    /// The error of the call, if a call failed.
    pub fn errno(&self) -> Option<Errno> {
        match self.kind {
            ErrorKind::Failed(errno) => Some(errno),
            _ => None,
        }
    }

    /// The path of the call. Of two paths it is the first, unless the second one is not a path.
    pub fn path(&self) -> Option<&Path> {
        self.paths.as_deref().map(|paths| paths.0.as_path())
    }

    /// The second path of a rename or an exchange that failed.
    pub fn other_path(&self) -> Option<&Path> {
        self.paths.as_deref()?.1.as_deref()
    }

    /// Who held what when a wait on a shared tree was given up: a line for each call that was pending.
    pub fn holders(&self) -> Option<&str> {
        self.holders.as_deref()
    }

    pub(crate) fn with_holders(self, holders: String) -> Error {
        Error { holders: Some(holders.into()), ..self }
    }

    /// The error of a call with its paths. If memory ran out it takes none.
    pub(crate) fn of_call(kind: ErrorKind, (path, other): (&[u8], Option<&[u8]>)) -> Error {
        let paths = match kind {
            ErrorKind::OutOfMemory | ErrorKind::Untold(_) => None,
            _ => Some(Box::new((owned(path), other.map(owned)))),
        };
        Error { kind, paths, holders: None }
    }

    /// The error of a call on one path.
    pub(crate) fn at(kind: ErrorKind, path: &[u8]) -> Error {
        Error::of_call(kind, (path, None))
    }

    /// The error of a status by which a call did not begin, or failed. Of a path that is none it says why.
    pub(crate) fn of_refused(status: u8, number: u64, call: &Call, limits: Limits) -> Error {
        let (path, other) = call.paths();
        if status == ffi::BAD_PATH {
            for path in [path].into_iter().chain(other).chain(call.after()) {
                // SAFETY: the path is a slice with its length.
                let fault = unsafe { ffi::atomfs_check_path(path.as_ptr(), path.len(), limits as u8) };
                if fault != ffi::OK {
                    return Error::at(ErrorKind::of(fault, 0), path);
                }
            }
        }
        Error::of_call(ErrorKind::of(status, number), (path, other))
    }

    /// The error of a status.
    pub(crate) fn of(status: u8, about: u64) -> Error {
        ErrorKind::of(status, about).into()
    }

    /// The error of a text.
    pub(crate) fn of_text(status: u8, line: usize) -> Error {
        let kind = match status {
            ffi::NO_MEMORY => ErrorKind::OutOfMemory,
            ffi::UNDER_WAY => ErrorKind::UnderWay(line as u64),
            ffi::NO_CALL => ErrorKind::NoCall,
            ffi::BAD_CHOICE => ErrorKind::BadChoice,
            _ => ErrorKind::BadText(status, line),
        };
        kind.into()
    }
}

fn owned(path: &[u8]) -> PathBuf {
    PathBuf::from(OsStr::from_bytes(path))
}

impl From<ErrorKind> for Error {
    fn from(kind: ErrorKind) -> Error {
        Error { kind, paths: None, holders: None }
    }
}

impl PartialEq<ErrorKind> for Error {
    fn eq(&self, kind: &ErrorKind) -> bool {
        self.kind == *kind
    }
}

impl fmt::Display for Error {
    fn fmt(&self, f: &mut fmt::Formatter<'_>) -> fmt::Result {
        if let Some(path) = self.path() {
            write!(f, "{path:?}")?;
            if let Some(other) = self.other_path() {
                write!(f, ", {other:?}")?;
            }
            f.write_str(": ")?;
        }
        self.kind.fmt(f)?;
        match &self.holders {
            Some(holders) => write!(f, ": {}", holders.trim_end().replace('\n', "; ")),
            None => Ok(()),
        }
    }
}

impl std::error::Error for Error {}

/// The kind of an error.
#[derive(Clone, Copy, Debug, PartialEq, Eq, Hash)]
#[non_exhaustive]
pub enum ErrorKind {
    /// The call returned with an error.
    Failed(Errno),
    /// The call is pending on this seat, since a call of another seat holds the node that it wants next. `Tree::step`
    /// or `Tree::finish` goes on with it.
    Waits(Seat),
    /// On a shared tree: the call of this number waited as long as it may, and is pending. With 0, no call began.
    TimedOut(u64),
    /// The call of this number returned, but memory for its reply ran out.
    Untold(u64),
    /// The call of this number is pending, and none may be.
    UnderWay(u64),
    /// The bytes are not a path.
    BadPath(PathFault),
    /// The call needs a node, and all are in use; or a tree has more nodes than it may have.
    Full,
    /// Out of memory.
    OutOfMemory,
    /// The limit is 0, or above `Limits::nodes`.
    BadLimit,
    /// There is no such seat, or its session has ended.
    NoSeat,
    /// The seat is of another tree.
    ForeignSeat,
    /// The seat has a pending call.
    SeatBusy,
    /// The last call of the seat has not returned, or none was begun since the last checkpoint.
    NoReply,
    /// The text is not a script, a journal or a tree: the status and the line. With line 0 the output would be too
    /// large.
    BadText(u8, usize),
    /// No call has the number that is to be drawn.
    NoCall,
    /// The number of runs, their seed, the limit of a search or the word of a fault is not a valid one.
    BadChoice,
    /// The options to open a file by contradict each other, or ask for no access.
    BadOptions,
    /// Another status of the library.
    Other(u8),
}

impl ErrorKind {
    /// The error of a status. `about` is the number of a call, or the line of a text.
    fn of(status: u8, about: u64) -> ErrorKind {
        if let Some(number) = status.checked_sub(ffi::FAILED) {
            let errno = Errno::ALL.into_iter().find(|errno| errno.number() == i32::from(number));
            return errno.map_or(ErrorKind::Other(status), ErrorKind::Failed);
        }
        let fault = PathFault::ALL.into_iter().find(|(of, _)| *of == status);
        if let Some((_, fault)) = fault {
            return ErrorKind::BadPath(fault);
        }
        match status {
            ffi::UNTOLD => ErrorKind::Untold(about),
            ffi::BAD_LIMIT => ErrorKind::BadLimit,
            ffi::NO_MEMORY => ErrorKind::OutOfMemory,
            ffi::NO_SEAT => ErrorKind::NoSeat,
            ffi::SEAT_BUSY => ErrorKind::SeatBusy,
            ffi::FULL => ErrorKind::Full,
            ffi::NO_REPLY => ErrorKind::NoReply,
            ffi::UNDER_WAY => ErrorKind::UnderWay(about),
            ffi::BAD_CHOICE => ErrorKind::BadChoice,
            _ => ErrorKind::Other(status),
        }
    }

    fn status(self) -> u8 {
        match self {
            ErrorKind::Failed(errno) => ffi::FAILED + errno as u8,
            ErrorKind::Waits(_) | ErrorKind::TimedOut(_) => ffi::WAITS,
            ErrorKind::Untold(_) => ffi::UNTOLD,
            ErrorKind::BadLimit => ffi::BAD_LIMIT,
            ErrorKind::OutOfMemory => ffi::NO_MEMORY,
            ErrorKind::NoSeat => ffi::NO_SEAT,
            ErrorKind::SeatBusy => ffi::SEAT_BUSY,
            ErrorKind::Full => ffi::FULL,
            ErrorKind::NoReply => ffi::NO_REPLY,
            ErrorKind::NoCall => ffi::NO_CALL,
            ErrorKind::BadChoice => ffi::BAD_CHOICE,
            ErrorKind::UnderWay(_) => ffi::UNDER_WAY,
            ErrorKind::BadPath(fault) => fault.status(),
            // The library has no status for these.
            ErrorKind::BadOptions | ErrorKind::ForeignSeat => ffi::OK,
            ErrorKind::BadText(status, _) | ErrorKind::Other(status) => status,
        }
    }
}

impl fmt::Display for ErrorKind {
    fn fmt(&self, f: &mut fmt::Formatter<'_>) -> fmt::Result {
        if let ErrorKind::Failed(errno) = self {
            write!(f, "{}", io::Error::from_raw_os_error(errno.number()))?;
            return limit_of(*errno).map_or(Ok(()), |limit| write!(f, ": {limit}"));
        }
        // SAFETY: it takes a number and answers a constant.
        let words = ffi::words(unsafe { ffi::atomfs_status_text(self.status()) });
        match self {
            ErrorKind::BadText(_, 0) => f.write_str(words),
            ErrorKind::BadText(status, line) => match kind_of(*status) {
                Some(kind) => write!(f, "line {line}: {kind}: {words}"),
                None => write!(f, "line {line}: {words}"),
            },
            ErrorKind::BadOptions => {
                f.write_str("the options to open a file by contradict each other, or ask for no access")
            }
            ErrorKind::ForeignSeat => f.write_str("the seat is of another tree"),
            ErrorKind::TimedOut(0) => f.write_str("no call began, since the wait took too long"),
            ErrorKind::TimedOut(number) => write!(f, "call {number} waited for too long, and is pending"),
            ErrorKind::Untold(number) | ErrorKind::UnderWay(number) => {
                write!(f, "call {number}: {words}")
            }
            _ => f.write_str(words),
        }
    }
}

/// The limit that an error of a call is about.
fn limit_of(errno: Errno) -> Option<String> {
    match errno {
        Errno::ENOSPC => Some(format!(
            "the directory has {} entries, or {} by the third limits",
            Limits::V1.entries(),
            Limits::V3.entries()
        )),
        Errno::EFBIG => Some(format!(
            "the file would have more than {} bytes by the first limits, {} by the second or {} by the third",
            Limits::V1.file_bytes(),
            Limits::V2.file_bytes(),
            Limits::V3.file_bytes()
        )),
        Errno::EOVERFLOW => Some(format!("the directory has more than {LISTED} entries")),
        _ => None,
    }
}

/// The word that the program `atomfs` has for the fault of a text.
fn kind_of(status: u8) -> Option<&'static str> {
    let kinds = [
        "BadHeader",
        "BadLine",
        "BadThread",
        "ThreadTwice",
        "BadPath",
        "BadNumber",
        "BadHex",
        "NoSchedule",
        "BadWord",
        "TooLarge",
        "BadReply",
        "BadStart",
    ];
    kinds.get(usize::from(status.checked_sub(ffi::BAD_HEADER)?)).copied()
}

impl From<Error> for io::Error {
    fn from(error: Error) -> io::Error {
        match error.kind {
            ErrorKind::Failed(errno) => io::Error::from_raw_os_error(errno.number()),
            ErrorKind::Full => io::Error::from_raw_os_error(Errno::ENOSPC.number()),
            ErrorKind::BadPath(_) | ErrorKind::BadLimit | ErrorKind::BadText(..) | ErrorKind::BadOptions => {
                io::Error::new(io::ErrorKind::InvalidInput, error)
            }
            ErrorKind::OutOfMemory | ErrorKind::Untold(_) => io::Error::new(io::ErrorKind::OutOfMemory, error),
            ErrorKind::Waits(_) => io::Error::new(io::ErrorKind::WouldBlock, error),
            ErrorKind::TimedOut(_) => io::Error::new(io::ErrorKind::TimedOut, error),
            _ => io::Error::new(io::ErrorKind::Other, error),
        }
    }
}
