//! What the library finds of histories: an order of their calls, or the first return up to which none explains them.

use crate::error::Error;
use crate::ffi;
use crate::texts::{ascii, told_in, ROOM};
use std::fmt;

/// So many configurations are made if no limit is given.
const CONFIGURATIONS: u64 = 1_000_000;

/// The result for a history. As text it is the verdict: `lawful`, `none 3 2`, `fault 3 SeatBusy`, `unknown 3`.
#[derive(Clone, Debug, PartialEq, Eq)]
pub enum Linearized {
    /// An order of the calls explains the history: a journal, which is the history with its commits.
    /// [`check`](crate::check) says that it is lawful.
    Lawful(String),
    /// No order explains the entries up to this place, but one explains those before it.
    NoOrder {
        /// The place of a return, counted from 1.
        place: u64,
        /// The number of the call that returns there.
        call: u64,
        /// What this entry says, with its line, and which call it is. A second line has what the call could have
        /// replied. If the replies of later lines exclude an earlier entry, a third line has that entry.
        words: String,
    },
    /// The entry at this place is the first that cannot come next.
    NoHistory {
        /// Its place, counted from 1.
        place: u64,
        /// Why, for example `SeatBusy`.
        kind: String,
        /// What it says, with its line, and which call it is.
        words: String,
    },
    /// The limit was reached. With a larger one the search goes on.
    Unknown {
        /// The place of the entry to which the search had come, counted from 1.
        place: u64,
    },
}

impl fmt::Display for Linearized {
    fn fmt(&self, f: &mut fmt::Formatter<'_>) -> fmt::Result {
        match self {
            Linearized::Lawful(_) => f.write_str("lawful"),
            Linearized::NoOrder { place, call, .. } => write!(f, "none {place} {call}"),
            Linearized::NoHistory { place, kind, .. } => write!(f, "fault {place} {kind}"),
            Linearized::Unknown { place } => write!(f, "unknown {place}"),
        }
    }
}

/// An order in which the calls of a history took effect, or the first return up to which no order explains the
/// entries.
///
/// A history is a journal without its lines `commit`, in which `return 3 failed ?` fits any error of call 3, and
/// `return 3 stat dir ?` any number of entries. The search makes at most `limit` configurations: 1 to 1,000,000,000,
/// and 1,000,000 with `None`. `ErrorKind::BadText` has the line at which the text is not a history.
/// `ErrorKind::BadChoice` says that there is no such limit.
///
/// ```
/// use atomfs::Linearized;
/// let begun = "atomfs-journal 1\nbegin 1 0 stat /a\nbegin 2 1 mkdir /a\nreturn 2 ok\n";
/// let found = atomfs::linearize(format!("{begun}return 1 failed ?\n"), None)?;
/// match found {
///     Linearized::Lawful(journal) => assert_eq!(atomfs::check(journal)?, "lawful"),
///     other => panic!("{other}"),
/// }
/// let found = atomfs::linearize(format!("{begun}return 1 stat file 0\n"), None)?;
/// assert_eq!(found.to_string(), "none 4 1");
/// # Ok::<(), atomfs::Error>(())
/// ```
pub fn linearize(history: impl AsRef<[u8]>, limit: Option<u64>) -> Result<Linearized, Error> {
    let (found, told) = found(history.as_ref(), limit, ffi::TELL_WORDS)?;
    if found == ffi::FOUND_LAWFUL {
        return Ok(Linearized::Lawful(ascii(&told)));
    }
    // The entry is in the words as it was given.
    let told = String::from_utf8_lossy(&told);
    let (line, words) = told.split_once('\n').unwrap_or_default();
    let mut line = line.split(' ').skip(1);
    let place = number(line.next());
    let about = line.next();
    let words = words.trim_end_matches('\n').to_owned();
    Ok(match found {
        ffi::FOUND_NO_ORDER => Linearized::NoOrder { place, call: number(about), words },
        ffi::FOUND_NO_HISTORY => Linearized::NoHistory { place, kind: about.unwrap_or_default().to_owned(), words },
        _ => Linearized::Unknown { place },
    })
}

/// A journal up to the return that [`linearize`] names, for [`draw`](crate::draw): one that explains all entries before
/// it. `None` if [`linearize`] finds something else, or the limit is reached.
///
/// ```
/// use atomfs::{draw, front, Schedule};
/// let history = "atomfs-journal 1\nbegin 1 0 mkdir /a\nreturn 1 failed ?\n";
/// let journal = front(history, None)?.expect("nothing explains it");
/// assert!(draw(journal, Schedule::Given, None)?.starts_with("<svg "));
/// # Ok::<(), atomfs::Error>(())
/// ```
pub fn front(history: impl AsRef<[u8]>, limit: Option<u64>) -> Result<Option<String>, Error> {
    let (found, told) = found(history.as_ref(), limit, ffi::TELL_FRONT)?;
    let is_front = found == ffi::FOUND_NO_ORDER && !told.starts_with(b"none ");
    Ok(is_front.then(|| ascii(&told)))
}

/// The result for a history, and the library's text on it.
fn found(history: &[u8], limit: Option<u64>, tell: u8) -> Result<(u8, Vec<u8>), Error> {
    let mut found = 0;
    let limit = limit.unwrap_or(CONFIGURATIONS);
    // A journal that explains a history is hardly ever twice as long, so no search is made once more for want of room.
    // SAFETY: the history is a slice with its length, and `told_in` gives a room with its length.
    let told = told_in(ROOM + 2 * history.len(), |out, room, count| unsafe {
        ffi::atomfs_linearize(history.as_ptr(), history.len(), limit, tell, out, room, count, &mut found)
    })?;
    Ok((found, told))
}

/// A number of the library.
fn number(word: Option<&str>) -> u64 {
    word.and_then(|word| word.parse().ok()).unwrap_or_default()
}
