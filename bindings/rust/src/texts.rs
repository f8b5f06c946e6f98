//! What the library makes of scripts and journals.

use crate::error::Error;
use crate::ffi::{self, OK, TOO_SMALL};

/// Room for the names of a full directory, and for the bytes of most files and texts. For more it becomes longer.
pub(crate) const ROOM: usize = 65_536;

/// The schedule with which a script runs.
#[derive(Clone, Copy, Debug, Default, PartialEq, Eq, Hash)]
pub enum Schedule {
    /// The script's own.
    #[default]
    Given,
    /// One event of each thread in turn.
    RoundRobin,
    /// Threads at random, from this seed.
    Seeded(u64),
}

impl Schedule {
    /// The two numbers that the library knows it by.
    fn numbers(self) -> (u8, u64) {
        match self {
            Schedule::Given => (0, 0),
            Schedule::RoundRobin => (1, 0),
            Schedule::Seeded(seed) => (2, seed),
        }
    }
}

/// The library's texts are ASCII: names are percent-encoded.
pub(crate) fn ascii(bytes: &[u8]) -> String {
    String::from_utf8_lossy(bytes).into_owned()
}

/// The verdict on a journal: `lawful`, or the first entry at fault. `ErrorKind::BadText` has the line at which the text
/// is not a journal.
///
/// ```
/// assert_eq!(atomfs::check("atomfs-journal 1\n")?, "lawful");
/// let error = atomfs::check("no journal").unwrap_err();
/// assert!(matches!(error.kind(), atomfs::ErrorKind::BadText(_, 1)));
/// # Ok::<(), atomfs::Error>(())
/// ```
pub fn check(journal: impl AsRef<[u8]>) -> Result<String, Error> {
    Ok(of_text(ffi::atomfs_check, journal.as_ref())?.trim_end().to_string())
}

/// Runs a script with its own schedule, and returns the journal, the tree and the counts. `ErrorKind::BadText` has the
/// line at which the text is not a script.
///
/// ```
/// let ran = atomfs::run("atomfs 1\nschedule\nfinish\n")?;
/// assert!(ran.ends_with("begun 0 committed 0 returned 0\n"));
/// # Ok::<(), atomfs::Error>(())
/// ```
pub fn run(script: impl AsRef<[u8]>) -> Result<String, Error> {
    of_text(ffi::atomfs_run, script.as_ref())
}

/// What each event of a script's run did, in words. With `every`, idle turns and repeated waits have a line too.
///
/// ```
/// use atomfs::Schedule;
/// let trace = atomfs::trace("atomfs 1\nthread t\nmkdir /a\nschedule\nfinish\n", Schedule::Given, false)?;
/// assert!(trace.starts_with("atomfs-trace 2\nthread t\n"));
/// # Ok::<(), atomfs::Error>(())
/// ```
pub fn trace(script: impl AsRef<[u8]>, by: Schedule, every: bool) -> Result<String, Error> {
    let (script, (schedule, seed)) = (script.as_ref(), by.numbers());
    // SAFETY: the text is a slice with its length, and `told` gives a room with its length.
    let told = told(|out, room, count| unsafe {
        let every = u8::from(every);
        ffi::atomfs_trace(script.as_ptr(), script.len(), schedule, seed, every, out, room, count)
    })?;
    Ok(ascii(&told))
}

/// A picture of a script's run, or of a journal, as an SVG file. It has all calls, or the call of a number and those
/// that overlap it. `ErrorKind::NoCall` if there is no such call.
///
/// ```
/// let mut tree = atomfs::Tree::new()?;
/// tree.mkdir("/a")?;
/// let picture = atomfs::draw(tree.journal()?, atomfs::Schedule::Given, None)?;
/// assert!(picture.starts_with("<svg "));
/// # Ok::<(), atomfs::Error>(())
/// ```
pub fn draw(text: impl AsRef<[u8]>, by: Schedule, around: Option<u64>) -> Result<String, Error> {
    let (text, (schedule, seed)) = (text.as_ref(), by.numbers());
    // SAFETY: the text is a slice with its length, and `told` gives a room with its length.
    let told = told(|out, room, count| unsafe {
        let around = around.unwrap_or(ffi::WHOLE);
        ffi::atomfs_draw(text.as_ptr(), text.len(), schedule, seed, around, out, room, count)
    })?;
    Ok(ascii(&told))
}

/// A script with the events of its run as its schedule, so that [`run`] makes the same run again. It is bytes, since
/// comments stay as they are. `ErrorKind::BadText` with line 0 if the events are too many for a script.
pub fn schedule(script: impl AsRef<[u8]>, by: Schedule) -> Result<Vec<u8>, Error> {
    let (script, (schedule, seed)) = (script.as_ref(), by.numbers());
    // SAFETY: the text is a slice with its length, and `told` gives a room with its length.
    told(|out, room, count| unsafe {
        let length = script.len();
        ffi::atomfs_schedule(script.as_ptr(), length, schedule, seed, out, room, count)
    })
}

/// The verdicts on runs of a script, each after its seed. The first run has the seed `seed`, and each other the next
/// number. `ErrorKind::BadChoice` if `runs` is not 1 to 10,000, or `seed` is 2^63 or more.
pub fn seeds(script: impl AsRef<[u8]>, seed: u64, runs: u64) -> Result<Vec<(u64, String)>, Error> {
    let script = script.as_ref();
    // SAFETY: the text is a slice with its length, and `told` gives a room with its length.
    let told = told(|out, room, count| unsafe {
        ffi::atomfs_seeds(script.as_ptr(), script.len(), seed, runs, out, room, count)
    })?;
    let of_line = |line: &str| {
        let mut words = line.splitn(3, ' ').skip(1);
        let number = words.next().and_then(|word| word.parse().ok());
        (number.unwrap_or_default(), words.next().unwrap_or_default().to_owned())
    };
    Ok(ascii(&told).lines().map(of_line).collect())
}

/// What the word of a fault means, for example `BadHex` or `WrongReply`, and what to write instead.
/// `ErrorKind::BadChoice` if there is no such word.
///
/// ```
/// assert!(atomfs::explain("BadHex")?.starts_with("BadHex: "));
/// # Ok::<(), atomfs::Error>(())
/// ```
pub fn explain(word: impl AsRef<[u8]>) -> Result<String, Error> {
    of_text(ffi::atomfs_explain, word.as_ref())
}

type OfText = unsafe extern "C" fn(*const u8, usize, *mut u8, usize, *mut usize) -> u8;

fn of_text(function: OfText, given: &[u8]) -> Result<String, Error> {
    // SAFETY: the text is a slice with its length, and `told` gives a room with its length.
    let told = told(|out, room, count| unsafe { function(given.as_ptr(), given.len(), out, room, count) })?;
    Ok(ascii(&told))
}

/// The bytes that a function writes, with as much room as they need.
pub(crate) fn told(ask: impl FnMut(*mut u8, usize, *mut usize) -> u8) -> Result<Vec<u8>, Error> {
    told_in(ROOM, ask)
}

/// The same with so much room at first.
pub(crate) fn told_in(room: usize, mut ask: impl FnMut(*mut u8, usize, *mut usize) -> u8) -> Result<Vec<u8>, Error> {
    let mut out = vec![0; room];
    loop {
        let mut count = 0;
        match ask(out.as_mut_ptr(), out.len(), &mut count) {
            OK => {
                out.truncate(count);
                return Ok(out);
            }
            TOO_SMALL => out.resize(count, 0),
            status => return Err(Error::of_text(status, count)),
        }
    }
}
