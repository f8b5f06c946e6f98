//! Pages that play a run event by event.

use std::collections::BTreeMap;
use std::fs;
use std::panic::Location;

use crate::error::Error;
use crate::explore::place_of;
use crate::texts::{check, draw, trace, Schedule};

/// The page without a run, which Python's package has too. In place of the words `@PICTURE@` and `@RUN@` come the run's
/// picture, which is seen if scripts are off, and its text.
const PAGE: &str = include_str!(concat!(env!("OUT_DIR"), "/run.html"));
const PICTURE: &str = "@PICTURE@\n";
const RUN: &str = "@RUN@";
/// So many characters of a line of source are shown.
const SHOWN: usize = 200;

/// A page that plays a run event by event in a browser: a script with a schedule, or a journal. It is one HTML file in
/// ASCII, which needs no network and no other file. `docs/PLAYER.md` says what it shows. `ErrorKind::BadText` has the
/// line at which the text is neither.
///
/// ```
/// use atomfs::Schedule;
///
/// let script = "atomfs 1\nthread t\nmkdir /a\nschedule\nfinish\n";
/// let page = atomfs::page(script, Schedule::Given)?;
/// assert!(page.starts_with("<!DOCTYPE html>") && page.contains("mkdir /a"));
/// # Ok::<(), atomfs::Error>(())
/// ```
pub fn page(text: impl AsRef<[u8]>, by: Schedule) -> Result<String, Error> {
    page_with(text.as_ref(), by, "")
}

/// The page of a text, with notes on it, each a line that begins with `# `.
pub(crate) fn page_with(text: &[u8], by: Schedule, notes: &str) -> Result<String, Error> {
    let picture = draw(text, by, None)?;
    let played = match text.starts_with(b"atomfs-journal") {
        true => [format!("# {}\n{notes}", check(text)?).as_bytes(), text].concat(),
        false => format!("{notes}{}", trace(text, by, false)?).into_bytes(),
    };
    Ok(filled(&picture, &escaped(&played)))
}

/// The notes that lines of source made calls, in the order in which these began. Where the source is there the page
/// shows its text too.
pub(crate) fn sources(made_at: &[&Location<'_>]) -> String {
    let mut files = BTreeMap::new();
    let mut notes = String::new();
    for (number, at) in (1..).zip(made_at) {
        let file = files.entry(at.file()).or_insert_with(|| fs::read_to_string(at.file()).unwrap_or_default());
        let line = file.lines().nth(at.line() as usize - 1).unwrap_or_default().trim();
        let cut = line.char_indices().nth(SHOWN).map_or(line.to_owned(), |(end, _)| format!("{}..", &line[..end]));
        notes += &format!("# source {number} {}\n", percent_encoded(format!("{} {cut}", place_of(at)).trim_end()));
    }
    notes
}

/// Words in which each byte that is no printable character of ASCII is escaped, and so is the sign of an escape.
fn percent_encoded(words: &str) -> String {
    let escape = |byte: u8| match byte {
        b'%' => "%25".to_owned(),
        b' '..=b'~' => char::from(byte).to_string(),
        _ => format!("%{byte:02X}"),
    };
    words.bytes().map(escape).collect()
}

/// The page with a picture and a text in it.
fn filled(picture: &str, text: &str) -> String {
    let (before, rest) = PAGE.split_once(PICTURE).unwrap_or((PAGE, ""));
    let (between, after) = rest.split_once(RUN).unwrap_or((rest, ""));
    [before, picture, between, text, after].concat()
}

/// A text in which no byte is a sign of HTML, and each that is no printable character of ASCII is escaped, as names are
/// in texts.
fn escaped(text: &[u8]) -> String {
    let mut escaped = String::with_capacity(text.len());
    for byte in text {
        match byte {
            b'&' => escaped.push_str("&amp;"),
            b'<' => escaped.push_str("&lt;"),
            b'>' => escaped.push_str("&gt;"),
            b'\n' | b' '..=b'~' => escaped.push(char::from(*byte)),
            _ => escaped.push_str(&format!("%{byte:02X}")),
        }
    }
    escaped
}
