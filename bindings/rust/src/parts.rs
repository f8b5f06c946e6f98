//! What a run that failed did, as parts of calls.

use std::collections::BTreeMap;
use std::fmt;
use std::fs;

use crate::baton::Event;
use crate::explore::place_of;

/// So many characters of a line of source, and of a call or a reply, are shown.
const SHOWN: usize = 70;

/// What a thread did without a switch in between: a call, or a part of one. As text it is for example `mkdir /a: ok`.
/// `mkdir /a .. half-way` is a part that does not return, and `.. mkdir /a: ok` one that goes on.
#[derive(Clone, Debug, PartialEq, Eq)]
#[non_exhaustive]
pub struct Part {
    /// The thread.
    pub thread: String,
    /// The call as in a script, for example `rename /a /b`.
    pub call: String,
    /// What the call replied, as in a journal, if it returns in this part: `ok`, or `failed ENOENT`.
    pub reply: Option<String>,
    /// Whether the call begins in this part.
    pub begins: bool,
    /// The line of the source that made the call, for example `src/main.rs:41`.
    pub line: String,
    /// The text of that line; empty if the file is not there.
    pub source: String,
}

impl fmt::Display for Part {
    fn fmt(&self, f: &mut fmt::Formatter<'_>) -> fmt::Result {
        let before = if self.begins { "" } else { ".. " };
        match &self.reply {
            Some(reply) => write!(f, "{before}{}: {}", cut(&self.call), cut(reply)),
            None => write!(f, "{before}{} .. half-way", cut(&self.call)),
        }
    }
}

/// The first characters of words, for a terminal: one that would move its cursor is escaped.
fn cut(words: &str) -> String {
    let shown: String = words.chars().take(SHOWN).flat_map(escaped).collect();
    match words.chars().nth(SHOWN) {
        Some(_) => format!("{shown}.."),
        None => shown,
    }
}

fn escaped(one: char) -> Vec<char> {
    match one.is_control() {
        true => one.escape_default().collect(),
        false => vec![one],
    }
}

/// The parts of events, by the calls and the replies of their journal.
pub(crate) fn parts_of(
    events: &[Event],
    names: &[String],
    journal: &str,
    spelled: &BTreeMap<u64, String>,
) -> Vec<Part> {
    let replies: BTreeMap<u64, &str> = journal.lines().filter_map(returned).collect();
    let mut sources = BTreeMap::new();
    let mut parts: Vec<(u64, Part)> = Vec::new();
    for event in events {
        if parts.last().map_or(true, |(call, _)| *call != event.call) {
            let at = event.at();
            let file = sources.entry(at.file()).or_insert_with(|| fs::read_to_string(at.file()).unwrap_or_default());
            let source = file.lines().nth(at.line() as usize - 1).unwrap_or_default().trim().to_owned();
            let call = spelled.get(&event.call).cloned().unwrap_or_default();
            let (thread, line) = (names[event.thread].clone(), place_of(at));
            parts.push((event.call, Part { thread, call, reply: None, begins: event.is_begin(), line, source }));
        }
        if let (Some((_, part)), true) = (parts.last_mut(), event.is_end()) {
            part.reply = replies.get(&event.call).map(|reply| (*reply).to_owned());
        }
    }
    parts.into_iter().map(|(_, part)| part).collect()
}

/// The number and the reply of an entry that returns.
pub(crate) fn returned(entry: &str) -> Option<(u64, &str)> {
    let (number, reply) = entry.strip_prefix("return ")?.split_once(' ')?;
    Some((number.parse().ok()?, reply))
}

/// Parts as lines: the thread, the line of the source with its text, and the call with its reply.
pub(crate) fn lines_of(parts: &[Part]) -> Vec<String> {
    let sources: Vec<String> = parts.iter().map(|part| format!("{}  {}", part.line, cut(&part.source))).collect();
    let width = |of: &mut dyn Iterator<Item = usize>| of.max().unwrap_or(0);
    let names = width(&mut parts.iter().map(|part| part.thread.chars().count()));
    let wide = width(&mut sources.iter().map(|source| source.chars().count()));
    let line = |(part, source): (&Part, &String)| format!("    {:names$}  {source:wide$}  {part}", part.thread);
    parts.iter().zip(&sources).map(line).collect()
}

#[cfg(test)]
mod tests {
    use super::*;

    fn part(begins: bool, reply: Option<&str>) -> Part {
        let words = |words: &str| words.to_owned();
        let (thread, call, line) = (words("ann"), words("mkdir /a"), words("src/main.rs:4"));
        Part { thread, call, reply: reply.map(words), begins, line, source: words("tree.mkdir(\u{1b}[2J)?;") }
    }

    #[test]
    fn as_text() {
        let rows = [
            (true, Some("ok"), "mkdir /a: ok"),
            (true, None, "mkdir /a .. half-way"),
            (false, None, ".. mkdir /a .. half-way"),
            (false, Some("failed EEXIST"), ".. mkdir /a: failed EEXIST"),
        ];
        for (begins, reply, text) in rows {
            assert_eq!(part(begins, reply).to_string(), text);
        }
        let long = Part { call: "x".repeat(80), ..part(true, None) };
        assert_eq!(long.to_string(), format!("{}.. .. half-way", "x".repeat(70)));
        let lines = lines_of(&[Part { thread: "b".to_owned(), line: "a:1".to_owned(), ..part(true, None) }, long]);
        assert!(lines[0].starts_with("    b    a:1  tree.mkdir(\\u{1b}[2J)?;  "), "{}", lines[0]);
        assert_eq!(lines[0].find("mkdir /a"), lines[1].find("xxx"));
    }
}
