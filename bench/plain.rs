// A plain tree on hash maps, with no locks, no steps and no proof: what the program is measured against.
//
// plain run < SCRIPT: the run text of a script of one thread that ends in `finish`, as `atomfs run` writes it.
// plain check < JOURNAL: reads a journal, replays the commits and compares the replies: `lawful`, or `fault` and a
// place.
// plain linearize < HISTORY: the search of Wing and Gong with Lowe's memory of what was seen, for an order of the calls
// of a history: `lawful`, or `none`.
// plain threads < SCRIPT: each thread's calls on a thread of its own; one mutex, taken at each event: how many calls,
// and in how many microseconds.
use std::collections::{HashMap, HashSet};
use std::hint::black_box;
use std::io::{Read, Write};
use std::sync::Mutex;
use std::time::Instant;

#[derive(Clone, PartialEq)]
enum Reply {
    Done,
    Stat(bool, u64),
    Names(Vec<Vec<u8>>),
    Bytes(Vec<u8>),
    Wrote(u64),
    Failed(&'static str),
}

#[derive(Clone)]
enum Call {
    Mkdir(Vec<u8>),
    Mknod(Vec<u8>),
    Unlink(Vec<u8>),
    Rmdir(Vec<u8>),
    Rename(Vec<u8>, Vec<u8>),
    Exchange(Vec<u8>, Vec<u8>),
    Stat(Vec<u8>),
    Readdir(Vec<u8>),
    Read(Vec<u8>, u64, u64),
    Write(Vec<u8>, u64, Vec<u8>),
    Truncate(Vec<u8>, u64),
}

enum Node {
    Dir(HashMap<Vec<u8>, usize>),
    File(Vec<u8>),
}

struct Tree {
    nodes: Vec<Node>,
    free: Vec<usize>,
}

type Answer = Result<Reply, &'static str>;

const ERRORS: [&str; 10] =
    ["ENOENT", "ENOTDIR", "EEXIST", "ENOTEMPTY", "EISDIR", "EINVAL", "EBUSY", "EPERM", "ENOSPC", "EFBIG"];
const ENTRIES: usize = if cfg!(large) { usize::MAX } else { 256 };
const BYTES: u64 = if cfg!(large) { u64::MAX } else { 65_536 };

fn names(path: &[u8]) -> impl Iterator<Item = &[u8]> {
    path.split(|b| *b == b'/').filter(|name| !name.is_empty())
}

/// Whether the second path is below the first one.
fn is_below(above: &[u8], path: &[u8]) -> bool {
    path.len() > above.len() && path.starts_with(above) && path[above.len()] == b'/'
}

/// The parent's path, and the last name.
fn parts(path: &[u8]) -> (&[u8], &[u8]) {
    let at = path.iter().rposition(|b| *b == b'/').unwrap();
    (&path[..at], &path[at + 1..])
}

impl Tree {
    fn new() -> Tree {
        Tree { nodes: vec![Node::Dir(HashMap::new())], free: Vec::new() }
    }

    fn dir(&mut self, node: usize) -> Result<&mut HashMap<Vec<u8>, usize>, &'static str> {
        match &mut self.nodes[node] {
            Node::Dir(entries) => Ok(entries),
            Node::File(_) => Err("ENOTDIR"),
        }
    }

    fn find(&self, path: &[u8]) -> Result<usize, &'static str> {
        let mut node = 0;
        for name in names(path) {
            match &self.nodes[node] {
                Node::Dir(entries) => node = *entries.get(name).ok_or("ENOENT")?,
                Node::File(_) => return Err("ENOTDIR"),
            }
        }
        Ok(node)
    }

    fn file(&mut self, path: &[u8]) -> Result<&mut Vec<u8>, &'static str> {
        let node = self.find(path)?;
        match &mut self.nodes[node] {
            Node::File(bytes) => Ok(bytes),
            Node::Dir(_) => Err("EISDIR"),
        }
    }

    fn add(&mut self, path: &[u8], node: Node) -> Answer {
        if path.len() == 1 {
            return Err("EEXIST");
        }
        let (above, name) = parts(path);
        let dir = self.find(above)?;
        let entries = self.dir(dir)?;
        if entries.contains_key(name) {
            return Err("EEXIST");
        }
        if entries.len() >= ENTRIES {
            return Err("ENOSPC");
        }
        let number = match self.free.pop() {
            Some(number) => {
                self.nodes[number] = node;
                number
            }
            None => {
                self.nodes.push(node);
                self.nodes.len() - 1
            }
        };
        self.dir(dir)?.insert(name.to_vec(), number);
        Ok(Reply::Done)
    }

    fn remove(&mut self, dir: usize, name: &[u8]) -> Answer {
        let node = self.dir(dir)?.remove(name).unwrap();
        self.nodes[node] = Node::File(Vec::new());
        self.free.push(node);
        Ok(Reply::Done)
    }

    fn unlink(&mut self, path: &[u8]) -> Answer {
        if path.len() == 1 {
            return Err("EPERM");
        }
        let (above, name) = parts(path);
        let dir = self.find(above)?;
        let node = *self.dir(dir)?.get(name).ok_or("ENOENT")?;
        match self.nodes[node] {
            Node::Dir(_) => Err("EPERM"),
            Node::File(_) => self.remove(dir, name),
        }
    }

    fn rmdir(&mut self, path: &[u8]) -> Answer {
        if path.len() == 1 {
            return Err("EBUSY");
        }
        let (above, name) = parts(path);
        let dir = self.find(above)?;
        let node = *self.dir(dir)?.get(name).ok_or("ENOENT")?;
        if !self.dir(node)?.is_empty() {
            return Err("ENOTEMPTY");
        }
        self.remove(dir, name)
    }

    fn rename(&mut self, from: &[u8], to: &[u8]) -> Answer {
        if from.len() == 1 || to.len() == 1 {
            return Err("EBUSY");
        }
        if is_below(from, to) {
            return Err("EINVAL");
        }
        let ((above, name), (beyond, new)) = (parts(from), parts(to));
        let old_dir = self.find(above)?;
        self.dir(old_dir)?;
        let new_dir = self.find(beyond)?;
        self.dir(new_dir)?;
        let node = *self.dir(old_dir)?.get(name).ok_or("ENOENT")?;
        if from == to {
            return Ok(Reply::Done);
        }
        let is_dir = matches!(self.nodes[node], Node::Dir(_));
        match self.dir(new_dir)?.get(new).copied() {
            Some(victim) => {
                match &self.nodes[victim] {
                    Node::Dir(_) if !is_dir => return Err("EISDIR"),
                    Node::Dir(entries) if !entries.is_empty() => return Err("ENOTEMPTY"),
                    Node::File(_) if is_dir => return Err("ENOTDIR"),
                    _ => {}
                }
                self.remove(new_dir, new)?;
            }
            None if old_dir != new_dir && self.dir(new_dir)?.len() >= ENTRIES => return Err("ENOSPC"),
            None => {}
        }
        self.dir(old_dir)?.remove(name);
        self.dir(new_dir)?.insert(new.to_vec(), node);
        Ok(Reply::Done)
    }

    fn exchange(&mut self, path: &[u8], other: &[u8]) -> Answer {
        if path.len() == 1 || other.len() == 1 {
            return Err("EBUSY");
        }
        if is_below(path, other) || is_below(other, path) {
            return Err("EINVAL");
        }
        let ((above, name), (beyond, new)) = (parts(path), parts(other));
        let dir = self.find(above)?;
        self.dir(dir)?;
        let other_dir = self.find(beyond)?;
        self.dir(other_dir)?;
        let node = *self.dir(dir)?.get(name).ok_or("ENOENT")?;
        let other_node = *self.dir(other_dir)?.get(new).ok_or("ENOENT")?;
        *self.dir(dir)?.get_mut(name).unwrap() = other_node;
        *self.dir(other_dir)?.get_mut(new).unwrap() = node;
        Ok(Reply::Done)
    }

    fn write(&mut self, path: &[u8], off: u64, more: &[u8]) -> Answer {
        let bytes = self.file(path)?;
        let end = off.saturating_add(more.len() as u64);
        if !more.is_empty() {
            if end > BYTES {
                return Err("EFBIG");
            }
            if bytes.len() < end as usize {
                bytes.resize(end as usize, 0);
            }
            bytes[off as usize..end as usize].copy_from_slice(more);
        }
        Ok(Reply::Wrote(more.len() as u64))
    }

    fn stat(&self, path: &[u8]) -> Answer {
        Ok(match &self.nodes[self.find(path)?] {
            Node::Dir(entries) => Reply::Stat(true, entries.len() as u64),
            Node::File(bytes) => Reply::Stat(false, bytes.len() as u64),
        })
    }

    fn apply(&mut self, call: &Call) -> Reply {
        let answer = match call {
            Call::Mkdir(path) => self.add(path, Node::Dir(HashMap::new())),
            Call::Mknod(path) => self.add(path, Node::File(Vec::new())),
            Call::Unlink(path) => self.unlink(path),
            Call::Rmdir(path) => self.rmdir(path),
            Call::Rename(from, to) => self.rename(from, to),
            Call::Exchange(path, other) => self.exchange(path, other),
            Call::Stat(path) => self.stat(path),
            Call::Readdir(path) => self.find(path).and_then(|node| self.dir(node)).map(|entries| {
                let mut all: Vec<Vec<u8>> = entries.keys().cloned().collect();
                all.sort_unstable();
                Reply::Names(all)
            }),
            Call::Read(path, off, count) => self.file(path).map(|bytes| {
                let from = (*off).min(bytes.len() as u64) as usize;
                let to = off.saturating_add(*count).min(bytes.len() as u64) as usize;
                Reply::Bytes(bytes[from..to].to_vec())
            }),
            Call::Write(path, off, bytes) => self.write(path, *off, bytes),
            Call::Truncate(path, size) => self.file(path).and_then(|bytes| {
                if *size > BYTES {
                    return Err("EFBIG");
                }
                bytes.resize(*size as usize, 0);
                Ok(Reply::Done)
            }),
        };
        answer.unwrap_or_else(Reply::Failed)
    }
}

fn number(word: &[u8]) -> u64 {
    word.iter().fold(0, |n, b| n * 10 + u64::from(b - b'0'))
}

fn unescaped(word: &[u8]) -> Vec<u8> {
    let mut bytes = Vec::with_capacity(word.len());
    let mut at = 0;
    while at < word.len() {
        if word[at] == b'%' {
            bytes.push(digit(word[at + 1]) * 16 + digit(word[at + 2]));
            at += 3;
        } else {
            bytes.push(word[at]);
            at += 1;
        }
    }
    bytes
}

fn digit(byte: u8) -> u8 {
    match byte {
        b'0'..=b'9' => byte - b'0',
        b'a'..=b'f' => byte - b'a' + 10,
        b'A'..=b'F' => byte - b'A' + 10,
        _ => panic!("no digit"),
    }
}

fn bytes_of(word: &[u8]) -> Vec<u8> {
    if word == b"-" {
        return Vec::new();
    }
    word.chunks_exact(2).map(|pair| digit(pair[0]) * 16 + digit(pair[1])).collect()
}

fn call_of(words: &[&[u8]]) -> Call {
    let path = unescaped(words[1]);
    match words[0] {
        b"mkdir" => Call::Mkdir(path),
        b"mknod" => Call::Mknod(path),
        b"unlink" => Call::Unlink(path),
        b"rmdir" => Call::Rmdir(path),
        b"rename" => Call::Rename(path, unescaped(words[2])),
        b"exchange" => Call::Exchange(path, unescaped(words[2])),
        b"stat" => Call::Stat(path),
        b"readdir" => Call::Readdir(path),
        b"read" => Call::Read(path, number(words[2]), number(words[3])),
        b"write" => Call::Write(path, number(words[2]), bytes_of(words[3])),
        b"truncate" => Call::Truncate(path, number(words[2])),
        _ => panic!("no call"),
    }
}

fn reply_of(words: &[&[u8]]) -> Reply {
    match words[0] {
        b"ok" => Reply::Done,
        b"stat" => Reply::Stat(words[1] == b"dir", number(words[2])),
        b"names" => Reply::Names(words[1..].iter().map(|word| unescaped(word)).collect()),
        b"bytes" => Reply::Bytes(bytes_of(words[1])),
        b"wrote" => Reply::Wrote(number(words[1])),
        _ => Reply::Failed(ERRORS.iter().find(|it| it.as_bytes() == words[1]).unwrap()),
    }
}

fn push_escaped(text: &mut Vec<u8>, bytes: &[u8]) {
    for byte in bytes {
        match byte {
            0..=32 | b'%' | 127.. => write!(text, "%{byte:02X}").unwrap(),
            _ => text.push(*byte),
        }
    }
}

fn push_hex(text: &mut Vec<u8>, bytes: &[u8]) {
    if bytes.is_empty() {
        text.push(b'-');
    }
    for byte in bytes {
        text.push(b"0123456789abcdef"[usize::from(byte >> 4)]);
        text.push(b"0123456789abcdef"[usize::from(byte & 15)]);
    }
}

fn push_call(text: &mut Vec<u8>, call: &Call) {
    let (word, path) = match call {
        Call::Mkdir(path) => ("mkdir ", path),
        Call::Mknod(path) => ("mknod ", path),
        Call::Unlink(path) => ("unlink ", path),
        Call::Rmdir(path) => ("rmdir ", path),
        Call::Rename(path, _) => ("rename ", path),
        Call::Exchange(path, _) => ("exchange ", path),
        Call::Stat(path) => ("stat ", path),
        Call::Readdir(path) => ("readdir ", path),
        Call::Read(path, _, _) => ("read ", path),
        Call::Write(path, _, _) => ("write ", path),
        Call::Truncate(path, _) => ("truncate ", path),
    };
    text.extend_from_slice(word.as_bytes());
    push_escaped(text, path);
    match call {
        Call::Rename(_, other) | Call::Exchange(_, other) => {
            text.push(b' ');
            push_escaped(text, other);
        }
        Call::Read(_, off, count) => write!(text, " {off} {count}").unwrap(),
        Call::Write(_, off, bytes) => {
            write!(text, " {off} ").unwrap();
            push_hex(text, bytes);
        }
        Call::Truncate(_, size) => write!(text, " {size}").unwrap(),
        _ => {}
    }
}

fn push_reply(text: &mut Vec<u8>, reply: &Reply) {
    match reply {
        Reply::Done => text.extend_from_slice(b"ok"),
        Reply::Stat(true, size) => write!(text, "stat dir {size}").unwrap(),
        Reply::Stat(false, size) => write!(text, "stat file {size}").unwrap(),
        Reply::Names(names) => {
            text.extend_from_slice(b"names");
            for name in names {
                text.push(b' ');
                push_escaped(text, name);
            }
        }
        Reply::Bytes(bytes) => {
            text.extend_from_slice(b"bytes ");
            push_hex(text, bytes);
        }
        Reply::Wrote(size) => write!(text, "wrote {size}").unwrap(),
        Reply::Failed(error) => write!(text, "failed {error}").unwrap(),
    }
}

fn push_tree(text: &mut Vec<u8>, tree: &Tree, node: usize, path: &mut Vec<u8>) {
    match &tree.nodes[node] {
        Node::File(bytes) => {
            text.extend_from_slice(b"file ");
            push_escaped(text, path);
            text.push(b' ');
            push_hex(text, bytes);
            text.push(b'\n');
        }
        Node::Dir(entries) => {
            text.extend_from_slice(b"dir ");
            push_escaped(text, if path.is_empty() { b"/" } else { path });
            text.push(b'\n');
            let mut sorted: Vec<(&Vec<u8>, &usize)> = entries.iter().collect();
            sorted.sort_unstable();
            for (name, node) in sorted {
                let len = path.len();
                path.push(b'/');
                path.extend_from_slice(name);
                push_tree(text, tree, *node, path);
                path.truncate(len);
            }
        }
    }
}

/// A script's calls, kept, played, and kept again with their replies, and then the text.
fn run(input: &[u8]) -> Vec<u8> {
    let calls: Vec<Call> = input
        .split(|b| *b == b'\n')
        .skip(2)
        .take_while(|line| *line != b"schedule")
        .map(|line| call_of(&line.split(|b| *b == b' ').collect::<Vec<_>>()))
        .collect();
    let mut tree = Tree::new();
    let mut journal = Vec::new();
    for call in &calls {
        journal.push((call.clone(), tree.apply(call)));
    }
    let mut text = b"atomfs-journal 1\n".to_vec();
    for (index, (call, reply)) in journal.iter().enumerate() {
        let number = index + 1;
        write!(text, "begin {number} 0 ").unwrap();
        push_call(&mut text, call);
        write!(text, "\ncommit {number}\nreturn {number} ").unwrap();
        push_reply(&mut text, reply);
        text.push(b'\n');
    }
    text.extend_from_slice(b"tree\n");
    push_tree(&mut text, &tree, 0, &mut Vec::new());
    let count = calls.len();
    writeln!(text, "begun {count} committed {count} returned {count}").unwrap();
    text
}

/// What is known of a call: it, the reply that is due once it has committed, and whether it has returned.
struct Begun {
    call: Call,
    due: Option<Reply>,
    returned: bool,
}

enum Entry {
    Begin(u64, u64, Call),
    Commit(u64),
    Return(u64, Reply),
}

fn entry_of(line: &[u8]) -> Entry {
    let words: Vec<&[u8]> = line.split(|b| *b == b' ').collect();
    match words[0] {
        b"begin" => Entry::Begin(number(words[1]), number(words[2]), call_of(&words[3..])),
        b"commit" => Entry::Commit(number(words[1])),
        _ => Entry::Return(number(words[1]), reply_of(&words[2..])),
    }
}

/// Whether an entry fits those before it.
fn fits(entry: Entry, tree: &mut Tree, calls: &mut HashMap<u64, Begun>, last: &mut HashMap<u64, u64>) -> bool {
    match entry {
        Entry::Begin(number, seat, call) => {
            let is_busy = last.get(&seat).is_some_and(|it| !calls[it].returned);
            if calls.contains_key(&number) || is_busy {
                return false;
            }
            last.insert(seat, number);
            calls.insert(number, Begun { call, due: None, returned: false });
            true
        }
        Entry::Commit(number) => match calls.get_mut(&number) {
            Some(begun) if begun.due.is_none() => {
                begun.due = Some(tree.apply(&begun.call));
                true
            }
            _ => false,
        },
        Entry::Return(number, reply) => match calls.get_mut(&number) {
            Some(begun) if !begun.returned && begun.due.as_ref() == Some(&reply) => {
                begun.returned = true;
                true
            }
            _ => false,
        },
    }
}

/// The entries, read and kept, and then the verdict on them.
fn check(input: &[u8]) -> Vec<u8> {
    let entries: Vec<Entry> = input
        .split(|b| *b == b'\n')
        .skip(1)
        .take_while(|line| *line != b"tree" && !line.is_empty())
        .map(entry_of)
        .collect();
    let (mut tree, mut calls, mut last) = (Tree::new(), HashMap::new(), HashMap::new());
    for (index, entry) in entries.into_iter().enumerate() {
        if !fits(entry, &mut tree, &mut calls, &mut last) {
            return format!("fault {}\n", index + 1).into_bytes();
        }
    }
    b"lawful\n".to_vec()
}

/// How a change of the tree is taken back.
enum Undo {
    Nothing,
    Remove(Vec<u8>),
    Add(Vec<u8>, Node),
    Back(Vec<u8>, Vec<u8>, Option<Node>),
    Exchange(Vec<u8>, Vec<u8>),
    Bytes(Vec<u8>, Vec<u8>),
}

fn mixed(key: u64, number: u64) -> u64 {
    let product = (key ^ number).wrapping_mul(0x9E37_79B9_7F4A_7C15);
    product ^ (product >> 29)
}

fn mixed_bytes(key: u64, bytes: &[u8]) -> u64 {
    bytes.iter().fold(mixed(key, bytes.len() as u64), |key, byte| mixed(key, u64::from(*byte)))
}

impl Tree {
    /// The node at a path, copied; a directory is copied without what is in it.
    fn copied(&self, path: &[u8]) -> Option<Node> {
        Some(match &self.nodes[self.find(path).ok()?] {
            Node::Dir(_) => Node::Dir(HashMap::new()),
            Node::File(bytes) => Node::File(bytes.clone()),
        })
    }

    /// A number of the tree: the sum of one for each entry, by its path and what is there.
    fn key(&self, node: usize, above: u64) -> u64 {
        match &self.nodes[node] {
            Node::File(bytes) => mixed_bytes(mixed(above, 1), bytes),
            Node::Dir(entries) => entries.iter().fold(mixed(above, 2), |sum, (name, below)| {
                sum.wrapping_add(self.key(*below, mixed_bytes(above, name)))
            }),
        }
    }

    /// Applies a call, and says how to take it back.
    fn apply_to_undo(&mut self, call: &Call) -> (Reply, Undo) {
        let before = match call {
            Call::Unlink(path) | Call::Rmdir(path) | Call::Write(path, ..) | Call::Truncate(path, _) => {
                self.copied(path)
            }
            Call::Rename(_, to) => self.copied(to),
            _ => None,
        };
        let reply = self.apply(call);
        let undo = match (call, before) {
            _ if matches!(reply, Reply::Failed(_)) => Undo::Nothing,
            (Call::Mkdir(path) | Call::Mknod(path), _) => Undo::Remove(path.clone()),
            (Call::Unlink(path) | Call::Rmdir(path), Some(node)) => Undo::Add(path.clone(), node),
            (Call::Rename(from, to), before) if from != to => Undo::Back(from.clone(), to.clone(), before),
            (Call::Exchange(path, other), _) => Undo::Exchange(path.clone(), other.clone()),
            (Call::Write(path, ..) | Call::Truncate(path, _), Some(Node::File(old))) => Undo::Bytes(path.clone(), old),
            _ => Undo::Nothing,
        };
        (reply, undo)
    }

    fn take_back(&mut self, undo: Undo) {
        match undo {
            Undo::Nothing => {}
            Undo::Remove(path) => {
                let (above, name) = parts(&path);
                let dir = self.find(above).unwrap();
                self.remove(dir, name).ok();
            }
            Undo::Add(path, node) => {
                self.add(&path, node).ok();
            }
            Undo::Back(from, to, victim) => {
                self.rename(&to, &from).ok();
                if let Some(node) = victim {
                    self.add(&to, node).ok();
                }
            }
            Undo::Exchange(path, other) => {
                self.exchange(&path, &other).ok();
            }
            Undo::Bytes(path, old) => *self.file(&path).unwrap() = old,
        }
    }
}

/// The events of a history in a list of which some are taken out: the begin of each call, and its return.
struct Events {
    next: Vec<usize>,
    before: Vec<usize>,
}

impl Events {
    fn take_out(&mut self, event: usize) {
        let (before, next) = (self.before[event], self.next[event]);
        self.next[before] = next;
        self.before[next] = before;
    }

    fn put_in(&mut self, event: usize) {
        let (before, next) = (self.before[event], self.next[event]);
        self.next[before] = event;
        self.before[next] = event;
    }
}

/// A call of a history: it, its reply if it returned, and the places of its begin and its return among the events.
struct Heard {
    call: Call,
    reply: Option<Reply>,
    begin: usize,
    end: usize,
}

/// The calls of a history, and its events in order: the call of each, and whether it returns. The first event is none.
fn history_of(input: &[u8]) -> (Vec<Heard>, Vec<(usize, bool)>) {
    let (mut calls, mut events, mut places) = (Vec::<Heard>::new(), vec![(0, false)], HashMap::new());
    for line in input.split(|b| *b == b'\n').skip(1).filter(|line| !line.is_empty()) {
        match entry_of(line) {
            Entry::Begin(number, _, call) => {
                places.insert(number, calls.len());
                calls.push(Heard { call, reply: None, begin: events.len(), end: 0 });
                events.push((calls.len() - 1, false));
            }
            Entry::Return(number, reply) => {
                let place = places[&number];
                (calls[place].reply, calls[place].end) = (Some(reply), events.len());
                events.push((place, true));
            }
            Entry::Commit(_) => panic!("a history has no commits"),
        }
    }
    // A call that does not return may come after all others.
    for (place, call) in calls.iter_mut().enumerate().filter(|(_, call)| call.reply.is_none()) {
        call.end = events.len();
        events.push((place, true));
    }
    (calls, events)
}

/// Wing and Gong's search, depth first, with Lowe's memory: no set of calls is tried twice on one tree.
fn linearize(input: &[u8]) -> Vec<u8> {
    let (calls, events) = history_of(input);
    let last = events.len();
    let mut list =
        Events { next: (1..=last + 1).collect(), before: (0..=last).map(|at| at.saturating_sub(1)).collect() };
    let (mut tree, mut seen, mut stack) = (Tree::new(), HashSet::new(), Vec::new());
    let (mut event, mut key, mut committed) = (list.next[0], 0, 0u64);
    let mut left = calls.iter().filter(|call| call.reply.is_some()).count();
    while left > 0 {
        let (place, is_return) = events[event];
        if is_return {
            // Each call that had begun before this return was tried: the last choice was wrong.
            let Some((place, undo, old)) = stack.pop() else { return b"none\n".to_vec() };
            let call: &Heard = &calls[place];
            tree.take_back(undo);
            key = old;
            committed = committed.wrapping_sub(mixed(u64::MAX, place as u64));
            left += usize::from(call.reply.is_some());
            list.put_in(call.end);
            list.put_in(call.begin);
            event = list.next[call.begin];
            continue;
        }
        let call = &calls[place];
        let (reply, undo) = tree.apply_to_undo(&call.call);
        let after = if matches!(undo, Undo::Nothing) { key } else { tree.key(0, 0) };
        let set = committed.wrapping_add(mixed(u64::MAX, place as u64));
        if call.reply.as_ref().map_or(true, |due| *due == reply) && seen.insert((set, after)) {
            stack.push((place, undo, key));
            (key, committed) = (after, set);
            left -= usize::from(call.reply.is_some());
            list.take_out(call.begin);
            list.take_out(call.end);
            event = list.next[0];
        } else {
            tree.take_back(undo);
            event = list.next[event];
        }
    }
    b"lawful\n".to_vec()
}

/// What one mutex keeps: the tree, and the journal by copies.
struct Shared {
    tree: Tree,
    journal: Vec<Entry>,
    begun: u64,
}

impl Shared {
    fn begin(&mut self, seat: u64, call: &Call) -> u64 {
        self.begun += 1;
        self.journal.push(Entry::Begin(self.begun, seat, call.clone()));
        self.begun
    }

    fn commit(&mut self, number: u64, call: &Call) -> Reply {
        let reply = self.tree.apply(call);
        self.journal.push(Entry::Commit(number));
        reply
    }

    fn end(&mut self, number: u64, reply: &Reply) {
        self.journal.push(Entry::Return(number, reply.clone()));
    }
}

/// How many events a call has between its begin and its return, where nobody stands in its way: a take and a let go for
/// each name, those of the root, and a commit.
fn steps(call: &Call) -> usize {
    let depth = |path: &[u8]| names(path).count();
    match call {
        Call::Stat(p) | Call::Readdir(p) | Call::Read(p, ..) | Call::Write(p, ..) | Call::Truncate(p, _) => {
            3 + 2 * depth(p)
        }
        Call::Mkdir(p) | Call::Mknod(p) | Call::Unlink(p) | Call::Rmdir(p) => 1 + 2 * depth(p),
        Call::Rename(p, q) | Call::Exchange(p, q) => 3 + 2 * depth(p).max(depth(q)),
    }
}

/// The calls of a thread, an event at a time.
fn play(shared: &Mutex<Shared>, seat: u64, calls: &[Call]) -> Vec<Reply> {
    calls
        .iter()
        .map(|call| {
            let number = shared.lock().unwrap().begin(seat, call);
            for _ in 1..steps(call) {
                black_box(&mut *shared.lock().unwrap());
            }
            let reply = shared.lock().unwrap().commit(number, call);
            shared.lock().unwrap().end(number, &reply);
            reply
        })
        .collect()
}

/// Each block's calls on a thread of its own.
fn threads(input: &[u8]) -> Vec<u8> {
    let mut blocks: Vec<Vec<Call>> = Vec::new();
    for line in input.split(|b| *b == b'\n').skip(1).take_while(|line| *line != b"schedule") {
        match line.strip_prefix(b"thread ") {
            Some(_) => blocks.push(Vec::new()),
            None => blocks.last_mut().unwrap().push(call_of(&line.split(|b| *b == b' ').collect::<Vec<_>>())),
        }
    }
    let shared = Mutex::new(Shared { tree: Tree::new(), journal: Vec::new(), begun: 0 });
    let began = Instant::now();
    std::thread::scope(|scope| {
        for (seat, calls) in blocks.iter().enumerate() {
            let shared = &shared;
            scope.spawn(move || play(shared, seat as u64, calls));
        }
    });
    let micros = began.elapsed().as_micros();
    format!("calls: {}\nmicroseconds: {micros}\n", shared.into_inner().unwrap().journal.len() / 3).into_bytes()
}

fn main() {
    let mut input = Vec::new();
    std::io::stdin().lock().read_to_end(&mut input).unwrap();
    let text = match std::env::args().nth(1).as_deref() {
        Some("run") => run(&input),
        Some("check") => check(&input),
        Some("linearize") => linearize(&input),
        Some("threads") => threads(&input),
        _ => panic!("plain run, check, linearize or threads"),
    };
    std::io::stdout().lock().write_all(&text).unwrap();
}
