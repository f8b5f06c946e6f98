//! Trees.

use std::fmt;
use std::ptr::{self, NonNull};
use std::sync::atomic::{AtomicU64, Ordering};
use std::sync::Arc;

use crate::call::{Call, Did, Kind, Reply, Seat, Stat};
use crate::error::{Error, ErrorKind};
use crate::ffi::{self, Handle, OnPath, OnPaths, RawStat, OK, TOO_SMALL, UNTOLD, WAITS};
use crate::limits::{Journal, Limits, KEEP_ALL};
use crate::page::page;
use crate::path::AsPath;
use crate::texts::{ascii, Schedule, ROOM};
use crate::way::Turns;
use crate::NODE_LIMIT;

/// How many trees have been opened.
static TREES: AtomicU64 = AtomicU64::new(0);

/// What is wrong with an entry, by the number of the library and the word of the program.
const FAULTS: [&str; 8] =
    ["", "BeginTwice", "SeatBusy", "CommitUnbegun", "CommitTwice", "ReturnUncommitted", "ReturnTwice", "WrongReply"];

/// A tree with the journal of its calls. It is closed when it is dropped.
///
/// Each method makes one call, or several if it says so. Threads share a tree as a [`SharedTree`](crate::SharedTree).
pub struct Tree {
    /// Of a box, which the tree owns, unless it is that of a shared tree.
    handle: NonNull<Handle>,
    is_shared: bool,
    /// A number of its own, by which another tree's seats are refused.
    id: u64,
    limit: usize,
    limits: Limits,
    /// How many calls the journal keeps, as `keep` has said it last.
    keeps: Journal,
    /// How many calls the journal has.
    calls: u64,
    /// How many there were before these.
    before: u64,
    room: Vec<u8>,
    /// The seat of the tree's own calls; none if the last of them waits on it.
    own: Option<Seat>,
    /// The last call that was begun on each seat.
    last: Vec<Last>,
    /// Which sessions have a seat, if threads share the tree.
    turns: Option<Arc<Turns>>,
}

/// A call that was begun on a seat.
#[derive(Default)]
struct Last {
    turn: u64,
    number: u64,
    kind: Kind,
    path: Vec<u8>,
    other: Option<Vec<u8>>,
}

impl Last {
    fn begins(&mut self, seat: Seat, number: u64, call: &Call) {
        let (path, other) = call.paths();
        self.turn = seat.turn;
        self.path.clear();
        self.path.extend_from_slice(path);
        self.other = other.map(<[u8]>::to_vec);
        (self.number, self.kind) = (number, call.kind());
    }
}

// SAFETY: the library proves that a handle may go from thread to thread, and all else of a tree is `Send`.
unsafe impl Send for Tree {}

impl Tree {
    /// An empty tree for as many nodes as a tree may have.
    pub fn new() -> Result<Tree, Error> {
        Tree::with_limit(NODE_LIMIT)
    }

    /// An empty tree for at most so many nodes, its root included.
    ///
    /// ```
    /// let mut tree = atomfs::Tree::with_limit(2)?;
    /// tree.mkdir("/a")?;
    /// assert_eq!(tree.mkdir("/b").unwrap_err(), atomfs::ErrorKind::Full);
    /// # Ok::<(), atomfs::Error>(())
    /// ```
    pub fn with_limit(limit: usize) -> Result<Tree, Error> {
        Tree::with_limits(limit, Limits::default())
    }

    /// An empty tree for at most so many nodes, with these limits.
    ///
    /// ```
    /// use atomfs::{Errno, ErrorKind, Limits, Tree};
    ///
    /// let mut tree = Tree::with_limits(Limits::V1.nodes(), Limits::V1)?;
    /// tree.mknod("/f")?;
    /// assert_eq!(tree.truncate("/f", 65_537).unwrap_err(), ErrorKind::Failed(Errno::EFBIG));
    /// # Ok::<(), atomfs::Error>(())
    /// ```
    pub fn with_limits(limit: usize, limits: Limits) -> Result<Tree, Error> {
        let mut tree = Tree::closed(limit, limits);
        // SAFETY: the handle is this tree's alone.
        done(unsafe { ffi::atomfs_open_with(tree.handle.as_ptr(), limit, limits as u8) })?;
        tree.own()?;
        Ok(tree)
    }

    /// A tree for at most so many nodes, from a text that [`text_of_tree`](Tree::text_of_tree) returned, or from a
    /// journal with these limits. From a journal it is the tree at which that starts: its calls are read, and not made.
    /// The new journal begins at this tree.
    ///
    /// `ErrorKind::BadText` has the line at which the text is neither. `ErrorKind::Full` says that it has more nodes.
    ///
    /// ```
    /// use atomfs::{ErrorKind, Limits, Tree, NODE_LIMIT};
    ///
    /// let mut tree = Tree::from_text("tree\ndir /\nfile /f 6869\n", NODE_LIMIT, Limits::V3)?;
    /// assert_eq!(tree.read_to_end("/f")?, b"hi");
    /// assert_eq!(tree.journal()?.lines().next(), Some("atomfs-journal 4"));
    /// let error = Tree::from_text("tree\ndir /\ndir /a/b\n", NODE_LIMIT, Limits::V3).unwrap_err();
    /// assert!(matches!(error.kind(), ErrorKind::BadText(_, 3)));
    /// # Ok::<(), atomfs::Error>(())
    /// ```
    pub fn from_text(text: impl AsRef<[u8]>, limit: usize, limits: Limits) -> Result<Tree, Error> {
        let (mut tree, text, mut line) = (Tree::closed(limit, limits), text.as_ref(), 0);
        // SAFETY: the handle is this tree's alone, and the text is a slice with its length.
        let status = unsafe {
            ffi::atomfs_open_from(tree.handle.as_ptr(), limit, limits as u8, text.as_ptr(), text.len(), &mut line)
        };
        match status {
            OK => {}
            ffi::BAD_HEADER.. => return Err(Error::of_text(status, line)),
            _ => return Err(Error::of(status, 0)),
        }
        tree.own()?;
        Ok(tree)
    }

    /// A copy of the tree as it is now, with the same limits, which keeps as many calls. Its journal begins there, and
    /// from then on the two are independent. `ErrorKind::UnderWay` has the number of a pending call.
    ///
    /// ```
    /// let mut tree = atomfs::Tree::new()?;
    /// tree.mkdir("/a")?;
    /// let mut other = tree.try_clone()?;
    /// tree.rmdir("/a")?;
    /// assert!(other.stat("/a")?.is_dir);
    /// # Ok::<(), atomfs::Error>(())
    /// ```
    pub fn try_clone(&self) -> Result<Tree, Error> {
        let (mut tree, mut number) = (Tree::closed(self.limit, self.limits), 0);
        // SAFETY: both handles are of trees that are borrowed here, and the other one is only read.
        match unsafe { ffi::atomfs_open_at(tree.handle.as_ptr(), self.limit, self.handle.as_ptr(), &mut number) } {
            OK => {}
            status => return Err(Error::of(status, number)),
        }
        tree.keep(self.keeps)?;
        tree.own()?;
        Ok(tree)
    }

    /// A tree that is to be opened.
    fn closed(limit: usize, limits: Limits) -> Tree {
        let handle = Box::new(Handle { is_open: 0, most: KEEP_ALL, at: ptr::null_mut() });
        Tree {
            handle: NonNull::from(Box::leak(handle)),
            is_shared: false,
            id: TREES.fetch_add(1, Ordering::Relaxed),
            limit,
            limits,
            keeps: Journal::All,
            calls: 0,
            before: 0,
            room: vec![0; ROOM],
            own: None,
            last: Vec::new(),
            turns: None,
        }
    }

    /// Makes an empty directory.
    pub fn mkdir(&mut self, path: impl AsPath) -> Result<(), Error> {
        self.on_path(ffi::atomfs_mkdir, &Call::mkdir(&path))
    }

    /// Makes an empty file.
    pub fn mknod(&mut self, path: impl AsPath) -> Result<(), Error> {
        self.on_path(ffi::atomfs_mknod, &Call::mknod(&path))
    }

    /// Removes the entry of a file.
    pub fn unlink(&mut self, path: impl AsPath) -> Result<(), Error> {
        self.on_path(ffi::atomfs_unlink, &Call::unlink(&path))
    }

    /// Removes the entry of an empty directory.
    pub fn rmdir(&mut self, path: impl AsPath) -> Result<(), Error> {
        self.on_path(ffi::atomfs_rmdir, &Call::rmdir(&path))
    }

    /// Moves what is at `path`, with all below it, to `other`. A file or an empty directory there is replaced.
    pub fn rename(&mut self, path: impl AsPath, other: impl AsPath) -> Result<(), Error> {
        self.on_paths(ffi::atomfs_rename, &Call::rename(&path, &other))
    }

    /// Exchanges what is at two paths, each with all below it.
    pub fn exchange(&mut self, path: impl AsPath, other: impl AsPath) -> Result<(), Error> {
        self.on_paths(ffi::atomfs_exchange, &Call::exchange(&path, &other))
    }

    /// What is at a path.
    pub fn stat(&mut self, path: impl AsPath) -> Result<Stat, Error> {
        let own = self.own()?;
        let (path, mut stat, mut number) = (path.path_bytes(), RawStat::default(), 0);
        // SAFETY: the handle is this tree's alone, and the path is a slice with its length.
        let status =
            unsafe { ffi::atomfs_stat(self.handle.as_ptr(), own, path.as_ptr(), path.len(), &mut stat, &mut number) };
        self.called(status, number, &Call::Stat(path))?;
        Ok(stat_of(stat))
    }

    /// The limits of the tree.
    pub fn limits(&self) -> Limits {
        self.limits
    }

    /// The names of a directory, in byte order. `EOVERFLOW` if there are more than 256, which [`Limits::V3`] allow.
    /// [`read_dir`](Tree::read_dir) returns any number.
    pub fn readdir(&mut self, path: impl AsPath) -> Result<Vec<Vec<u8>>, Error> {
        let own = self.own()?;
        let (path, mut count, mut number) = (path.path_bytes(), 0, 0);
        let (out, room) = (self.room.as_mut_ptr(), self.room.len());
        // SAFETY: the handle is this tree's alone, and the path and the room are slices with their lengths.
        let status = unsafe {
            ffi::atomfs_readdir(
                self.handle.as_ptr(),
                own,
                path.as_ptr(),
                path.len(),
                out,
                room,
                &mut count,
                &mut number,
            )
        };
        if status == TOO_SMALL || status == UNTOLD {
            self.noted(number);
            return self.told_names(number);
        }
        self.called(status, number, &Call::Readdir(path))?;
        Ok(names_of(&self.room[..count]))
    }

    /// At most `count` names of a directory, and at most 256, in byte order. They come after the last name of `after`,
    /// or from the first on if that is the root. Only a tree with [`Limits::V3`] has this call.
    ///
    /// ```
    /// let mut tree = atomfs::Tree::new()?;
    /// for name in ["/a", "/b", "/c"] {
    ///     tree.mknod(name)?;
    /// }
    /// assert_eq!(tree.list("/", "/", 2)?, [b"a", b"b"]);
    /// assert_eq!(tree.list("/", "/b", 2)?, [b"c"]);
    /// # Ok::<(), atomfs::Error>(())
    /// ```
    pub fn list(&mut self, path: impl AsPath, after: impl AsPath, count: u32) -> Result<Vec<Vec<u8>>, Error> {
        let own = self.own()?;
        let (path, after, mut told, mut number) = (path.path_bytes(), after.path_bytes(), 0, 0);
        // SAFETY: the handle is this tree's alone, and the path and the room are slices with their lengths.
        let status = unsafe {
            ffi::atomfs_list(
                self.handle.as_ptr(),
                own,
                path.as_ptr(),
                path.len(),
                after.as_ptr(),
                after.len(),
                count,
                self.room.as_mut_ptr(),
                self.room.len(),
                &mut told,
                &mut number,
            )
        };
        if status == TOO_SMALL || status == UNTOLD {
            self.noted(number);
            return self.told_names(number);
        }
        self.called(status, number, &Call::List(path, after, count))?;
        Ok(names_of(&self.room[..told]))
    }

    /// At most `count` bytes of a file from an offset on, and at most [`Limits::read_bytes`].
    pub fn read(&mut self, path: impl AsPath, offset: u64, count: usize) -> Result<Vec<u8>, Error> {
        let path = path.path_bytes();
        if count > self.room.len() {
            // The file may be shorter than what is asked for by far.
            let size = usize::try_from(self.stat(path)?.size).unwrap_or(usize::MAX);
            self.make_room(count.min(size).min(self.limits.read_bytes()));
        }
        let count = count.min(self.room.len());
        let mut room = std::mem::take(&mut self.room);
        let read = self.read_into(path, offset, &mut room[..count]);
        self.room = room;
        Ok(self.room[..read?].to_vec())
    }

    /// Reads bytes of a file from an offset on into `out`, and returns how many: as many as there are and as `out` has
    /// room for, and at most [`Limits::read_bytes`].
    pub fn read_into(&mut self, path: impl AsPath, offset: u64, out: &mut [u8]) -> Result<usize, Error> {
        let own = self.own()?;
        let (path, mut count, mut number) = (path.path_bytes(), 0, 0);
        // SAFETY: the handle is this tree's alone, and the path and the room are slices with their lengths.
        let mut status = unsafe {
            ffi::atomfs_read(
                self.handle.as_ptr(),
                own,
                path.as_ptr(),
                path.len(),
                offset,
                out.as_mut_ptr(),
                out.len(),
                &mut count,
                &mut number,
            )
        };
        if status == UNTOLD {
            // SAFETY: the handle is this tree's alone, and the room is a slice with its length.
            status = unsafe {
                ffi::atomfs_reply_bytes(self.handle.as_ptr(), number, out.as_mut_ptr(), out.len(), &mut count)
            };
        }
        self.called(status, number, &Call::Read(path, offset, out.len() as u64))?;
        Ok(count)
    }

    /// Writes bytes into a file at an offset, all of them or none, and returns how many. A gap before them reads as
    /// zeros.
    pub fn write(&mut self, path: impl AsPath, offset: u64, bytes: impl AsRef<[u8]>) -> Result<u64, Error> {
        let own = self.own()?;
        let (path, bytes, mut wrote, mut number) = (path.path_bytes(), bytes.as_ref(), 0, 0);
        // SAFETY: the handle is this tree's alone, and the path and the bytes are slices with their lengths.
        let status = unsafe {
            ffi::atomfs_write(
                self.handle.as_ptr(),
                own,
                path.as_ptr(),
                path.len(),
                offset,
                bytes.as_ptr(),
                bytes.len(),
                &mut wrote,
                &mut number,
            )
        };
        self.called(status, number, &Call::Write(path, offset, bytes))?;
        Ok(wrote)
    }

    /// Cuts a file to a size, or adds zeros up to it.
    pub fn truncate(&mut self, path: impl AsPath, size: u64) -> Result<(), Error> {
        let own = self.own()?;
        let (path, mut number) = (path.path_bytes(), 0);
        // SAFETY: the handle is this tree's alone, and the path is a slice with its length.
        let status =
            unsafe { ffi::atomfs_truncate(self.handle.as_ptr(), own, path.as_ptr(), path.len(), size, &mut number) };
        self.called(status, number, &Call::Truncate(path, size))
    }

    /// Makes a call from its begin to its return, and returns its reply, as the method of its name does.
    ///
    /// ```
    /// use atomfs::{Call, Reply, Tree};
    ///
    /// let mut tree = Tree::new()?;
    /// assert_eq!(tree.call(&Call::mkdir("/a"))?, Reply::Done);
    /// assert_eq!(tree.call(&Call::readdir("/"))?, Reply::Names(vec![b"a".to_vec()]));
    /// # Ok::<(), atomfs::Error>(())
    /// ```
    pub fn call(&mut self, call: &Call) -> Result<Reply, Error> {
        match *call {
            Call::Mkdir(path) => self.mkdir(path).map(|()| Reply::Done),
            Call::Mknod(path) => self.mknod(path).map(|()| Reply::Done),
            Call::Unlink(path) => self.unlink(path).map(|()| Reply::Done),
            Call::Rmdir(path) => self.rmdir(path).map(|()| Reply::Done),
            Call::Rename(path, other) => self.rename(path, other).map(|()| Reply::Done),
            Call::Exchange(path, other) => self.exchange(path, other).map(|()| Reply::Done),
            Call::Stat(path) => self.stat(path).map(Reply::Stat),
            Call::Readdir(path) => self.readdir(path).map(Reply::Names),
            Call::List(path, after, count) => self.list(path, after, count).map(Reply::Names),
            Call::Read(path, offset, count) => {
                let count = usize::try_from(count).unwrap_or(usize::MAX);
                self.read(path, offset, count).map(Reply::Bytes)
            }
            Call::Write(path, offset, bytes) => self.write(path, offset, bytes).map(Reply::Wrote),
            Call::Truncate(path, size) => self.truncate(path, size).map(|()| Reply::Done),
        }
    }

    fn on_path(&mut self, function: OnPath, call: &Call) -> Result<(), Error> {
        let own = self.own()?;
        let ((path, _), mut number) = (call.paths(), 0);
        // SAFETY: the handle is this tree's alone, and each path is a slice with its length.
        let status = unsafe { function(self.handle.as_ptr(), own, path.as_ptr(), path.len(), &mut number) };
        self.called(status, number, call)
    }

    fn on_paths(&mut self, function: OnPaths, call: &Call) -> Result<(), Error> {
        let own = self.own()?;
        let ((path, other), mut number) = (call.paths(), 0);
        let other = other.unwrap_or(path);
        // SAFETY: the handle is this tree's alone, and each path is a slice with its length.
        let status = unsafe {
            function(self.handle.as_ptr(), own, path.as_ptr(), path.len(), other.as_ptr(), other.len(), &mut number)
        };
        self.called(status, number, call)
    }

    /// What came of a call of the tree's own. One that waits keeps its seat, and the tree takes another.
    fn called(&mut self, status: u8, number: u64, call: &Call) -> Result<(), Error> {
        if number > 0 {
            self.noted(number);
        }
        match status {
            OK => Ok(()),
            WAITS => {
                let waits = self.own.take().ok_or(ErrorKind::NoSeat)?;
                self.began(waits, number, call);
                Err(Error::of_call(ErrorKind::Waits(waits), call.paths()))
            }
            _ => Err(Error::of_refused(status, number, call, self.limits)),
        }
    }

    /// The seat of the tree's own calls.
    fn own(&mut self) -> Result<u64, Error> {
        let own = match self.own {
            Some(own) => own,
            None => self.seat()?,
        };
        self.own = Some(own);
        Ok(own.number)
    }

    /// The seat of the tree's own calls.
    pub(crate) fn seat_of_own(&mut self) -> Result<Seat, Error> {
        let number = self.own()?;
        Ok(self.seat_of(number))
    }

    /// Adds a seat, which is a slot for one pending call.
    pub fn seat(&mut self) -> Result<Seat, Error> {
        let mut number = 0;
        // SAFETY: the handle is this tree's alone, and the rest are locals.
        done(unsafe { ffi::atomfs_seat(self.handle.as_ptr(), &mut number) })?;
        Ok(self.seat_of(number))
    }

    /// The seat of a number, as whoever has it now.
    fn seat_of(&self, number: u64) -> Seat {
        let turn = self.turns.as_ref().map_or(0, |turns| turns.of(number));
        Seat { tree: self.id, number, turn }
    }

    /// Refuses the seat of another tree, and that of a session that has ended.
    fn own_seat(&self, seat: Seat) -> Result<(), Error> {
        if seat.tree != self.id {
            return Err(ErrorKind::ForeignSeat.into());
        }
        match seat == self.seat_of(seat.number) {
            true => Ok(()),
            false => Err(ErrorKind::NoSeat.into()),
        }
    }

    /// Begins a call on a seat, and returns its number.
    ///
    /// ```
    /// use atomfs::{Call, Did, Reply, Tree};
    ///
    /// let mut tree = Tree::new()?;
    /// tree.mkdir("/a")?;
    /// let (maker, mover) = (tree.seat()?, tree.seat()?);
    /// // The mkdir stops half-way in /a, and the rename helps it.
    /// tree.begin(maker, &Call::mkdir("/a/x"))?;
    /// for _ in 0..3 {
    ///     tree.step(maker)?;
    /// }
    /// tree.begin(mover, &Call::rename("/a", "/b"))?;
    /// assert_eq!(tree.finish(mover)?, Reply::Done);
    /// assert_eq!(tree.finish(maker)?, Reply::Done);
    /// assert_eq!(tree.readdir("/b")?, [b"x"]);
    /// # Ok::<(), atomfs::Error>(())
    /// ```
    pub fn begin(&mut self, seat: Seat, call: &Call) -> Result<u64, Error> {
        self.own_seat(seat)?;
        let (request, mut number) = (call.request(), 0);
        // SAFETY: the handle is this tree's alone, and what the request leads to is borrowed by the call.
        match unsafe { ffi::atomfs_begin_call(self.handle.as_ptr(), seat.number, &request, &mut number) } {
            OK => {
                self.noted(number);
                self.began(seat, number, call);
                Ok(number)
            }
            status => Err(Error::of_refused(status, number, call, self.limits)),
        }
    }

    fn began(&mut self, seat: Seat, number: u64, call: &Call) {
        let at = usize::try_from(seat.number).expect("a seat is in memory");
        if at >= self.last.len() {
            self.last.resize_with(at + 1, Last::default);
        }
        self.last[at].begins(seat, number, call);
    }

    /// Notes a call that has begun. If its number is not greater than those before, the tree has forgotten them.
    fn noted(&mut self, number: u64) {
        if number <= self.calls {
            self.begin_again();
        }
        self.calls = number;
    }

    /// The journal has begun again, and call numbers at 1.
    fn begin_again(&mut self) {
        self.before += self.calls;
        self.calls = 0;
        self.last.clear();
    }

    /// The last call that was begun on a seat, if the journal has it.
    fn last(&mut self, seat: Seat) -> Option<&mut Last> {
        let last = self.last.get_mut(usize::try_from(seat.number).ok()?);
        last.filter(|last| last.turn == seat.turn)
    }

    pub(crate) fn handle(&mut self) -> NonNull<Handle> {
        self.handle
    }

    pub(crate) fn id(&self) -> u64 {
        self.id
    }

    /// A shared tree has taken the handle over.
    pub(crate) fn is_given_away(&mut self, turns: Arc<Turns>) {
        self.free_handle();
        self.is_shared = true;
        self.turns = Some(turns);
    }

    /// A shared tree lends its handle, on which others have begun so many calls since the last time.
    pub(crate) fn is_lent(&mut self, handle: NonNull<Handle>, begun: u64) {
        self.handle = handle;
        let made = self.before + self.calls + begun;
        let calls = match begun {
            0 => self.calls,
            _ => self.last_number().unwrap_or(self.calls + begun).min(made),
        };
        if made - calls != self.before {
            self.last.clear();
        }
        (self.calls, self.before) = (calls, made - calls);
    }

    /// The number of the last call that the journal has; none if it has no call.
    fn last_number(&mut self) -> Option<u64> {
        let mut entries = 0;
        self.entries(usize::MAX, &mut entries).ok()?;
        let mut behind = 64;
        loop {
            let first = entries.saturating_sub(behind);
            let lines = self.entries(first, &mut 0).ok()?;
            let begun = lines.lines().rev().find_map(|line| line.strip_prefix("begin "));
            match begun {
                Some(words) => return words.split(' ').next()?.parse().ok(),
                None if first == 0 => return Some(0),
                None => behind = behind.saturating_mul(2),
            }
        }
    }

    /// The lines of the journal from an entry on, and how many entries there are.
    fn entries(&mut self, first: usize, entries: &mut usize) -> Result<String, Error> {
        // SAFETY: `tell` gives the tree's handle, and a room with its length.
        self.text(|handle, out, room, count| unsafe { ffi::atomfs_journal(handle, first, out, room, count, entries) })
    }

    /// Makes one step of the call on a seat.
    pub fn step(&mut self, seat: Seat) -> Result<Did, Error> {
        let (mut did, mut about) = (0, 0);
        self.own_seat(seat)?;
        // SAFETY: the handle is this tree's alone, and the rest are locals.
        done(unsafe { ffi::atomfs_step(self.handle.as_ptr(), seat.number, &mut did, &mut about) })?;
        Ok(Did::of(did, about))
    }

    /// Makes one step of some call that does not wait, and returns its seat and what it did. It returns `None` only if
    /// no call is pending. So a loop of it brings every call to its return.
    ///
    /// ```
    /// use atomfs::{Call, Did, Reply, Tree};
    ///
    /// let mut tree = Tree::new()?;
    /// let (one, other) = (tree.seat()?, tree.seat()?);
    /// tree.begin(other, &Call::mkdir("/a"))?;
    /// tree.step(other)?;
    /// tree.begin(one, &Call::rmdir("/a"))?;
    /// assert_eq!(tree.step(one)?, Did::WaitsFor(1));
    /// assert_eq!(tree.step_any()?, Some((other, Did::Committed)));
    /// while tree.step_any()?.is_some() {}
    /// assert_eq!((tree.reply(other)?, tree.reply(one)?), (Reply::Done, Reply::Done));
    /// # Ok::<(), atomfs::Error>(())
    /// ```
    pub fn step_any(&mut self) -> Result<Option<(Seat, Did)>, Error> {
        let (mut seat, mut did, mut about) = (0, 0, 0);
        // SAFETY: the handle is this tree's alone, and the rest are locals.
        done(unsafe { ffi::atomfs_step_any(self.handle.as_ptr(), &mut seat, &mut did, &mut about) })?;
        Ok(match Did::of(did, about) {
            Did::Idle => None,
            did => Some((self.seat_of(seat), did)),
        })
    }

    /// Makes the steps of the call on a seat up to its return, and returns its reply. `ErrorKind::Waits` says that the
    /// call of another seat has to go on first.
    pub fn finish(&mut self, seat: Seat) -> Result<Reply, Error> {
        loop {
            match self.step(seat)? {
                Did::Returned | Did::Idle => return self.reply(seat),
                Did::WaitsFor(_) => return Err(self.of_last(seat, ErrorKind::Waits(seat))),
                _ => {}
            }
        }
    }

    /// An error of the last call that was begun on a seat.
    fn of_last(&mut self, seat: Seat, kind: ErrorKind) -> Error {
        match self.last(seat) {
            Some(last) => Error::of_call(kind, (&last.path, last.other.as_deref())),
            None => kind.into(),
        }
    }

    /// The reply of the last call that was begun on a seat, once it has returned.
    pub fn reply(&mut self, seat: Seat) -> Result<Reply, Error> {
        self.own_seat(seat)?;
        let last = self.last(seat).ok_or(ErrorKind::NoReply)?;
        let (number, kind) = (last.number, last.kind);
        let told = self.told(number, kind);
        told.map_err(|error| self.of_last(seat, error.kind()))
    }

    /// The reply of the call of a number.
    fn told(&mut self, number: u64, kind: Kind) -> Result<Reply, Error> {
        match kind {
            Kind::Done => {
                // SAFETY: the handle is this tree's alone.
                done(unsafe { ffi::atomfs_reply_done(self.handle.as_ptr(), number) })?;
                Ok(Reply::Done)
            }
            Kind::Stat => {
                let mut stat = RawStat::default();
                // SAFETY: the handle is this tree's alone, and the rest are locals.
                done(unsafe { ffi::atomfs_reply_stat(self.handle.as_ptr(), number, &mut stat) })?;
                Ok(Reply::Stat(stat_of(stat)))
            }
            Kind::Wrote => {
                let mut wrote = 0;
                // SAFETY: the handle is this tree's alone, and the rest are locals.
                done(unsafe { ffi::atomfs_reply_wrote(self.handle.as_ptr(), number, &mut wrote) })?;
                Ok(Reply::Wrote(wrote))
            }
            Kind::Names => self.told_names(number).map(Reply::Names),
            Kind::Bytes => self.told_bytes(number).map(Reply::Bytes),
        }
    }

    /// The names that a call replied, in pieces for which there is room.
    fn told_names(&mut self, number: u64) -> Result<Vec<Vec<u8>>, Error> {
        let mut names: Vec<Vec<u8>> = Vec::new();
        loop {
            let (after, mut count) = (names.last().map_or(&[][..], Vec::as_slice), 0);
            let (out, room) = (self.room.as_mut_ptr(), self.room.len());
            // SAFETY: the handle is this tree's alone, and the name and the room are slices with their lengths.
            let status = unsafe {
                ffi::atomfs_reply_names(
                    self.handle.as_ptr(),
                    number,
                    after.as_ptr(),
                    after.len(),
                    out,
                    room,
                    &mut count,
                )
            };
            match status {
                OK if count == 0 => return Ok(names),
                OK => names.extend(names_of(&self.room[..count])),
                TOO_SMALL => self.make_room(count),
                _ => return Err(Error::of(status, number)),
            }
        }
    }

    fn told_bytes(&mut self, number: u64) -> Result<Vec<u8>, Error> {
        let count =
            // SAFETY: `tell` gives the tree's handle, and a room with its length.
            self.tell(|handle, out, room, count| unsafe { ffi::atomfs_reply_bytes(handle, number, out, room, count) })?;
        Ok(self.room[..count].to_vec())
    }

    /// How many calls there were before those of the journal. Checkpoints returned them, or they were forgotten.
    pub fn calls_before(&self) -> u64 {
        self.before
    }

    /// Sets how many calls the journal keeps from now on.
    ///
    /// ```
    /// let mut tree = atomfs::Tree::new()?;
    /// tree.keep(atomfs::Journal::Last(1_000))?;
    /// for _ in 0..2_500 {
    ///     tree.stat("/")?;
    /// }
    /// assert_eq!(tree.calls_before(), 2_002);
    /// # Ok::<(), atomfs::Error>(())
    /// ```
    pub fn keep(&mut self, journal: Journal) -> Result<(), Error> {
        let most = match journal {
            Journal::All => KEEP_ALL,
            Journal::Last(most) => most.min(KEEP_ALL - 1),
        };
        // SAFETY: the handle is this tree's alone.
        done(unsafe { ffi::atomfs_keep(self.handle.as_ptr(), most) })?;
        self.keeps = journal;
        Ok(())
    }

    /// Lets the journal begin again at the tree as it is now, and returns how many calls are forgotten.
    /// `ErrorKind::UnderWay` has the number of a pending call.
    pub fn forget(&mut self) -> Result<u64, Error> {
        let mut number = 0;
        // SAFETY: the handle is this tree's alone, and the rest are locals.
        match unsafe { ffi::atomfs_forget(self.handle.as_ptr(), &mut number) } {
            OK => {
                self.begin_again();
                Ok(number)
            }
            status => Err(Error::of(status, number)),
        }
    }

    /// The journal: what [`check`](crate::check) reads. Its first call comes after
    /// [`calls_before`](Tree::calls_before) others.
    pub fn journal(&mut self) -> Result<String, Error> {
        let mut journal =
            // SAFETY: `tell` gives the tree's handle, and a room with its length.
            self.text(|handle, out, room, count| unsafe { ffi::atomfs_opening(handle, out, room, count) })?;
        journal += &self.entries(0, &mut 0)?;
        Ok(journal)
    }

    /// A page that plays the calls of the journal event by event in a browser: the text of one HTML file, as
    /// [`page`](crate::page()) makes it.
    ///
    /// ```
    /// let mut tree = atomfs::Tree::new()?;
    /// tree.mkdir("/a")?;
    /// let file = std::env::temp_dir().join("atomfs-calls.html");
    /// std::fs::write(&file, tree.page()?).unwrap();
    /// # std::fs::remove_file(&file).unwrap();
    /// # Ok::<(), atomfs::Error>(())
    /// ```
    pub fn page(&mut self) -> Result<String, Error> {
        page(self.journal()?, Schedule::Given)
    }

    /// The verdict on the journal as it is now, without a text: `lawful`, or the first entry at fault. By the proof it
    /// is always `lawful`. Calls that were forgotten, or that a checkpoint returned, are not looked at.
    pub fn check(&mut self) -> Result<String, Error> {
        let (mut place, mut kind) = (0, 0);
        // SAFETY: the handle is this tree's alone, and the rest are locals.
        done(unsafe { ffi::atomfs_verdict(self.handle.as_ptr(), &mut place, &mut kind) })?;
        Ok(match FAULTS.get(usize::from(kind)) {
            None | Some(&"") => "lawful".to_owned(),
            Some(word) => format!("fault {place} {word}"),
        })
    }

    /// Returns the journal, and lets it begin again at the tree as it is now, which gives its memory back.
    /// `ErrorKind::UnderWay` has the number of a pending call.
    pub fn checkpoint(&mut self) -> Result<String, Error> {
        let mut number = 0;
        let told = self
            // SAFETY: `tell` gives the tree's handle, and a room with its length.
            .text(|handle, out, room, count| unsafe { ffi::atomfs_checkpoint(handle, out, room, count, &mut number) });
        match told {
            Err(error) if matches!(error.kind(), ErrorKind::UnderWay(_)) => Err(ErrorKind::UnderWay(number).into()),
            Ok(_) => {
                self.begin_again();
                told
            }
            _ => told,
        }
    }

    /// The text of the tree: a line for each node.
    pub fn text_of_tree(&mut self) -> Result<String, Error> {
        // SAFETY: `tell` gives the tree's handle, and a room with its length.
        self.text(|handle, out, room, count| unsafe { ffi::atomfs_tree(handle, out, room, count) })
    }

    /// How many nodes there are: the lines of the tree but the first. None if memory ran out.
    fn nodes(&self) -> Option<usize> {
        let (mut room, mut count) = (vec![0; ROOM], 0);
        loop {
            let (out, size) = (room.as_mut_ptr(), room.len());
            // SAFETY: the handle is this tree's, it is only read, and the room is a vector with its length.
            match unsafe { ffi::atomfs_tree(self.handle.as_ptr(), out, size, &mut count) } {
                OK => {
                    let lines = room[..count].iter().filter(|byte| **byte == b'\n');
                    return Some(lines.count().saturating_sub(1));
                }
                TOO_SMALL => room.resize(count, 0),
                _ => return None,
            }
        }
    }

    fn text(&mut self, ask: impl FnMut(*mut Handle, *mut u8, usize, *mut usize) -> u8) -> Result<String, Error> {
        let count = self.tell(ask)?;
        Ok(ascii(&self.room[..count]))
    }

    /// How many bytes a function wrote into the room, which becomes as long as they need.
    fn tell(&mut self, mut ask: impl FnMut(*mut Handle, *mut u8, usize, *mut usize) -> u8) -> Result<usize, Error> {
        loop {
            let mut count = 0;
            match ask(self.handle.as_ptr(), self.room.as_mut_ptr(), self.room.len(), &mut count) {
                OK => return Ok(count),
                TOO_SMALL => self.make_room(count),
                status => return Err(Error::of(status, 0)),
            }
        }
    }

    /// Gives the memory of the tree's own handle back, which is closed.
    fn free_handle(&mut self) {
        // SAFETY: it comes from a box, in `closed`, and goes back once: in `drop`, or where a shared tree has taken
        // what is behind it.
        drop(unsafe { Box::from_raw(self.handle.as_ptr()) });
        self.handle = NonNull::dangling();
    }

    fn make_room(&mut self, size: usize) {
        if size > self.room.len() {
            self.room.resize(size, 0);
        }
    }
}

impl Drop for Tree {
    fn drop(&mut self) {
        if self.is_shared {
            return;
        }
        // SAFETY: the handle is this tree's alone, and nothing is asked of it behind this.
        unsafe { ffi::atomfs_close(self.handle.as_ptr()) };
        self.free_handle();
    }
}

/// It shows how many nodes there are, for which it makes the text of the tree, and how many calls the journal has.
impl fmt::Debug for Tree {
    fn fmt(&self, f: &mut fmt::Formatter<'_>) -> fmt::Result {
        f.debug_struct("Tree")
            .field("nodes", &self.nodes())
            .field("calls", &self.calls)
            .field("limit", &self.limit)
            .field("limits", &self.limits)
            .finish_non_exhaustive()
    }
}

fn done(status: u8) -> Result<(), Error> {
    match status {
        OK => Ok(()),
        _ => Err(Error::of(status, 0)),
    }
}

fn stat_of(stat: RawStat) -> Stat {
    Stat { is_dir: stat.is_dir != 0, size: stat.size }
}

/// The names of a reply, in which a byte 0 follows each.
pub(crate) fn names_of(told: &[u8]) -> Vec<Vec<u8>> {
    let mut names: Vec<Vec<u8>> = told.split(|byte| *byte == 0).map(<[u8]>::to_vec).collect();
    names.pop();
    names
}
