//! A tree that threads share.

use std::sync::Arc;
use std::time::Duration;

use crate::call::{Call, Did, Reply, Seat, Stat};
use crate::error::Error;
use crate::ffi::NO_PAUSES;
use crate::file::{File, OpenOptions};
use crate::lent::Lent;
use crate::limits::Limits;
use crate::path::AsPath;
use crate::session::Session;
use crate::tree::Tree;
use crate::way::{panic_of_gate, Shared};
use crate::whole::{self, Calls, Entry};

/// A tree that threads share. Each thread has a clone, and all clones are of one tree.
///
/// Its calls interleave step by step, as those of [`Session`]s do, and one that has to wait for a node sleeps. Each
/// call takes a seat that has no pending call. A [`Session`] keeps its own, by which you can see in a journal whose
/// call it is.
///
/// ```
/// use std::thread;
///
/// let tree = atomfs::SharedTree::new()?;
/// let threads = ["/a", "/b"].map(|name| {
///     let tree = tree.clone();
///     thread::spawn(move || tree.mkdir(name))
/// });
/// for thread in threads {
///     thread.join().unwrap()?;
/// }
/// assert_eq!(tree.readdir("/")?, [b"a", b"b"]);
/// assert_eq!(tree.lock().check()?, "lawful");
/// # Ok::<(), atomfs::Error>(())
/// ```
#[derive(Clone, Debug)]
pub struct SharedTree {
    shared: Arc<Shared>,
}

impl SharedTree {
    /// An empty tree for as many nodes as a tree may have. `ErrorKind::BadChoice` if `ATOMFS_PAUSES` in the environment
    /// is not a number.
    pub fn new() -> Result<SharedTree, Error> {
        SharedTree::try_from(Tree::new()?)
    }

    /// An empty tree for at most so many nodes, its root included.
    pub fn with_limit(limit: usize) -> Result<SharedTree, Error> {
        SharedTree::try_from(Tree::with_limit(limit)?)
    }

    /// An empty tree for at most so many nodes, with these limits.
    pub fn with_limits(limit: usize, limits: Limits) -> Result<SharedTree, Error> {
        SharedTree::try_from(Tree::with_limits(limit, limits)?)
    }

    /// Waits until no call is pending, and then has the tree for itself. So you can ask for its journal and its
    /// verdict, and make steps and calls that nothing comes between. Calls that would begin wait meanwhile, so this
    /// thread makes none through its clone.
    pub fn lock(&self) -> Lent<'_> {
        // However long it takes.
        while self.shared.borrow_handle().is_err() {}
        Lent::new(&self.shared)
    }

    /// The same, but it waits only as long as [`wait_most`](SharedTree::wait_most) says: then `ErrorKind::TimedOut`.
    pub fn try_lock(&self) -> Result<Lent<'_>, Error> {
        self.shared.borrow_handle()?;
        Ok(Lent::new(&self.shared))
    }

    /// Adds a session, which has a seat of its own.
    pub fn session(&self) -> Result<Session, Error> {
        Session::new(&self.shared)
    }

    /// From now on calls pause after some events, at random from this seed and the seat. So calls of threads overlap
    /// that would hardly meet otherwise. With `None` they do not pause. The same seed gives the same pauses, but not
    /// the same run, which [`explore`](crate::explore()) does. `ATOMFS_PAUSES` in the environment is the seed of new
    /// trees.
    pub fn pauses(&self, seed: Option<u64>) {
        self.shared.pauses(seed.map_or(NO_PAUSES, |seed| seed.min(NO_PAUSES - 1)));
    }

    /// From now on calls call `gate` after each of their events: the begin, each step that does not wait, the return.
    /// So a test can stop a call where it wants. The gate runs in the thread of the call, without the lock. It makes no
    /// call on this tree, and what it waits for must not wait for this call. If it panics, the call comes to its return
    /// first. With `None` they call no gate.
    pub fn gate(&self, gate: Option<Box<dyn Fn(Seat, Did) + Send + Sync>>) {
        self.shared.gate(gate);
    }

    /// How long a thread waits at most for a node that a call holds, or for the tree that another thread has locked.
    /// With `None` it waits without end. After that it gets `ErrorKind::TimedOut`, and [`Error::holders`] says who
    /// holds what. If its call had begun, the call is pending. When the thread goes on for which it waits, that one
    /// makes its steps too, without the gate. Less than a millisecond counts as one.
    pub fn wait_most(&self, most: Option<Duration>) {
        let milliseconds = most.map_or(0, |most| u32::try_from(most.as_millis()).unwrap_or(u32::MAX).max(1));
        self.shared.wait_most(milliseconds);
    }

    /// Who holds what: a line for each pending call.
    pub fn holders(&self) -> String {
        self.shared.holders()
    }

    /// Brings all calls to their returns, whether their threads go on with them or not, and returns how many there
    /// were. It helps if a gate keeps one for ever.
    pub fn finish_all(&self) -> u64 {
        self.shared.finish()
    }

    /// Makes a call, whose steps interleave with those of other threads.
    pub fn call(&self, call: &Call) -> Result<Reply, Error> {
        let mut way = self.shared.way()?;
        let came = way.call(&self.shared, call);
        self.shared.give_way_back(way);
        panic_of_gate();
        came
    }

    fn done(&self, call: &Call) -> Result<(), Error> {
        self.call(call).map(|_| ())
    }

    /// Makes an empty directory.
    pub fn mkdir(&self, path: impl AsPath) -> Result<(), Error> {
        self.done(&Call::mkdir(&path))
    }

    /// Makes an empty file.
    pub fn mknod(&self, path: impl AsPath) -> Result<(), Error> {
        self.done(&Call::mknod(&path))
    }

    /// Removes the entry of a file.
    pub fn unlink(&self, path: impl AsPath) -> Result<(), Error> {
        self.done(&Call::unlink(&path))
    }

    /// Removes the entry of an empty directory.
    pub fn rmdir(&self, path: impl AsPath) -> Result<(), Error> {
        self.done(&Call::rmdir(&path))
    }

    /// Moves what is at `path`, with all below it, to `other`. A file or an empty directory there is replaced.
    pub fn rename(&self, path: impl AsPath, other: impl AsPath) -> Result<(), Error> {
        self.done(&Call::rename(&path, &other))
    }

    /// Exchanges what is at two paths, each with all below it.
    pub fn exchange(&self, path: impl AsPath, other: impl AsPath) -> Result<(), Error> {
        self.done(&Call::exchange(&path, &other))
    }

    /// What is at a path.
    pub fn stat(&self, path: impl AsPath) -> Result<Stat, Error> {
        whole::stat(&mut &*self, path.path_bytes())
    }

    /// The names of a directory, in byte order.
    pub fn readdir(&self, path: impl AsPath) -> Result<Vec<Vec<u8>>, Error> {
        whole::readdir(&mut &*self, path.path_bytes())
    }

    /// As [`Tree::list`].
    pub fn list(&self, path: impl AsPath, after: impl AsPath, count: u32) -> Result<Vec<Vec<u8>>, Error> {
        whole::list(&mut &*self, path.path_bytes(), after.path_bytes(), count)
    }

    /// As [`Tree::read_dir`]; calls of other threads can come between its calls.
    pub fn read_dir(&self, path: impl AsPath) -> Result<Vec<Vec<u8>>, Error> {
        whole::read_dir(&mut &*self, path.path_bytes())
    }

    /// At most `count` bytes of a file from an offset on.
    pub fn read(&self, path: impl AsPath, offset: u64, count: u64) -> Result<Vec<u8>, Error> {
        whole::read(&mut &*self, path.path_bytes(), offset, count)
    }

    /// Writes bytes into a file at an offset, all of them or none, and returns how many.
    pub fn write(&self, path: impl AsPath, offset: u64, bytes: impl AsRef<[u8]>) -> Result<u64, Error> {
        whole::write(&mut &*self, path.path_bytes(), offset, bytes.as_ref())
    }

    /// Cuts a file to a size, or adds zeros up to it.
    pub fn truncate(&self, path: impl AsPath, size: u64) -> Result<(), Error> {
        self.done(&Call::truncate(&path, size))
    }

    /// Opens a file to read it from its start. [`OpenOptions`] open it for more.
    pub fn open(&self, path: impl AsPath) -> Result<File<SharedTree>, Error> {
        OpenOptions::new().read(true).open(self.clone(), path)
    }

    /// Opens a file to write it from its start. A new file is made, and one that exists is emptied.
    pub fn create(&self, path: impl AsPath) -> Result<File<SharedTree>, Error> {
        whole::created().open(self.clone(), path)
    }

    /// As [`Tree::create_dir_all`]; calls of other threads can come between its calls.
    pub fn create_dir_all(&self, path: impl AsPath) -> Result<(), Error> {
        whole::create_dir_all(&mut &*self, path.path_bytes())
    }

    /// As [`Tree::walk`]; calls of other threads can come between its calls. What they remove is left out.
    pub fn walk(&self, path: impl AsPath) -> Result<Vec<Entry>, Error> {
        whole::walk(&mut &*self, path.path_bytes())
    }

    /// As [`Tree::read_to_end`]; calls of other threads can come between its calls.
    pub fn read_to_end(&self, path: impl AsPath) -> Result<Vec<u8>, Error> {
        whole::read_to_end(&mut &*self, path.path_bytes())
    }

    /// As [`Tree::write_file`]; calls of other threads can come between its calls.
    pub fn write_file(&self, path: impl AsPath, bytes: impl AsRef<[u8]>) -> Result<(), Error> {
        whole::write_file(&mut &*self, path.path_bytes(), bytes.as_ref())
    }

    /// As [`Tree::remove_dir_all`]; calls of other threads can come between its calls. It fails with `ENOTEMPTY` if
    /// they put something below the path meanwhile.
    pub fn remove_dir_all(&self, path: impl AsPath) -> Result<(), Error> {
        whole::remove_dir_all(&mut &*self, path.path_bytes())
    }
}

/// Shares a tree, with its journal and its seats. Pending calls come to their returns.
impl TryFrom<Tree> for SharedTree {
    type Error = Error;

    fn try_from(tree: Tree) -> Result<SharedTree, Error> {
        Ok(SharedTree { shared: Shared::of(tree)? })
    }
}

impl Calls for SharedTree {
    fn call(&mut self, call: &Call) -> Result<Reply, Error> {
        SharedTree::call(self, call)
    }

    fn limits(&mut self) -> Limits {
        self.shared.limits
    }
}

impl Calls for &SharedTree {
    fn call(&mut self, call: &Call) -> Result<Reply, Error> {
        SharedTree::call(self, call)
    }

    fn limits(&mut self) -> Limits {
        self.shared.limits
    }
}
