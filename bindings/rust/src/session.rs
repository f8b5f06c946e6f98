//! Sessions of threads.

use std::panic::Location;
use std::sync::Arc;

use crate::call::{Call, Reply, Seat};
use crate::error::{Error, ErrorKind};
use crate::limits::Limits;
use crate::methods::methods;
use crate::way::{panic_of_gate, Shared, Way};
use crate::whole::Calls;

/// A thread's way into a [`SharedTree`](crate::SharedTree). It has a seat of its own, whose number the journal has
/// beside each of its calls.
///
/// A session takes the lock of the tree for the begin of a call and for each of its steps, and releases it between
/// them. So the calls of several sessions interleave, and a rename helps the calls below what it moves.
///
/// If [`SharedTree::wait_most`](crate::SharedTree::wait_most) ends the wait of a call, the session may be dropped. The
/// call still comes to its return, since the threads that it waits for make its steps. So it keeps nobody waiting.
///
/// ```
/// use std::thread;
///
/// let tree = atomfs::SharedTree::new()?;
/// thread::scope(|scope| {
///     for name in ["/a", "/b"] {
///         let mut session = tree.session().unwrap();
///         scope.spawn(move || session.mkdir(name).unwrap());
///     }
/// });
/// assert_eq!(tree.readdir("/")?, [b"a", b"b"]);
/// assert_eq!(tree.lock().check()?, "lawful");
/// # Ok::<(), atomfs::Error>(())
/// ```
#[derive(Debug)]
pub struct Session {
    shared: Arc<Shared>,
    /// There until it is dropped.
    way: Option<Way>,
    seat: Seat,
}

impl Session {
    pub(crate) fn new(shared: &Arc<Shared>) -> Result<Session, Error> {
        let way = shared.way()?;
        Ok(Session { shared: Arc::clone(shared), seat: way.seat, way: Some(way) })
    }

    /// Its seat. When the session is dropped, another one can have the number, and this value is refused.
    pub fn seat(&self) -> Seat {
        self.seat
    }

    /// Makes a call, whose steps interleave with those of other threads. It sleeps while another call holds the node
    /// that it wants, and wakes when that call unlocks the node.
    pub fn call(&mut self, call: &Call) -> Result<Reply, Error> {
        let way = self.way.as_mut().ok_or(ErrorKind::NoSeat)?;
        let came = way.call(&self.shared, call);
        panic_of_gate();
        came
    }

    fn stands_at(&mut self, _at: &'static Location<'static>) {}
}

methods!(Session, "; calls of other threads can come between its calls.");

impl Calls for Session {
    fn call(&mut self, call: &Call) -> Result<Reply, Error> {
        Session::call(self, call)
    }

    fn limits(&mut self) -> Limits {
        self.shared.limits
    }
}

impl Drop for Session {
    fn drop(&mut self) {
        if let Some(way) = self.way.take() {
            self.shared.ends(way);
        }
    }
}
