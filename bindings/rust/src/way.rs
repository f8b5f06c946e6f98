//! The tree that C's functions share, and the ways of threads into it.

use std::any::Any;
use std::cell::{Cell, RefCell, UnsafeCell};
use std::collections::BTreeMap;
use std::fmt;
use std::os::raw::c_void;
use std::panic::{self, AssertUnwindSafe};
use std::ptr::{self, NonNull};
use std::sync::atomic::{AtomicU64, Ordering};
use std::sync::{Arc, Mutex, MutexGuard, PoisonError};

use crate::call::{Call, Did, Reply, Seat, Stat};
use crate::error::{Error, ErrorKind};
use crate::ffi::{self, RawStat, OK, WAITS};
use crate::limits::Limits;
use crate::texts::{ascii, told, ROOM};
use crate::tree::{names_of, Tree};

type Gate = Box<dyn Fn(Seat, Did) + Send + Sync>;

/// What a gate is called with.
struct Gated {
    gate: Gate,
    /// The number of the tree, for its seats.
    tree: u64,
}

/// How many sessions have ended that had a seat, by its number. So the seat of an ended session is not that of the
/// next.
#[derive(Default)]
pub(crate) struct Turns(Mutex<BTreeMap<u64, u64>>);

impl Turns {
    pub(crate) fn of(&self, number: u64) -> u64 {
        held(&self.0).get(&number).copied().unwrap_or(0)
    }

    /// Whoever had the seat has it no more. The turn of the next one.
    fn ends(&self, number: u64) -> u64 {
        let mut turns = held(&self.0);
        let turn = turns.entry(number).or_default();
        *turn += 1;
        *turn
    }
}

/// A tree of `atomfs_shared_from`.
pub(crate) struct Shared {
    shared: NonNull<ffi::Shared>,
    /// What is known of the handle. The thread to which it is lent, and no other, comes to it.
    tree: UnsafeCell<Tree>,
    pub(crate) id: u64,
    pub(crate) limits: Limits,
    /// How many calls ways have begun since the handle was lent last.
    begun: AtomicU64,
    /// The ways that no session and no call has.
    free: Mutex<Vec<Way>>,
    turns: Arc<Turns>,
    /// All gates that there were: a thread may still be in an old one.
    gates: Mutex<Vec<Arc<Gated>>>,
}

// SAFETY: C's functions take a lock of the tree. What is known of the handle is used by the thread alone to which it is
// lent, and a `Tree` is `Send`.
unsafe impl Send for Shared {}
// SAFETY: as above.
unsafe impl Sync for Shared {}

fn held<V>(value: &Mutex<V>) -> MutexGuard<'_, V> {
    value.lock().unwrap_or_else(PoisonError::into_inner)
}

impl Shared {
    /// The tree, its journal and its seats go over.
    pub(crate) fn of(mut tree: Tree) -> Result<Arc<Shared>, Error> {
        let mut shared = ptr::null_mut();
        // SAFETY: the handle is the tree's alone, and the rest is a local.
        match unsafe { ffi::atomfs_shared_from(&mut shared, tree.handle().as_ptr()) } {
            OK => {}
            status => return Err(Error::of(status, 0)),
        }
        let shared = NonNull::new(shared).ok_or(ErrorKind::OutOfMemory)?;
        let turns = Arc::<Turns>::default();
        tree.is_given_away(Arc::clone(&turns));
        Ok(Arc::new(Shared {
            shared,
            id: tree.id(),
            limits: tree.limits(),
            tree: UnsafeCell::new(tree),
            begun: AtomicU64::new(0),
            free: Mutex::default(),
            turns,
            gates: Mutex::default(),
        }))
    }

    fn as_ptr(&self) -> *mut ffi::Shared {
        self.shared.as_ptr()
    }

    /// Waits until no call is pending, and borrows the handle.
    pub(crate) fn borrow_handle(&self) -> Result<(), Error> {
        let mut handle = ptr::null_mut();
        // SAFETY: the tree is open as long as this value is there, and the rest is a local.
        match unsafe { ffi::atomfs_shared_lock(self.as_ptr(), &mut handle) } {
            OK => {}
            WAITS => return Err(self.waited(0)),
            status => return Err(Error::of(status, 0)),
        }
        let begun = self.begun.swap(0, Ordering::SeqCst);
        // SAFETY: the handle is lent to this thread, so no other one comes to the cell.
        let tree = unsafe { &mut *self.tree.get() };
        tree.is_lent(NonNull::new(handle).ok_or(ErrorKind::OutOfMemory)?, begun);
        Ok(())
    }

    /// What is known of the handle, of the thread to which it is lent.
    ///
    /// # Safety
    ///
    /// The handle is lent to this thread, and nothing else has this reference.
    #[allow(clippy::mut_from_ref)]
    pub(crate) unsafe fn lent(&self) -> &mut Tree {
        // SAFETY: by the caller.
        unsafe { &mut *self.tree.get() }
    }

    pub(crate) fn give_handle_back(&self) {
        // SAFETY: the tree is open as long as this value is there.
        unsafe { ffi::atomfs_shared_unlock(self.as_ptr()) };
    }

    /// A way of its own, with a seat that no other one has.
    pub(crate) fn way(&self) -> Result<Way, Error> {
        if let Some(way) = held(&self.free).pop() {
            return Ok(way);
        }
        let (mut session, mut seat) = (ptr::null_mut(), 0);
        // SAFETY: the tree is open as long as this value is there, and the rest are locals.
        match unsafe { ffi::atomfs_shared_session(self.as_ptr(), &mut session, &mut seat) } {
            OK => {}
            WAITS => return Err(self.waited(0)),
            status => return Err(Error::of(status, 0)),
        }
        let session = NonNull::new(session).ok_or(ErrorKind::OutOfMemory)?;
        let seat = Seat { tree: self.id, number: seat, turn: self.turns.of(seat) };
        Ok(Way { session, seat, room: Vec::new(), is_left: false })
    }

    /// A session has ended: its seat is no seat any more, and another one may have its number.
    pub(crate) fn ends(&self, mut way: Way) {
        way.seat.turn = self.turns.ends(way.seat.number);
        self.give_way_back(way);
    }

    /// A way is free again. If its call is still pending, others make its steps, and C's functions keep the seat until
    /// it has returned.
    pub(crate) fn give_way_back(&self, way: Way) {
        if !way.is_left {
            held(&self.free).push(way);
            return;
        }
        self.turns.ends(way.seat.number);
        let mut session = way.session.as_ptr();
        // SAFETY: the session is this way's, which is gone behind this, and the tree is open.
        unsafe { ffi::atomfs_shared_end(&mut session) };
    }

    pub(crate) fn pauses(&self, seed: u64) {
        // SAFETY: the tree is open as long as this value is there.
        unsafe { ffi::atomfs_shared_pauses(self.as_ptr(), seed) };
    }

    pub(crate) fn wait_most(&self, milliseconds: u32) {
        // SAFETY: the tree is open as long as this value is there.
        unsafe { ffi::atomfs_shared_wait_most(self.as_ptr(), milliseconds) };
    }

    pub(crate) fn finish(&self) -> u64 {
        let mut count = 0;
        // SAFETY: the tree is open as long as this value is there, and the rest is a local.
        unsafe { ffi::atomfs_shared_finish(self.as_ptr(), &mut count) };
        count
    }

    pub(crate) fn holders(&self) -> String {
        // SAFETY: the tree is open as long as this value is there, and `told` gives a room with its length.
        let told = told(|out, room, count| unsafe { ffi::atomfs_shared_holders(self.as_ptr(), out, room, count) });
        told.map_or_else(|_| String::new(), |told| ascii(&told))
    }

    /// The error of a wait that was given up.
    fn waited(&self, number: u64) -> Error {
        Error::from(ErrorKind::TimedOut(number)).with_holders(self.holders())
    }

    pub(crate) fn gate(&self, gate: Option<Gate>) {
        let mut gates = held(&self.gates);
        let (function, context): (Option<ffi::Gate>, *mut c_void) = match gate {
            None => (None, ptr::null_mut()),
            Some(gate) => {
                let gated = Arc::new(Gated { gate, tree: self.id });
                let context = Arc::as_ptr(&gated) as *mut c_void;
                gates.push(gated);
                (Some(pass), context)
            }
        };
        // SAFETY: the tree is open as long as this value is there, and the gate is kept as long.
        unsafe { ffi::atomfs_shared_gate(self.as_ptr(), function, context) };
    }
}

impl Drop for Shared {
    fn drop(&mut self) {
        // Calls that were left, whose ways are gone.
        self.finish();
        let mut shared = self.as_ptr();
        // SAFETY: nobody else has the tree any more, and no call is under way.
        unsafe { ffi::atomfs_shared_close(&mut shared) };
    }
}

impl fmt::Debug for Shared {
    fn fmt(&self, f: &mut fmt::Formatter<'_>) -> fmt::Result {
        f.debug_struct("SharedTree").field("limits", &self.limits).finish_non_exhaustive()
    }
}

thread_local! {
    /// What a gate of this thread's call panicked with: the call goes on to its return first.
    static PANICKED: RefCell<Option<Box<dyn Any + Send>>> = const { RefCell::new(None) };
    /// The seat of the call that this thread makes.
    static CALLS_ON: Cell<Option<Seat>> = const { Cell::new(None) };
}

/// Goes on with the panic of a gate, once its call has returned.
pub(crate) fn panic_of_gate() {
    if let Some(payload) = PANICKED.with(|panicked| panicked.borrow_mut().take()) {
        panic::resume_unwind(payload);
    }
}

extern "C" fn pass(context: *mut c_void, seat: u64, did: u8, about: u64) {
    // SAFETY: the context is of `Shared::gate`, which keeps it as long as the tree.
    let gated = unsafe { &*context.cast::<Gated>() };
    if PANICKED.with(|panicked| panicked.borrow().is_some()) {
        return;
    }
    let calls_on = CALLS_ON.with(Cell::get);
    let turn = calls_on.map_or(0, |calls_on| calls_on.turn);
    let seat = Seat { tree: gated.tree, number: seat, turn };
    let came = panic::catch_unwind(AssertUnwindSafe(|| (gated.gate)(seat, Did::of(did, about))));
    if let Err(payload) = came {
        PANICKED.with(|panicked| *panicked.borrow_mut() = Some(payload));
    }
}

/// A session of C's, which one thread has at a time.
pub(crate) struct Way {
    session: NonNull<ffi::Session>,
    pub(crate) seat: Seat,
    room: Vec<u8>,
    /// Its last call is pending: the wait for it was given up.
    is_left: bool,
}

// SAFETY: C's session may go from thread to thread.
unsafe impl Send for Way {}
// SAFETY: nothing is done with a shared reference to it.
unsafe impl Sync for Way {}

impl fmt::Debug for Way {
    fn fmt(&self, f: &mut fmt::Formatter<'_>) -> fmt::Result {
        f.debug_struct("Session").field("seat", &self.seat).finish_non_exhaustive()
    }
}

impl Way {
    /// Makes a call, step by step between those of other threads. `panic_of_gate` has to follow.
    pub(crate) fn call(&mut self, shared: &Shared, call: &Call) -> Result<Reply, Error> {
        let mut number = 0;
        // A gate may make a call on another tree meanwhile.
        let before = CALLS_ON.with(|calls_on| calls_on.replace(Some(self.seat)));
        let (status, reply) = self.made(shared, call, &mut number);
        CALLS_ON.with(|calls_on| calls_on.set(before));
        let has_begun = number > 0;
        self.is_left = if has_begun { status == WAITS } else { self.is_left };
        shared.begun.fetch_add(u64::from(has_begun), Ordering::SeqCst);
        match status {
            OK => Ok(reply),
            WAITS => {
                let paths = Error::of_call(ErrorKind::TimedOut(number), call.paths());
                Err(paths.with_holders(shared.holders()))
            }
            _ => Err(Error::of_refused(status, number, call, shared.limits)),
        }
    }

    /// What C answers to a call, and its reply at OK.
    fn made(&mut self, shared: &Shared, call: &Call, number: &mut u64) -> (u8, Reply) {
        let session = self.session.as_ptr();
        let ((path, other), mut count) = (call.paths(), 0);
        let (path_at, path_length) = (path.as_ptr(), path.len());
        let other = other.or(call.after()).unwrap_or_default();
        let (other_at, other_length) = (other.as_ptr(), other.len());
        let function: ffi::OfSession = match *call {
            Call::Rename(..) | Call::Exchange(..) => {
                let function = match call {
                    Call::Rename(..) => ffi::atomfs_shared_rename,
                    _ => ffi::atomfs_shared_exchange,
                };
                // SAFETY: the session is this way's, and each path is a slice with its length.
                let status = unsafe { function(session, path_at, path_length, other_at, other_length, number) };
                return (status, Reply::Done);
            }
            Call::Stat(_) => {
                let mut stat = RawStat::default();
                // SAFETY: the session is this way's, the path is a slice with its length, and the rest are locals.
                let status = unsafe { ffi::atomfs_shared_stat(session, path_at, path_length, &mut stat, number) };
                return (status, Reply::Stat(Stat { is_dir: stat.is_dir != 0, size: stat.size }));
            }
            Call::Readdir(_) | Call::List(..) => {
                let (out, room) = self.room(ROOM);
                let status = match *call {
                    // SAFETY: the session is this way's, and the paths and the room are slices with their lengths.
                    Call::List(_, _, most) => unsafe {
                        ffi::atomfs_shared_list(
                            session,
                            path_at,
                            path_length,
                            other_at,
                            other_length,
                            most,
                            out,
                            room,
                            &mut count,
                            number,
                        )
                    },
                    // SAFETY: as above.
                    _ => unsafe {
                        ffi::atomfs_shared_readdir(session, path_at, path_length, out, room, &mut count, number)
                    },
                };
                return (status, Reply::Names(names_of(self.told(status, count))));
            }
            Call::Read(_, offset, most) => {
                let most = usize::try_from(most).unwrap_or(usize::MAX).min(shared.limits.read_bytes());
                let (out, _) = self.room(most);
                // SAFETY: the session is this way's, and the path and the room are slices of at least these lengths.
                let status = unsafe {
                    ffi::atomfs_shared_read(session, path_at, path_length, offset, out, most, &mut count, number)
                };
                return (status, Reply::Bytes(self.told(status, count).to_vec()));
            }
            Call::Write(_, offset, bytes) => {
                let (mut wrote, bytes_at) = (0, bytes.as_ptr());
                // SAFETY: the session is this way's, and the path and the bytes are slices with their lengths.
                let status = unsafe {
                    ffi::atomfs_shared_write(
                        session,
                        path_at,
                        path_length,
                        offset,
                        bytes_at,
                        bytes.len(),
                        &mut wrote,
                        number,
                    )
                };
                return (status, Reply::Wrote(wrote));
            }
            Call::Truncate(_, size) => {
                // SAFETY: the session is this way's, and the path is a slice with its length.
                let status = unsafe { ffi::atomfs_shared_truncate(session, path_at, path_length, size, number) };
                return (status, Reply::Done);
            }
            Call::Mkdir(_) => ffi::atomfs_shared_mkdir,
            Call::Mknod(_) => ffi::atomfs_shared_mknod,
            Call::Unlink(_) => ffi::atomfs_shared_unlink,
            Call::Rmdir(_) => ffi::atomfs_shared_rmdir,
        };
        // SAFETY: the session is this way's, and the path is a slice with its length.
        (unsafe { function(session, path_at, path_length, number) }, Reply::Done)
    }

    /// Room for at least so many bytes.
    fn room(&mut self, size: usize) -> (*mut u8, usize) {
        if size > self.room.len() {
            self.room.resize(size, 0);
        }
        (self.room.as_mut_ptr(), self.room.len())
    }

    /// What is in the room.
    fn told(&self, status: u8, count: usize) -> &[u8] {
        match status {
            OK => &self.room[..count],
            _ => &[],
        }
    }
}
