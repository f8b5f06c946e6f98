//! The handle of a shared tree, while a thread has it.

use std::fmt;
use std::panic::Location;

use crate::call::{Call, Did, Reply, Seat};
use crate::error::Error;
use crate::limits::{Journal, Limits};
use crate::methods::methods;
use crate::tree::Tree;
use crate::way::Shared;
use crate::whole::Calls;

/// A shared tree that one thread has for itself. No call of others is pending, and none begins until this value is
/// dropped. Calls on it that are still pending then come to their returns. So they do if a panic drops it, or if a
/// future that has it is dropped.
pub struct Lent<'t> {
    shared: &'t Shared,
}

impl<'t> Lent<'t> {
    /// Of a handle that is lent to this thread.
    pub(crate) fn new(shared: &'t Shared) -> Lent<'t> {
        Lent { shared }
    }

    fn tree(&mut self) -> &mut Tree {
        // SAFETY: the handle is lent to whoever has this value, which is one, and which is borrowed here.
        unsafe { self.shared.lent() }
    }

    fn stands_at(&mut self, _at: &'static Location<'static>) {}

    /// As [`Tree::limits`].
    pub fn limits(&self) -> Limits {
        self.shared.limits
    }

    /// As [`Tree::call`].
    pub fn call(&mut self, call: &Call) -> Result<Reply, Error> {
        self.tree().call(call)
    }

    /// As [`Tree::seat`].
    pub fn seat(&mut self) -> Result<Seat, Error> {
        self.tree().seat()
    }

    /// As [`Tree::begin`].
    pub fn begin(&mut self, seat: Seat, call: &Call) -> Result<u64, Error> {
        self.tree().begin(seat, call)
    }

    /// As [`Tree::step`].
    pub fn step(&mut self, seat: Seat) -> Result<Did, Error> {
        self.tree().step(seat)
    }

    /// As [`Tree::step_any`].
    pub fn step_any(&mut self) -> Result<Option<(Seat, Did)>, Error> {
        self.tree().step_any()
    }

    /// As [`Tree::finish`].
    pub fn finish(&mut self, seat: Seat) -> Result<Reply, Error> {
        self.tree().finish(seat)
    }

    /// As [`Tree::reply`].
    pub fn reply(&mut self, seat: Seat) -> Result<Reply, Error> {
        self.tree().reply(seat)
    }

    /// As [`Tree::calls_before`]. A call whose thread is just getting its reply may not be counted yet.
    pub fn calls_before(&mut self) -> u64 {
        self.tree().calls_before()
    }

    /// As [`Tree::keep`].
    pub fn keep(&mut self, journal: Journal) -> Result<(), Error> {
        self.tree().keep(journal)
    }

    /// As [`Tree::forget`].
    pub fn forget(&mut self) -> Result<u64, Error> {
        self.tree().forget()
    }

    /// As [`Tree::journal`].
    pub fn journal(&mut self) -> Result<String, Error> {
        self.tree().journal()
    }

    /// As [`Tree::page`].
    pub fn page(&mut self) -> Result<String, Error> {
        self.tree().page()
    }

    /// As [`Tree::check`].
    pub fn check(&mut self) -> Result<String, Error> {
        self.tree().check()
    }

    /// As [`Tree::checkpoint`].
    pub fn checkpoint(&mut self) -> Result<String, Error> {
        self.tree().checkpoint()
    }

    /// As [`Tree::text_of_tree`].
    pub fn text_of_tree(&mut self) -> Result<String, Error> {
        self.tree().text_of_tree()
    }

    /// As [`Tree::try_clone`]: a tree of its own, which no thread shares.
    pub fn try_clone(&mut self) -> Result<Tree, Error> {
        self.tree().try_clone()
    }
}

methods!(Lent<'_>, ".");

impl Calls for Lent<'_> {
    fn call(&mut self, call: &Call) -> Result<Reply, Error> {
        Lent::call(self, call)
    }

    fn limits(&mut self) -> Limits {
        self.shared.limits
    }
}

impl Drop for Lent<'_> {
    fn drop(&mut self) {
        self.shared.give_handle_back();
    }
}

impl fmt::Debug for Lent<'_> {
    fn fmt(&self, f: &mut fmt::Formatter<'_>) -> fmt::Result {
        f.debug_struct("Lent").field("limits", &self.shared.limits).finish_non_exhaustive()
    }
}
