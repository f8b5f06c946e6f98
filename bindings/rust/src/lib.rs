//! AtomFS: a file tree in memory, in which every call is proved to be atomic.
//!
//! A [`Tree`] owns its nodes and the journal of its calls. Its methods make a call from its begin to its return:
//!
//! ```
//! # fn main() -> Result<(), atomfs::Error> {
//! let mut tree = atomfs::Tree::new()?;
//! tree.mkdir("/a")?;
//! tree.mknod("/a/f")?;
//! tree.write("/a/f", 0, b"hello")?;
//! assert_eq!(tree.read("/a/f", 0, 100)?, b"hello");
//! assert_eq!(tree.readdir("/a")?, [b"f"]);
//! assert_eq!(tree.check()?, "lawful");
//! # Ok(())
//! # }
//! ```
//!
//! [`Tree::open`], [`Tree::create`] and [`OpenOptions`] give a [`File`] to read, write and seek.
//!
//! Threads share a tree as a [`SharedTree`], or with [`Session`]s, and their calls interleave step by step.
//! [`Tree::seat`], [`Tree::begin`] and [`Tree::step`] play an interleaving of your own.
//!
//! [`explore()`] runs functions of yours on threads, under schedules from a seed, and cuts down the first that fails.
//! Several cores do so with [`explore_on`]. What comes of the runs is counted by [`outcomes()`].
//!
//! [`check`], [`run`], [`trace`], [`draw`], [`schedule`], [`seeds`], [`linearize`] and [`explain`] are what the program
//! `atomfs` does with texts. [`page()`] makes a file that plays a run in a browser.
//!
//! Errors of calls are those of the operating system:
//!
//! ```
//! # use std::io;
//! # fn main() -> Result<(), atomfs::Error> {
//! let mut tree = atomfs::Tree::new()?;
//! let error = tree.stat("/nowhere").unwrap_err();
//! assert_eq!(error, atomfs::ErrorKind::Failed(atomfs::Errno::ENOENT));
//! assert_eq!(io::Error::from(error).kind(), io::ErrorKind::NotFound);
//! # Ok(())
//! # }
//! ```
//!
//! Paths are absolute, and names are any bytes but 0 and the slash.

#![warn(missing_docs)]
#![deny(clippy::undocumented_unsafe_blocks)]

mod bar;
mod baton;
mod call;
mod cutting;
mod draws;
mod error;
mod explore;
mod ffi;
mod file;
mod lent;
mod limits;
mod linearize;
mod methods;
mod outcomes;
mod page;
mod parts;
mod path;
mod processor;
mod seen;
mod session;
mod shared;
mod texts;
mod tree;
mod way;
mod whole;
mod workers;

pub use baton::ThreadTree;
pub use call::{Call, Did, Reply, Seat, Stat};
pub use error::{Errno, Error, ErrorKind, PathFault};
pub use explore::{explore, replay, Draws, FailedRun, Plan, Replies, ScheduleError, ScheduleFault, Verdict};
pub use file::{File, OpenOptions};
pub use lent::Lent;
pub use limits::{Journal, Limits};
pub use linearize::{front, linearize, Linearized};
pub use outcomes::{outcomes, Outcome, Outcomes};
pub use page::page;
pub use parts::Part;
pub use path::AsPath;
pub use seen::Explored;
pub use session::Session;
pub use shared::SharedTree;
pub use texts::{check, draw, explain, run, schedule, seeds, trace, Schedule};
pub use tree::Tree;
pub use whole::{Calls, Entry};
pub use workers::explore_on;

/// The most nodes of a tree with the limits that [`Tree::new`] chooses. [`Limits::nodes`] has this number for each.
pub const NODE_LIMIT: usize = Limits::V3.nodes();

/// The version of the library.
pub fn version() -> &'static str {
    // SAFETY: it takes nothing and answers a constant.
    ffi::words(unsafe { ffi::atomfs_version() })
}

/// The example of the crate's page.
#[cfg(doctest)]
#[doc = include_str!("../README.md")]
struct Readme;
