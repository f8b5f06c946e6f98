//! Exists, then create: a thread makes a file unless it is there, and believes that it is the one who made it.
//!
//! Between the reply of `stat` and the call that makes the file another thread makes it. The repair makes it at once:
//! `mknod` fails with `EEXIST` if the file is there.

use atomfs::{Errno, Error, Plan, ThreadTree};

fn lead(tree: &mut ThreadTree) -> Result<bool, Error> {
    if tree.stat("/leader").is_ok() {
        return Ok(false);
    }
    tree.mknod("/leader").map(|()| true)
}

fn lead_alone(tree: &mut ThreadTree) -> Result<bool, Error> {
    match tree.mknod("/leader") {
        Err(error) if error.errno() == Some(Errno::EEXIST) => Ok(false),
        made => made.map(|()| true),
    }
}

fn plan_of(plan: &mut Plan<'_, Result<bool, Error>>, lead: fn(&mut ThreadTree) -> Result<bool, Error>) {
    plan.thread("ann", lead).thread("bob", lead);
    plan.check(|_, replies| match (&replies["ann"], &replies["bob"]) {
        (Ok(ann), Ok(bob)) if ann != bob => Ok(()),
        others => Err(format!("{others:?}")),
    });
}

/// The race.
pub fn race(plan: &mut Plan<'_, Result<bool, Error>>) {
    plan_of(plan, lead);
}

/// Its repair.
pub fn repair(plan: &mut Plan<'_, Result<bool, Error>>) {
    plan_of(plan, lead_alone);
}
