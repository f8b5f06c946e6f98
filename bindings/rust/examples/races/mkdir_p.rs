//! mkdir -p by hand: a thread makes each directory of a path that is not there yet.
//!
//! Two threads with paths below the same directory both see that it is missing. The one that comes second gets
//! `EEXIST`, though what it wanted is there. The repair takes that error as success, as `create_dir_all` does.

use atomfs::{Error, Plan, ThreadTree};

fn make(tree: &mut ThreadTree, path: &str) -> Result<(), Error> {
    for end in (2..=path.len()).step_by(2) {
        if tree.stat(&path[..end]).is_err() {
            tree.mkdir(&path[..end])?;
        }
    }
    Ok(())
}

fn plan_of(plan: &mut Plan<'_, Result<(), Error>>, make: fn(&mut ThreadTree, &str) -> Result<(), Error>) {
    for (name, path) in [("ann", "/a/b/c"), ("bob", "/a/b/d")] {
        plan.thread(name, move |tree| make(tree, path));
    }
    plan.check(|tree, replies| match replies.iter().find(|(_, made)| made.is_err()) {
        Some((name, error)) => Err(format!("{name}: {error:?}")),
        None if tree.readdir("/a/b").unwrap() == [b"c", b"d"] => Ok(()),
        None => Err("a directory is missing".to_owned()),
    });
}

/// The race.
pub fn race(plan: &mut Plan<'_, Result<(), Error>>) {
    plan_of(plan, make);
}

/// Its repair.
pub fn repair(plan: &mut Plan<'_, Result<(), Error>>) {
    plan_of(plan, |tree, path| tree.create_dir_all(path));
}
