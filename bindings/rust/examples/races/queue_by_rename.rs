//! A queue whose jobs are claimed by rename: the worker that comes second falls over.
//!
//! A job is a file, and whoever renames it has it: that is right, since only one rename succeeds. But the names are of
//! a listing made before, and the worker whose rename comes second gets `ENOENT` and ends. The repair takes that error
//! as "another has it", and goes on with the next.

use atomfs::{Errno, Error, Plan, ThreadTree};

type Jobs = Result<Vec<String>, Error>;

fn work(tree: &mut ThreadTree) -> Jobs {
    let mut done = Vec::new();
    for job in tree.readdir("/queue")? {
        let job = String::from_utf8(job).unwrap();
        tree.rename(format!("/queue/{job}"), format!("/taken/{job}"))?;
        done.push(job);
    }
    Ok(done)
}

fn work_beside(tree: &mut ThreadTree) -> Jobs {
    let mut done = Vec::new();
    for job in tree.readdir("/queue")? {
        let job = String::from_utf8(job).unwrap();
        match tree.rename(format!("/queue/{job}"), format!("/taken/{job}")) {
            Err(error) if error.errno() == Some(Errno::ENOENT) => continue,
            claimed => claimed?,
        }
        done.push(job);
    }
    Ok(done)
}

fn plan_of(plan: &mut Plan<'_, Jobs>, work: fn(&mut ThreadTree) -> Jobs) {
    plan.before(|tree| {
        tree.mkdir("/queue").unwrap();
        tree.mkdir("/taken").unwrap();
        ["/queue/1", "/queue/2"].iter().for_each(|path| tree.mknod(path).unwrap());
    });
    plan.thread("ann", work).thread("bob", work);
    plan.check(|_, replies| match (&replies["ann"], &replies["bob"]) {
        (Ok(ann), Ok(bob)) if ann.len() + bob.len() == 2 => Ok(()),
        others => Err(format!("{others:?}")),
    });
}

/// The race.
pub fn race(plan: &mut Plan<'_, Jobs>) {
    plan_of(plan, work);
}

/// Its repair.
pub fn repair(plan: &mut Plan<'_, Jobs>) {
    plan_of(plan, work_beside);
}
