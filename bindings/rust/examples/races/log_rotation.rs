//! Log rotation: a writer appends at the size that it asked for, and by then the log is another one.
//!
//! Between `stat` and `write` the log is renamed and a new one made. So the line comes far after the end of the new
//! log, with zeros before it, or there is no log for a moment. The repair writes each line into a file of its own, and
//! moves that into the folder of the log, whose files are read in order.

use atomfs::{Error, Plan, ThreadTree};

fn append(tree: &mut ThreadTree) -> Result<(), Error> {
    let size = tree.stat("/log/now")?.size;
    tree.write("/log/now", size, "second\n").map(|_| ())
}

fn append_by_rename(tree: &mut ThreadTree) -> Result<(), Error> {
    tree.write_file("/line", "second\n")?;
    tree.rename("/line", "/log/2")
}

fn rotate(tree: &mut ThreadTree) -> Result<(), Error> {
    tree.rename("/log/now", "/log/1")?;
    tree.mknod("/log/now")
}

fn plan_of(plan: &mut Plan<'_, Result<(), Error>>, append: fn(&mut ThreadTree) -> Result<(), Error>) {
    plan.before(|tree| {
        tree.mkdir("/log").unwrap();
        tree.write_file("/log/now", "first\n").unwrap();
    });
    plan.thread("writer", append).thread("rotator", rotate);
    plan.check(|tree, replies| {
        let mut all = Vec::new();
        for name in tree.readdir("/log").unwrap() {
            all.extend(tree.read_to_end([b"/log/", name.as_slice()].concat()).unwrap());
        }
        match (&replies["writer"], &replies["rotator"], all.as_slice()) {
            (Ok(()), Ok(()), b"first\nsecond\n") => Ok(()),
            (writer, rotator, _) => Err(format!("{writer:?} {rotator:?} {:?}", String::from_utf8_lossy(&all))),
        }
    });
}

/// The race.
pub fn race(plan: &mut Plan<'_, Result<(), Error>>) {
    plan_of(plan, append);
}

/// Its repair.
pub fn repair(plan: &mut Plan<'_, Result<(), Error>>) {
    plan_of(plan, append_by_rename);
}
