//! Publish by rename, read in pieces: a writer replaces a file whole, and a reader still gets half of each.
//!
//! The writer does it right: a new file under another name, then `rename`. The reader reads in two calls, so one piece
//! is of the old file and the next of the new one. The repair reads in one call.

use atomfs::{Plan, ThreadTree};

const OLD: &[u8] = b"old old old ";
const NEW: &[u8] = b"new new new ";

fn read(tree: &mut ThreadTree) -> Vec<u8> {
    let mut bytes = Vec::new();
    while bytes.len() < OLD.len() {
        bytes.extend(tree.read("/page", bytes.len() as u64, 4).unwrap());
    }
    bytes
}

fn plan_of(plan: &mut Plan<'_, Vec<u8>>, read: fn(&mut ThreadTree) -> Vec<u8>) {
    plan.before(|tree| tree.write_file("/page", OLD).unwrap());
    plan.thread("writer", |tree| {
        tree.write_file("/page.new", NEW).unwrap();
        tree.rename("/page.new", "/page").unwrap();
        Vec::new()
    });
    plan.thread("reader", read);
    plan.check(|_, replies| match replies["reader"].as_slice() {
        OLD | NEW => Ok(()),
        other => Err(format!("{:?}", String::from_utf8_lossy(other))),
    });
}

/// The race.
pub fn race(plan: &mut Plan<'_, Vec<u8>>) {
    plan_of(plan, read);
}

/// Its repair.
pub fn repair(plan: &mut Plan<'_, Vec<u8>>) {
    plan_of(plan, |tree| tree.read("/page", 0, 100).unwrap());
}
