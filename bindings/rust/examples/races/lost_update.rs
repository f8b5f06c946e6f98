//! A lost update: two threads read a number from a file, add one, and write it back.
//!
//! Each reads 0 before the other has written, so each writes 1, and one addition is lost. The repair takes a lock: a
//! directory that `mkdir` makes for one thread only. The other hands the turn on and tries again.

use atomfs::{Errno, Plan, ThreadTree};

fn add_one(tree: &mut ThreadTree) {
    let text = String::from_utf8(tree.read("/counter", 0, 10).unwrap()).unwrap();
    let number: u32 = text.parse().unwrap();
    tree.write("/counter", 0, (number + 1).to_string()).unwrap();
}

fn add_one_alone(tree: &mut ThreadTree) {
    while let Err(error) = tree.mkdir("/lock") {
        assert_eq!(error.errno(), Some(Errno::EEXIST));
        tree.turn();
    }
    add_one(tree);
    tree.rmdir("/lock").unwrap();
}

fn plan_of(plan: &mut Plan<'_, ()>, add: fn(&mut ThreadTree)) {
    plan.before(|tree| tree.write_file("/counter", "0").unwrap());
    plan.thread("ann", add).thread("bob", add);
    plan.check(|tree, _| match String::from_utf8(tree.read_to_end("/counter").unwrap()).unwrap().as_str() {
        "2" => Ok(()),
        other => Err(format!("the counter is {other}")),
    });
}

/// The race.
pub fn race(plan: &mut Plan<'_, ()>) {
    plan_of(plan, add_one);
}

/// Its repair.
pub fn repair(plan: &mut Plan<'_, ()>) {
    plan_of(plan, add_one_alone);
}
