//! A lock by mkdir whose stale lock is broken: it seemed to be left over, but somebody has it.
//!
//! A thread that finds the lock taken believes that its owner has died, removes it, and takes it. If the owner is at
//! work, both are, and an update is lost. The repair breaks no lock: it hands the turn on and tries again.

use atomfs::{Plan, ThreadTree};

fn add_one(tree: &mut ThreadTree) {
    let text = String::from_utf8(tree.read("/counter", 0, 10).unwrap()).unwrap();
    let number: u32 = text.parse().unwrap();
    tree.write("/counter", 0, (number + 1).to_string()).unwrap();
}

fn breaks(tree: &mut ThreadTree) {
    while tree.mkdir("/lock").is_err() {
        let _ = tree.rmdir("/lock");
    }
    add_one(tree);
    let _ = tree.rmdir("/lock");
}

fn waits(tree: &mut ThreadTree) {
    while tree.mkdir("/lock").is_err() {
        tree.turn();
    }
    add_one(tree);
    tree.rmdir("/lock").unwrap();
}

fn plan_of(plan: &mut Plan<'_, ()>, add: fn(&mut ThreadTree)) {
    plan.before(|tree| tree.write_file("/counter", "0").unwrap());
    plan.thread("ann", add).thread("bob", add);
    plan.check(|tree, _| match String::from_utf8(tree.read_to_end("/counter").unwrap()).unwrap().as_str() {
        "2" => Ok(()),
        other => Err(format!("the counter is {other}")),
    });
}

/// The race.
pub fn race(plan: &mut Plan<'_, ()>) {
    plan_of(plan, breaks);
}

/// Its repair.
pub fn repair(plan: &mut Plan<'_, ()>) {
    plan_of(plan, waits);
}
