//! A rename while a directory is listed in pages: the file that was renamed is in no page.
//!
//! A listing in pages is several calls. If a file moves from a later page to an earlier one between two of them, the
//! listing has neither its old name nor its new one, though the file was there all the time. The repair is one
//! `readdir`, which lists a directory of at most 256 entries as it is at one moment.

use atomfs::{Plan, ThreadTree};

fn pages(tree: &mut ThreadTree) -> Vec<Vec<u8>> {
    let (mut names, mut after) = (Vec::new(), b"/".to_vec());
    loop {
        let page = tree.list("/box", &after, 2).unwrap();
        match page.last() {
            Some(last) => after = [b"/", last.as_slice()].concat(),
            None => return names,
        }
        names.extend(page);
    }
}

fn plan_of(plan: &mut Plan<'_, Vec<Vec<u8>>>, list: fn(&mut ThreadTree) -> Vec<Vec<u8>>) {
    plan.before(|tree| {
        tree.mkdir("/box").unwrap();
        ["/box/b", "/box/c", "/box/d", "/box/e"].iter().for_each(|path| tree.mknod(path).unwrap());
    });
    plan.thread("reader", list);
    plan.thread("mover", |tree| {
        tree.rename("/box/e", "/box/a").unwrap();
        Vec::new()
    });
    plan.check(|_, replies| replies["reader"].iter().any(|name| [b"a", b"e"].contains(&&[name[0]])));
}

/// The race.
pub fn race(plan: &mut Plan<'_, Vec<Vec<u8>>>) {
    plan_of(plan, pages);
}

/// Its repair.
pub fn repair(plan: &mut Plan<'_, Vec<Vec<u8>>>) {
    plan_of(plan, |tree| tree.readdir("/box").unwrap());
}
