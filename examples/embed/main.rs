//! Two seats on one tree from Rust, and two threads by sessions. Replies go to standard error, and the journal to
//! standard output, for `atomfs check`.

use std::thread;

use atomfs::{Call, Did, Error, ErrorKind, SharedTree, Tree};

/// A mkdir is half-way in /a/d, which a rename moves and helps, and a stat has to wait for it.
fn meet(tree: &mut Tree) -> Result<(), Error> {
    let (maker, mover) = (tree.seat()?, tree.seat()?);
    let number = tree.begin(maker, &Call::mkdir("/a/d/x"))?;
    for _ in 0..5 {
        tree.step(maker)?;
    }
    tree.begin(mover, &Call::rename("/a", "/b"))?;
    let mut did = tree.step(mover)?;
    while did != Did::Returned {
        if let Did::Helped(helped) = did {
            eprintln!("helps the mkdir: {}", helped == number);
        }
        did = tree.step(mover)?;
    }
    if let Err(ErrorKind::Waits(waits)) = tree.stat("/b/d/x").map_err(|error| error.kind()) {
        eprintln!("the stat waits");
        eprintln!("mkdir: {:?}", tree.finish(maker)?);
        eprintln!("stat: {:?}", tree.finish(waits)?);
    }
    Ok(())
}

fn main() -> Result<(), Error> {
    let mut tree = Tree::with_limit(1000)?;
    tree.mkdir("/a")?;
    tree.mkdir("/a/d")?;
    tree.mknod("/a/f")?;
    eprintln!("wrote {}", tree.write("/a/f", 0, "hello")?);
    eprintln!("read {:?}, {:?}", tree.read("/a/f", 0, 100)?, tree.stat("/a/f")?);
    for came in [tree.stat("/nowhere"), tree.stat("a")] {
        eprintln!("{}", came.unwrap_err());
    }
    meet(&mut tree)?;

    let tree = SharedTree::try_from(tree)?;
    thread::scope(|scope| {
        for name in ["/c", "/d"] {
            let mut session = tree.session().expect("a seat");
            scope.spawn(move || {
                (0..100).try_for_each(|_| session.mkdir(name).and_then(|()| session.rmdir(name))).expect("calls")
            });
        }
    });
    let mut tree = tree.lock();
    eprintln!("{}", tree.check()?);
    print!("{}", tree.journal()?);
    Ok(())
}
