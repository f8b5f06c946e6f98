//! Trees, seats and errors.

use std::borrow::Cow;
use std::ffi::{OsStr, OsString};
use std::io;
use std::os::unix::ffi::OsStrExt;
use std::path::{Path, PathBuf};
use std::rc::Rc;
use std::sync::Arc;

use atomfs::{
    check, run, AsPath, Call, Did, Errno, Error, ErrorKind, Journal, Limits, PathFault, Reply, Stat, Tree, NODE_LIMIT,
};

/// What came of a call, of an error its kind.
fn kind<T>(came: Result<T, Error>) -> Result<T, ErrorKind> {
    came.map_err(|error| error.kind())
}

#[test]
fn each_call() {
    let mut tree = Tree::new().unwrap();
    tree.mkdir("/a").unwrap();
    tree.mknod("/a/f").unwrap();
    assert_eq!(tree.write("/a/f", 2, b"hello"), Ok(5));
    assert_eq!(tree.read("/a/f", 0, usize::MAX).unwrap(), b"\0\0hello");
    assert_eq!(tree.stat("/a/f"), Ok(Stat { is_dir: false, size: 7 }));
    tree.truncate("/a/f", 3).unwrap();
    let mut out = [9; 5];
    assert_eq!(tree.read_into("/a/f", 1, &mut out), Ok(2));
    assert_eq!(out, [0, b'h', 9, 9, 9]);
    tree.mkdir("/b").unwrap();
    tree.rename("/a", "/c").unwrap();
    tree.exchange("/c/f", "/b").unwrap();
    assert_eq!(tree.readdir("/").unwrap(), [b"b", b"c"]);
    tree.unlink("/b").unwrap();
    tree.rmdir("/c/f").unwrap();
    assert_eq!(tree.text_of_tree().unwrap(), "tree\ndir /\ndir /c\n");
    assert_eq!(tree.check().unwrap(), "lawful");
}

#[test]
fn each_error() {
    let mut tree = Tree::with_limits(Limits::V2.nodes(), Limits::V2).unwrap();
    tree.mkdir("/d").unwrap();
    tree.mkdir("/d/e").unwrap();
    tree.mknod("/f").unwrap();
    for at in 0..256 {
        tree.mknod(format!("/d/e/{at}")).unwrap();
    }
    let rows = [
        (tree.stat("/x").map(|_| ()), Errno::ENOENT, io::ErrorKind::NotFound),
        (tree.readdir("/f").map(|_| ()), Errno::ENOTDIR, io::Error::from_raw_os_error(20).kind()),
        (tree.mkdir("/d"), Errno::EEXIST, io::ErrorKind::AlreadyExists),
        (tree.rmdir("/d"), Errno::ENOTEMPTY, io::Error::from_raw_os_error(39).kind()),
        (tree.read("/d", 0, 1).map(|_| ()), Errno::EISDIR, io::Error::from_raw_os_error(21).kind()),
        (tree.rename("/d", "/d/e/g"), Errno::EINVAL, io::ErrorKind::InvalidInput),
        (tree.exchange("/d", "/"), Errno::EBUSY, io::Error::from_raw_os_error(16).kind()),
        (tree.unlink("/d"), Errno::EPERM, io::ErrorKind::PermissionDenied),
        (tree.mknod("/d/e/x"), Errno::ENOSPC, io::Error::from_raw_os_error(28).kind()),
        (tree.truncate("/f", 1 << 63), Errno::EFBIG, io::Error::from_raw_os_error(27).kind()),
    ];
    for (came, errno, of_std) in rows {
        assert_eq!(kind(came), Err(ErrorKind::Failed(errno)));
        let error = io::Error::from(Error::from(ErrorKind::Failed(errno)));
        assert_eq!((error.raw_os_error(), error.kind()), (Some(errno.number()), of_std));
        let more = match errno {
            Errno::ENOSPC => ": the directory has 256 entries, or 1048576 by the third limits",
            Errno::EFBIG => {
                ": the file would have more than 65536 bytes by the first limits, 1048576 by the second or 2147483648 \
                 by the third"
            }
            _ => "",
        };
        assert_eq!(ErrorKind::Failed(errno).to_string(), format!("{error}{more}"));
    }
    assert_eq!(tree.check().unwrap(), "lawful");
}

#[test]
fn what_is_refused_is_not_in_the_journal() {
    assert_eq!(kind(Tree::with_limit(0)).err(), Some(ErrorKind::BadLimit));
    let mut tree = Tree::with_limit(1).unwrap();
    let long = format!("/{}", "n".repeat(Limits::V3.name_bytes() + 1));
    let longer = format!("/{}", "0123456789".repeat(30));
    let deep = "/a".repeat(Limits::V3.path_names() + 1);
    let rows = [
        ("", PathFault::NotAbsolute),
        ("a", PathFault::NotAbsolute),
        ("/a/", PathFault::TrailingSlash),
        ("/a/../b", PathFault::Dot),
        ("/.", PathFault::Dot),
        ("/a\0b", PathFault::Nul),
        (&long, PathFault::NameTooLong),
        (&longer, PathFault::NameTooLong),
        (&deep, PathFault::TooManyNames),
    ];
    let mut words = Vec::new();
    for (path, fault) in rows {
        let error = tree.mkdir(path).unwrap_err();
        assert_eq!(error, ErrorKind::BadPath(fault), "{path:?}");
        assert_eq!(error.path(), Some(Path::new(path)));
        let said = error.kind().to_string();
        assert_eq!(error.to_string(), format!("{path:?}: {said}"));
        words.push(said);
    }
    words.dedup();
    assert_eq!(words.len(), 6, "{words:?}");
    assert_eq!(kind(tree.mkdir("/a")), Err(ErrorKind::Full));
    let seat = tree.seat().unwrap();
    assert_eq!(kind(tree.reply(seat)), Err(ErrorKind::NoReply));
    assert_eq!(tree.journal().unwrap(), "atomfs-journal 4\nstart\ndir /\nentries\n");
    tree.begin(seat, &Call::stat("/")).unwrap();
    assert_eq!(kind(tree.begin(seat, &Call::stat("/"))), Err(ErrorKind::SeatBusy));
    assert_eq!(kind(tree.checkpoint()), Err(ErrorKind::UnderWay(1)));
    let full = Error::from(ErrorKind::Full);
    assert_eq!(io::Error::from(full).raw_os_error(), Some(28));
    let shown: Box<dyn std::error::Error> = Box::new(tree.mkdir("a").unwrap_err());
    assert!(!shown.to_string().is_empty());
}

/// The error of a text names its line, and its kind as the program does.
#[test]
fn words_of_texts() {
    let line = "a line has no form of its place, or a request no call";
    let rows = [
        (run("atomfs 1\nthread t\nmkdr /a\nschedule\n"), format!("line 3: BadLine: {line}")),
        (run("atomfs 1\nthread t\nmkdir a\nschedule\n"), "line 3: BadPath: no path".to_string()),
        (run("atomfs 1\nthread t\nmkdir /a\n"), "line 4: NoSchedule: the script has no schedule".to_string()),
        (run("atomfs 1\nthread t\nschedule\nu\n"), "line 4: BadWord: no word of a schedule".to_string()),
        (check("no journal"), "line 1: BadHeader: the first line is another than it has to be".to_string()),
        (
            check("atomfs-journal 1\nbegin 1 0 stat /\ncommit 1\nreturn 1 fine\n"),
            "line 4: BadReply: no reply".to_string(),
        ),
    ];
    for (came, words) in rows {
        assert_eq!(came.unwrap_err().to_string(), words);
    }
    assert_eq!(ErrorKind::BadText(27, 3).to_string(), "line 3: BadStart: the start tree is none");
}

/// A tree of a text, or of the journal that starts at it, is the one that was told, and its journal begins there.
#[test]
fn from_texts() {
    let text = "tree\ndir /\ndir /a\nfile /a/f 0068\n";
    for (limits, number) in [(Limits::V1, 2), (Limits::V2, 3), (Limits::V3, 4)] {
        let start = format!("atomfs-journal {number}\nstart\ndir /\ndir /a\nfile /a/f 0068\nentries\n");
        let journal = format!("{start}begin 1 0 mkdir /b\ncommit 1\nreturn 1 ok\n");
        for given in [text, &start, &journal] {
            let mut tree = Tree::from_text(given, 3, limits).unwrap();
            assert_eq!(tree.text_of_tree().unwrap(), text);
            assert_eq!(tree.journal().unwrap(), start);
            assert_eq!(kind(tree.mkdir("/b")), Err(ErrorKind::Full));
            tree.unlink("/a/f").unwrap();
            tree.mkdir("/b").unwrap();
            assert!(tree.journal().unwrap().contains("begin 1 0 unlink /a/f\n"));
            assert_eq!(tree.check().unwrap(), "lawful");
            let long = "/".to_string() + &"n".repeat(limits.name_bytes());
            tree.rename("/b", &long).unwrap();
            let error = tree.rename(&long, &(long.clone() + "n")).unwrap_err();
            assert_eq!(error, ErrorKind::BadPath(PathFault::NameTooLong));
        }
    }
}

/// What is no tree is told with its line.
#[test]
fn from_texts_refused() {
    let long = format!("tree\ndir /\ndir /{}\n", "n".repeat(33));
    let rows = [
        ("", "line 1: BadHeader: "),
        ("atomfs-journal 3\nstart\ndir /\nentries\n", "line 1: BadHeader: "),
        ("tree\n", "line 2: BadStart: "),
        ("tree\ndir /\ndir /a/b\n", "line 3: BadStart: "),
        ("tree\ndir /\ndir /b\ndir /a\n", "line 4: BadStart: "),
        (&long, "line 3: BadStart: "),
        ("atomfs-journal 1\nbegin\n", "line 2: BadLine: "),
    ];
    for (text, words) in rows {
        let error = Tree::from_text(text, 9, Limits::V1).unwrap_err();
        assert!(error.to_string().starts_with(words), "{text:?}: {error}");
        assert!(matches!(error.kind(), ErrorKind::BadText(..)));
    }
    Tree::from_text(long, 9, Limits::V2).unwrap();
    let text = "tree\ndir /\ndir /a\ndir /b\n";
    for (limit, wanted) in [(2, ErrorKind::Full), (0, ErrorKind::BadLimit), (NODE_LIMIT + 1, ErrorKind::BadLimit)] {
        let came = Tree::from_text(text, limit, Limits::V3);
        assert_eq!(kind(came.map(|_| ())), Err(wanted));
    }
}

/// A clone is as its tree at that moment, by the same limits, and keeps as many calls.
#[test]
fn clones() {
    let mut tree = Tree::with_limits(3, Limits::V1).unwrap();
    tree.mkdir("/a").unwrap();
    tree.write_file("/a/f", "hello").unwrap();
    tree.keep(Journal::Last(1)).unwrap();
    let mut other = tree.try_clone().unwrap();
    assert_eq!(other.text_of_tree(), tree.text_of_tree());
    let start = "atomfs-journal 2\nstart\ndir /\ndir /a\nfile /a/f 68656c6c6f\nentries\n";
    assert_eq!(other.journal().unwrap(), start);
    assert_eq!(kind(other.mkdir("/b")), Err(ErrorKind::Full));
    other.unlink("/a/f").unwrap();
    for _ in 0..5 {
        other.stat("/a").unwrap();
    }
    assert_eq!(other.calls_before(), 4);
    assert_eq!(tree.read_to_end("/a/f").unwrap(), b"hello");
    assert_eq!(kind(tree.truncate("/a/f", 65_537)), Err(ErrorKind::Failed(Errno::EFBIG)));
    let (seat, foreign) = (tree.seat().unwrap(), other.seat().unwrap());
    assert_eq!(kind(tree.step(foreign)), Err(ErrorKind::ForeignSeat));
    let number = tree.begin(seat, &Call::rmdir("/a")).unwrap();
    assert_eq!(kind(tree.try_clone().map(|_| ())), Err(ErrorKind::UnderWay(number)));
    assert!(tree.finish(seat).is_err());
    assert!(tree.try_clone().is_ok());
}

/// A journal that no text could hold is checked as it stands.
#[test]
fn a_large_journal() {
    let mut tree = Tree::with_limits(Limits::V2.nodes(), Limits::V2).unwrap();
    tree.mknod("/f").unwrap();
    for _ in 0..9 {
        tree.write("/f", 0, [0; 1 << 20]).unwrap();
    }
    assert!(tree.journal().unwrap().len() > 16_777_216);
    assert_eq!(tree.check().unwrap(), "lawful");
}

/// Calls are forgotten by themselves where none is under way, and by hand; the reply of none becomes another's.
#[test]
fn forgets() {
    let mut tree = Tree::new().unwrap();
    tree.mkdir("/a").unwrap();
    tree.keep(Journal::Last(0)).unwrap();
    let seat = tree.seat().unwrap();
    tree.begin(seat, &Call::stat("/a")).unwrap();
    assert_eq!(tree.calls_before(), 1);
    for _ in 0..5 {
        tree.stat("/").unwrap();
    }
    assert_eq!(kind(tree.forget().map(|_| String::new())), Err(ErrorKind::UnderWay(1)));
    tree.finish(seat).unwrap();
    tree.stat("/").unwrap();
    assert_eq!(tree.calls_before(), 7);
    assert!(tree.reply(seat).is_err());
    tree.keep(Journal::All).unwrap();
    for _ in 0..5 {
        tree.stat("/").unwrap();
    }
    assert_eq!((tree.forget().unwrap(), tree.calls_before()), (6, 13));
    assert_eq!(tree.check().unwrap(), "lawful");
    assert_eq!(tree.readdir("/").unwrap(), [b"a"]);
}

#[test]
fn each_begin() {
    let mut tree = Tree::new().unwrap();
    let seat = tree.seat().unwrap();
    let rows = [
        (Call::mkdir("/a"), Reply::Done),
        (Call::mknod("/a/f"), Reply::Done),
        (Call::write("/a/f", 1, b"hello"), Reply::Wrote(5)),
        (Call::read("/a/f", 0, u64::MAX), Reply::Bytes(b"\0hello".to_vec())),
        (Call::truncate("/a/f", 2), Reply::Done),
        (Call::stat("/a/f"), Reply::Stat(Stat { is_dir: false, size: 2 })),
        (Call::mkdir("/b"), Reply::Done),
        (Call::rename("/a/f", "/b/g"), Reply::Done),
        (Call::readdir("/"), Reply::Names(vec![b"a".to_vec(), b"b".to_vec()])),
        (Call::exchange("/a", "/b"), Reply::Done),
        (Call::unlink("/a/g"), Reply::Done),
        (Call::rmdir("/b"), Reply::Done),
        (Call::readdir("/a"), Reply::Names(vec![])),
    ];
    for (at, (call, wanted)) in rows.into_iter().enumerate() {
        assert_eq!(tree.begin(seat, &call), Ok(at as u64 + 1));
        assert_eq!(tree.finish(seat).as_ref(), Ok(&wanted));
        assert_eq!(tree.reply(seat), Ok(wanted));
    }
    tree.begin(seat, &Call::unlink("/x")).unwrap();
    assert_eq!(kind(tree.finish(seat)), Err(ErrorKind::Failed(Errno::ENOENT)));
    assert_eq!(tree.step(seat), Ok(Did::Idle));
    assert_eq!(tree.check().unwrap(), "lawful");
}

#[test]
fn a_rename_helps_the_mkdir_below_it() {
    let mut tree = Tree::new().unwrap();
    tree.mkdir("/a").unwrap();
    tree.mkdir("/a/d").unwrap();
    let (maker, mover) = (tree.seat().unwrap(), tree.seat().unwrap());
    let number = tree.begin(maker, &Call::mkdir("/a/d/x")).unwrap();
    for _ in 0..5 {
        tree.step(maker).unwrap();
    }
    tree.begin(mover, &Call::rename("/a", "/b")).unwrap();
    let mut did = vec![tree.step(mover).unwrap()];
    while did.last() != Some(&Did::Returned) {
        did.push(tree.step(mover).unwrap());
    }
    assert!(did.contains(&Did::Helped(number)), "{did:?}");
    assert_eq!(tree.finish(maker), Ok(Reply::Done));
    assert_eq!(tree.readdir("/b/d").unwrap(), [b"x"]);
    assert_eq!(tree.check().unwrap(), "lawful");
}

#[test]
fn a_call_that_waits_keeps_its_seat() {
    let mut tree = Tree::new().unwrap();
    tree.mkdir("/a").unwrap();
    let seat = tree.seat().unwrap();
    tree.begin(seat, &Call::mkdir("/a/x")).unwrap();
    while tree.step(seat).unwrap() != Did::Committed {}
    let waits = match kind(tree.stat("/a/x")) {
        Err(ErrorKind::Waits(waits)) => waits,
        other => panic!("{other:?}"),
    };
    let error = tree.finish(waits).unwrap_err();
    assert_eq!(error, ErrorKind::Waits(waits));
    assert_eq!(error.path(), Some(Path::new("/a/x")));
    assert_eq!(tree.finish(seat), Ok(Reply::Done));
    assert_eq!(tree.finish(waits), Ok(Reply::Stat(Stat { is_dir: true, size: 0 })));
    assert_eq!(tree.stat("/a"), Ok(Stat { is_dir: true, size: 1 }));
}

#[test]
fn each_piece_of_a_journal_is_lawful() {
    let mut tree = Tree::new().unwrap();
    for name in ["/a", "/b", "/c"] {
        tree.mkdir(name).unwrap();
        tree.mknod(format!("{name}/f")).unwrap();
        let piece = tree.checkpoint().unwrap();
        assert_eq!(piece.matches("\nreturn ").count(), 2);
        assert_eq!(atomfs::check(piece).unwrap(), "lawful");
    }
    assert_eq!(tree.readdir("/").unwrap(), [b"a", b"b", b"c"]);
}

#[test]
fn versions() {
    assert_eq!(atomfs::version(), env!("CARGO_PKG_VERSION"));
}

/// A path can be text, bytes or a path of the standard library, and the bytes are the same.
#[test]
fn each_kind_of_path() {
    let mut tree = Tree::new().unwrap();
    let name = "/a";
    let rows: [(&str, Box<dyn AsPath>); 14] = [
        ("str", Box::new("/a")),
        ("String", Box::new(name.to_string())),
        ("bytes", Box::new(*b"/a")),
        ("a slice", Box::new(&b"/a"[..])),
        ("a vector", Box::new(name.as_bytes().to_vec())),
        ("Path", Box::new(Path::new("/a"))),
        ("PathBuf", Box::new(PathBuf::from("/a"))),
        ("OsStr", Box::new(OsStr::new("/a"))),
        ("OsString", Box::new(OsString::from("/a"))),
        ("Rc", Box::new(Rc::<str>::from("/a"))),
        ("Arc", Box::new(Arc::<Path>::from(Path::new("/a")))),
        ("Cow of text", Box::new(Cow::Borrowed("/a"))),
        ("Cow of a path", Box::new(Path::new("/a").to_string_lossy())),
        ("Box", Box::new(name.as_bytes().to_vec().into_boxed_slice())),
    ];
    for (what, path) in rows {
        tree.mkdir(&path).unwrap();
        assert_eq!(tree.readdir(Path::new("/")).unwrap(), [b"a"], "{what}");
        assert_eq!(Call::rmdir(&path), Call::Rmdir(b"/a"), "{what}");
        tree.rmdir(path).unwrap();
    }
    tree.mkdir(Path::new("/b").join("..")).unwrap_err();
    assert_eq!(tree.mkdir(OsStr::from_bytes(b"/\xff")), Ok(()));
    assert_eq!(tree.readdir("/").unwrap(), [b"\xff"]);
    assert_eq!(tree.check().unwrap(), "lawful");
}

/// An error has the paths of its call, and says them.
#[test]
fn paths_of_errors() {
    let mut tree = Tree::with_limits(Limits::V1.nodes(), Limits::V1).unwrap();
    let seat = tree.seat().unwrap();
    tree.begin(seat, &Call::rename("/b", "/c")).unwrap();
    let rows = [
        (tree.finish(seat).map(|_| ()), "/b", Some("/c")),
        (tree.mkdir("/x/y"), "/x/y", None),
        (tree.stat("/x").map(|_| ()), "/x", None),
        (tree.readdir("/x").map(|_| ()), "/x", None),
        (tree.read("/x", 0, 1).map(|_| ()), "/x", None),
        (tree.write("/x", 0, "a").map(|_| ()), "/x", None),
        (tree.truncate("/x", 0), "/x", None),
        (tree.exchange("/x", "/y"), "/x", Some("/y")),
        (tree.reply(seat).map(|_| ()), "/b", Some("/c")),
        (tree.open("/x").map(|_| ()), "/x", None),
        (tree.walk("/x").map(|_| ()), "/x", None),
        (tree.write_file("/x/y", ""), "/x/y", None),
    ];
    for (came, path, other) in rows {
        let error = came.unwrap_err();
        assert_eq!(error.errno(), Some(Errno::ENOENT), "{error}");
        assert_eq!(error.path(), Some(Path::new(path)), "{error}");
        assert_eq!(error.other_path(), other.map(Path::new), "{error}");
        let second = other.map_or(String::new(), |other| format!(", {other:?}"));
        let words = "No such file or directory (os error 2)";
        assert_eq!(error.to_string(), format!("{path:?}{second}: {words}"));
    }
    // Of two paths it names the one that is none, by the limits of the tree.
    let long = "/0123456789012345678901234567890123456789";
    let error = tree.rename("/b", long).unwrap_err();
    assert_eq!(error, ErrorKind::BadPath(PathFault::NameTooLong));
    assert_eq!(error.path(), Some(Path::new(long)));
    assert_eq!(error.other_path(), None);
    assert_eq!(Tree::new().unwrap().mkdir(long), Ok(()));
    // A call that is begun by itself is refused in the same words.
    let error = tree.begin(seat, &Call::exchange("/b", "/c/")).unwrap_err();
    assert_eq!(error, ErrorKind::BadPath(PathFault::TrailingSlash));
    assert_eq!(error.path(), Some(Path::new("/c/")));
    tree.begin(seat, &Call::stat("/x")).unwrap();
    let error = tree.begin(seat, &Call::rename("/b", "/c")).unwrap_err();
    assert_eq!(error, ErrorKind::SeatBusy);
    assert_eq!(error.other_path(), Some(Path::new("/c")));
    assert_eq!(check("no journal").unwrap_err().path(), None);
}

/// A seat of another tree is refused, and both trees stay as they were.
#[test]
fn a_seat_of_another_tree() {
    let (mut tree, mut other) = (Tree::new().unwrap(), Tree::new().unwrap());
    let (seat, of_other) = (tree.seat().unwrap(), other.seat().unwrap());
    assert_eq!(seat.number(), of_other.number());
    assert_ne!(seat, of_other);
    other.begin(of_other, &Call::mkdir("/a")).unwrap();
    let before = (tree.journal().unwrap(), other.journal().unwrap());
    let foreign = ErrorKind::ForeignSeat;
    assert_eq!(kind(tree.begin(of_other, &Call::mkdir("/b"))), Err(foreign));
    assert_eq!(kind(tree.step(of_other)), Err(foreign));
    assert_eq!(kind(tree.finish(of_other)), Err(foreign));
    assert_eq!(kind(tree.reply(of_other)), Err(foreign));
    assert_eq!(foreign.to_string(), "the seat is of another tree");
    let after = (tree.journal().unwrap(), other.journal().unwrap());
    assert_eq!(before, after);
    assert_eq!(other.finish(of_other), Ok(Reply::Done));
}

#[test]
fn what_a_tree_shows() {
    let mut tree = Tree::with_limits(100, Limits::V1).unwrap();
    assert_eq!(format!("{tree:?}"), "Tree { nodes: Some(1), calls: 0, limit: 100, limits: V1, .. }");
    tree.create_dir_all("/a/b").unwrap();
    tree.write_file("/a/f", vec![1; 60_000]).unwrap();
    let calls = tree.journal().unwrap().matches("\nbegin ").count();
    let shown = format!("{tree:?}");
    assert_eq!(shown, format!("Tree {{ nodes: Some(4), calls: {calls}, limit: 100, limits: V1, .. }}"));
    tree.checkpoint().unwrap();
    let seat = tree.seat().unwrap();
    tree.begin(seat, &Call::unlink("/a/f")).unwrap();
    tree.finish(seat).unwrap();
    assert!(format!("{tree:?}").starts_with("Tree { nodes: Some(3), calls: 1,"));
}
