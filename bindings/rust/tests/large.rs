//! Trees by the third limits, which are those where none are named: directories and files that one call does not tell,
//! and long names.

use std::io::{self, Read, Write};

use atomfs::{Call, Errno, Error, ErrorKind, Limits, PathFault, Reply, SharedTree, Tree};

/// A tree with a directory of so many files, and their names.
fn crowded(count: usize) -> (Tree, Vec<Vec<u8>>) {
    let mut tree = Tree::new().unwrap();
    tree.mkdir("/d").unwrap();
    let names: Vec<_> = (0..count).map(|at| format!("{at:03}").into_bytes()).collect();
    for name in &names {
        tree.mknod([b"/d/", &name[..]].concat()).unwrap();
    }
    (tree, names)
}

/// How many lists the journal has.
fn lists(tree: &mut Tree) -> usize {
    tree.checkpoint().unwrap().matches(" list /d ").count()
}

fn failed<T>(came: Result<T, Error>) -> Option<Errno> {
    came.err().and_then(|error| error.errno())
}

#[test]
fn pieces() {
    let (mut tree, names) = crowded(600);
    assert_eq!(tree.limits(), Limits::V3);
    assert_eq!(tree.list("/d", "/", u32::MAX).unwrap(), names[..256]);
    assert_eq!(tree.list("/d", "/255", 256).unwrap(), names[256..512]);
    assert_eq!(tree.list("/d", "/x/y/511", 256).unwrap(), names[512..]);
    assert_eq!(tree.list("/d", "/5", 2).unwrap(), [b"500", b"501"]);
    assert_eq!(tree.list("/d", "/", 0).unwrap(), [b""; 0]);
    assert_eq!(failed(tree.list("/d/000", "/", 9)), Some(Errno::ENOTDIR));
    assert_eq!(failed(tree.list("/x", "/", 9)), Some(Errno::ENOENT));
    let error = tree.list("/d", "a", 9).unwrap_err();
    assert_eq!(error, ErrorKind::BadPath(PathFault::NotAbsolute));
    assert_eq!(error.path(), Some("a".as_ref()));
    let error = tree.readdir("/d").unwrap_err();
    assert_eq!(error, ErrorKind::Failed(Errno::EOVERFLOW));
    assert!(error.to_string().ends_with("the directory has more than 256 entries"));
    assert_eq!(io::Error::from(error).raw_os_error(), Some(75));
    let seat = tree.seat().unwrap();
    tree.begin(seat, &Call::list("/d", "/598", 9)).unwrap();
    assert_eq!(tree.finish(seat), Ok(Reply::Names(vec![b"599".to_vec()])));
    let call = Call::list("/d", "/", 1);
    assert_eq!(tree.call(&call), Ok(Reply::Names(vec![b"000".to_vec()])));
    assert_eq!(tree.check().unwrap(), "lawful");
}

#[test]
fn whole_directories() {
    for (count, calls) in [(0, 1), (255, 1), (256, 2), (600, 3)] {
        let (mut tree, names) = crowded(count);
        assert_eq!(tree.read_dir("/d").unwrap(), names);
        assert_eq!(lists(&mut tree), calls);
        assert_eq!(tree.walk("/d").unwrap().len(), 1 + count);
        assert_eq!(lists(&mut tree), calls);
        let shared = SharedTree::try_from(tree).unwrap();
        assert_eq!(shared.read_dir("/d").unwrap(), names);
        let mut session = shared.session().unwrap();
        assert_eq!(session.read_dir("/d").unwrap(), names);
        assert_eq!(session.list("/d", "/", 1).unwrap(), names[..count.min(1)]);
        assert_eq!(shared.list("/d", "/", 1).unwrap(), names[..count.min(1)]);
        assert_eq!(shared.lock().checkpoint().unwrap().matches(" list /d ").count(), 2 * calls + 2);
        shared.remove_dir_all("/d").unwrap();
        assert_eq!(failed(shared.read_dir("/d")), Some(Errno::ENOENT));
        assert_eq!(shared.lock().check().unwrap(), "lawful");
    }
}

/// As many names as a call answers, each as long as there are: a reply has no more bytes.
#[test]
fn long_names() {
    let mut tree = Tree::new().unwrap();
    tree.mkdir("/d").unwrap();
    let most = Limits::V3.name_bytes();
    let names: Vec<_> = (0..256).map(|at| format!("{at:0most$}").into_bytes()).collect();
    let path = |name: &[u8]| [b"/d/", name].concat();
    for name in &names {
        tree.mknod(path(name)).unwrap();
    }
    assert_eq!(tree.readdir("/d").unwrap(), names);
    assert_eq!(tree.list("/d", "/", 256).unwrap(), names);
    let after = path(&names[253]);
    assert_eq!(tree.list("/d", &after, 256).unwrap(), names[254..]);
    let error = tree.mknod(path(&[&names[0][..], b"n"].concat())).unwrap_err();
    assert_eq!(error, ErrorKind::BadPath(PathFault::NameTooLong));
    let call = Call::readdir("/d");
    let seat = tree.seat().unwrap();
    tree.begin(seat, &call).unwrap();
    assert_eq!(tree.finish(seat), Ok(Reply::Names(names.clone())));
    let other = path(&[b'x'; 255]);
    tree.rename(path(&names[0]), &other).unwrap();
    tree.exchange(path(&names[1]), &other).unwrap();
    let shared = SharedTree::try_from(tree).unwrap();
    let found = shared.read_dir("/d").unwrap();
    assert_eq!((&found[..254], found.len()), (&names[1..255], 256));
    assert_eq!(shared.call(&call), Ok(Reply::Names(found)));
    shared.remove_dir_all("/d").unwrap();
    assert_eq!(shared.lock().check().unwrap(), "lawful");
}

#[test]
fn long_files() {
    let mut tree = Tree::new().unwrap();
    let most = Limits::V3.read_bytes();
    let data: Vec<u8> = (0..2 * most + 7).map(|at| (at % 251) as u8).collect();
    tree.write_file("/f", &data).unwrap();
    assert!(tree.read_to_end("/f").unwrap() == data);
    assert!(tree.read("/f", 3, usize::MAX).unwrap() == data[3..3 + most]);
    let mut out = vec![0; most + 1];
    assert_eq!(tree.read_into("/f", 0, &mut out), Ok(most));
    let mut told = Vec::new();
    tree.open("/f").unwrap().read_to_end(&mut told).unwrap();
    assert!(told == data);
    tree.create("/g").unwrap().write_all(&data).unwrap();
    assert!(tree.read_to_end("/g").unwrap() == data);
    let shared = SharedTree::try_from(tree).unwrap();
    assert!(shared.read_to_end("/g").unwrap() == data);
    let end = Limits::V3.file_bytes() as u64;
    assert_eq!(shared.write("/g", end - 1, "x"), Ok(1));
    assert_eq!(failed(shared.write("/g", end, "x")), Some(Errno::EFBIG));
    assert_eq!(failed(shared.truncate("/g", end + 1)), Some(Errno::EFBIG));
    assert_eq!(shared.read("/g", end - 2, 9).unwrap(), b"\0x");
    shared.unlink("/g").unwrap();
    assert_eq!(shared.lock().check().unwrap(), "lawful");
}

#[test]
fn other_limits() {
    for limits in [Limits::V1, Limits::V2] {
        let mut tree = Tree::with_limits(limits.nodes(), limits).unwrap();
        tree.mknod("/a").unwrap();
        let error = tree.list("/", "/", 9).unwrap_err();
        assert!(matches!(error.kind(), ErrorKind::Other(_)), "{error}");
        let seat = tree.seat().unwrap();
        assert!(tree.begin(seat, &Call::list("/", "/", 9)).is_err());
        assert_eq!(tree.read_dir("/").unwrap(), [b"a"]);
        let journal = tree.journal().unwrap();
        assert!(journal.contains(" readdir /\n") && !journal.contains(" list "));
        let more = Tree::with_limits(limits.nodes() + 1, limits);
        assert_eq!(more.err().map(|error| error.kind()), Some(ErrorKind::BadLimit));
    }
    let more = Tree::with_limits(Limits::V3.nodes() + 1, Limits::V3);
    assert_eq!(more.err().map(|error| error.kind()), Some(ErrorKind::BadLimit));
}
