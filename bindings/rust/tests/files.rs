//! Files, and what takes several calls.

use std::io::{self, BufRead, BufReader, Read, Seek, SeekFrom, Write};
use std::path::Path;

use atomfs::{Errno, Error, ErrorKind, File, Limits, OpenOptions, PathFault, SharedTree, Stat, Tree};

const FILE: Stat = Stat { is_dir: false, size: 5 };

fn tree() -> Tree {
    let mut tree = Tree::new().unwrap();
    tree.create_dir_all("/a/b/c").unwrap();
    tree.write_file("/a/f", "hello").unwrap();
    tree.write_file("/a/b/g", "").unwrap();
    tree
}

/// What a call leaves: the tree as it was.
fn stays<T: std::fmt::Debug>(tree: &mut Tree, errno: Errno, call: impl Fn(&mut Tree) -> Result<T, Error>) {
    let before = tree.text_of_tree().unwrap();
    assert_eq!(call(tree).map(|_| ()).unwrap_err(), ErrorKind::Failed(errno));
    assert_eq!(tree.text_of_tree().unwrap(), before);
}

#[test]
fn a_file_is_read_from_its_place_on() {
    let mut tree = tree();
    let mut file = tree.open(Path::new("/a/f")).unwrap();
    let mut two = [0; 2];
    file.read_exact(&mut two).unwrap();
    assert_eq!(&two, b"he");
    assert_eq!(file.seek(SeekFrom::Current(1)).unwrap(), 3);
    assert_eq!(file.seek(SeekFrom::Current(-2)).unwrap(), 1);
    let mut told = String::new();
    assert_eq!(file.read_to_string(&mut told).unwrap(), 4);
    assert_eq!(told, "ello");
    assert_eq!(file.read(&mut two).unwrap(), 0);
    assert_eq!(file.seek(SeekFrom::End(-1)).unwrap(), 4);
    assert_eq!(file.read(&mut two).unwrap(), 1);
    assert_eq!(two, *b"oe");
    let came = file.seek(SeekFrom::End(-6)).unwrap_err();
    assert_eq!(came.kind(), io::ErrorKind::InvalidInput);
    assert_eq!(file.stream_position().unwrap(), 5);
    assert_eq!(file.stat(), Ok(FILE));
    assert_eq!(file.write(b"x").unwrap_err().raw_os_error(), Some(9));
    assert_eq!(file.set_len(0).unwrap_err().raw_os_error(), Some(9));
    assert_eq!(tree.stat("/a/f"), Ok(FILE));
    assert_eq!(tree.check().unwrap(), "lawful");
}

#[test]
fn a_file_is_written_at_its_place() {
    let mut tree = tree();
    let mut file = tree.create("/a/new").unwrap();
    write!(file, "one\ntwo\n").unwrap();
    file.seek(SeekFrom::Start(10)).unwrap();
    file.write_all(b"three").unwrap();
    file.flush().unwrap();
    assert_eq!(file.read(&mut [0]).unwrap_err().raw_os_error(), Some(9));
    assert_eq!(tree.read_to_end("/a/new").unwrap(), b"one\ntwo\n\0\0three");
    let lines = BufReader::new(tree.open("/a/new").unwrap()).lines();
    let lines: Vec<String> = lines.map(Result::unwrap).collect();
    assert_eq!(lines, ["one", "two", "\0\0three"]);
    // One that is there is emptied.
    tree.create("/a/new").unwrap().write_all(b"x").unwrap();
    assert_eq!(tree.read_to_end("/a/new").unwrap(), b"x");
    assert_eq!(tree.check().unwrap(), "lawful");
}

type Open<'t> = Result<File<&'t mut Tree>, Error>;

fn by<'t>(tree: &'t mut Tree, letters: &str, path: &str) -> Open<'t> {
    let mut options = OpenOptions::new();
    for letter in letters.chars() {
        match letter {
            'r' => options.read(true),
            'w' => options.write(true),
            'a' => options.append(true),
            't' => options.truncate(true),
            'c' => options.create(true),
            'x' => options.create_new(true),
            _ => panic!("{letter}"),
        };
    }
    options.open(tree, path)
}

/// What a file has after it was opened by these options and `yo` was written, or the error of its open.
#[test]
fn each_way_to_open() {
    let rows = [
        ("w", "/a/f", Ok("yollo")),
        ("rw", "/a/f", Ok("yollo")),
        ("a", "/a/f", Ok("helloyo")),
        ("wa", "/a/f", Ok("helloyo")),
        ("wt", "/a/f", Ok("yo")),
        ("wct", "/a/f", Ok("yo")),
        ("wc", "/a/f", Ok("yollo")),
        ("wc", "/a/new", Ok("yo")),
        ("ac", "/a/new", Ok("yo")),
        ("wx", "/a/new", Ok("yo")),
        ("wx", "/a/f", Err(ErrorKind::Failed(Errno::EEXIST))),
        ("wxt", "/a/f", Err(ErrorKind::Failed(Errno::EEXIST))),
        ("wx", "/a/b", Err(ErrorKind::Failed(Errno::EEXIST))),
        ("w", "/a/new", Err(ErrorKind::Failed(Errno::ENOENT))),
        ("wt", "/a/new", Err(ErrorKind::Failed(Errno::ENOENT))),
        ("r", "/a/new", Err(ErrorKind::Failed(Errno::ENOENT))),
        ("r", "/a/b", Err(ErrorKind::Failed(Errno::EISDIR))),
        ("wct", "/a/b", Err(ErrorKind::Failed(Errno::EISDIR))),
        ("wc", "/a/f/g", Err(ErrorKind::Failed(Errno::ENOTDIR))),
        ("wc", "/x/y", Err(ErrorKind::Failed(Errno::ENOENT))),
        ("wc", "/", Err(ErrorKind::Failed(Errno::EISDIR))),
        ("", "/a/f", Err(ErrorKind::BadOptions)),
        ("c", "/a/f", Err(ErrorKind::BadOptions)),
        ("rt", "/a/f", Err(ErrorKind::BadOptions)),
        ("rx", "/a/new", Err(ErrorKind::BadOptions)),
        ("at", "/a/f", Err(ErrorKind::BadOptions)),
    ];
    for (letters, path, due) in rows {
        let mut tree = tree();
        let before = tree.text_of_tree().unwrap();
        let came = by(&mut tree, letters, path).map(|mut file| file.write_all(b"yo").unwrap());
        match due {
            Ok(text) => {
                assert_eq!(came, Ok(()), "{letters} {path}");
                assert_eq!(tree.read_to_end(path).unwrap(), text.as_bytes(), "{letters} {path}");
            }
            Err(error) => {
                let came = came.unwrap_err();
                assert_eq!(came, error, "{letters} {path}");
                assert_eq!(came.path(), Some(Path::new(path)));
                assert_eq!(tree.text_of_tree().unwrap(), before, "{letters} {path}");
            }
        }
        assert_eq!(tree.check().unwrap(), "lawful");
    }
    assert!(!ErrorKind::BadOptions.to_string().is_empty());
    assert_eq!(io::Error::from(Error::from(ErrorKind::BadOptions)).kind(), io::ErrorKind::InvalidInput);
}

/// An append goes to the end as it is then, and a file whose path went away has the error of its calls.
#[test]
fn a_file_is_its_path() {
    let tree = SharedTree::try_from(tree()).unwrap();
    let mut session = tree.session().unwrap();
    let mut file = OpenOptions::new().read(true).append(true).open(&mut session, "/a/f").unwrap();
    file.write_all(b"1").unwrap();
    tree.write("/a/f", 6, "23").unwrap();
    file.write_all(b"4").unwrap();
    assert_eq!(file.stream_position().unwrap(), 9);
    file.set_len(7).unwrap();
    file.rewind().unwrap();
    let mut told = String::new();
    file.read_to_string(&mut told).unwrap();
    assert_eq!(told, "hello12");
    tree.rename("/a/f", "/a/g").unwrap();
    for came in [
        file.write(b"5").map(|_| ()),
        file.read(&mut [0]).map(|_| ()),
        file.set_len(0),
        file.seek(SeekFrom::End(0)).map(|_| ()),
    ] {
        assert_eq!(came.unwrap_err().kind(), io::ErrorKind::NotFound);
    }
    assert_eq!(file.stat().unwrap_err(), ErrorKind::Failed(Errno::ENOENT));
    let mut tree = tree.lock();
    assert_eq!(tree.read_to_end("/a/g").unwrap(), b"hello12");
    assert_eq!(tree.check().unwrap(), "lawful");
}

#[test]
fn directories_with_those_above_them() {
    let mut tree = tree();
    tree.create_dir_all("/a/b/c").unwrap();
    tree.create_dir_all("/").unwrap();
    tree.create_dir_all("/a/x/y").unwrap();
    assert_eq!(tree.readdir("/a/x").unwrap(), [b"y"]);
    tree.create_dir_all("//a//z///y").unwrap();
    assert_eq!(tree.readdir("/a/z").unwrap(), [b"y"]);
    stays(&mut tree, Errno::EEXIST, |tree| tree.create_dir_all("/a/f"));
    stays(&mut tree, Errno::ENOTDIR, |tree| tree.create_dir_all("/a/f/x/y"));
    let before = tree.text_of_tree().unwrap();
    let error = tree.create_dir_all("/n/m/..").unwrap_err();
    assert_eq!(error, ErrorKind::BadPath(PathFault::Dot));
    assert_eq!(tree.text_of_tree().unwrap(), before);
    let mut small = Tree::with_limit(3).unwrap();
    assert_eq!(small.create_dir_all("/p/q/r").unwrap_err(), ErrorKind::Full);
    assert_eq!(small.text_of_tree().unwrap(), "tree\ndir /\n");
    small.create_dir_all("/p/q").unwrap();
    assert_eq!(small.write_file("/f", "x").unwrap_err(), ErrorKind::Full);
    assert_eq!(small.create("/f").unwrap_err(), ErrorKind::Full);
    assert_eq!(small.text_of_tree().unwrap(), "tree\ndir /\ndir /p\ndir /p/q\n");
    assert_eq!(tree.check().unwrap(), "lawful");
    assert_eq!(small.check().unwrap(), "lawful");
}

#[test]
fn whole_files() {
    let mut tree = Tree::with_limits(Limits::V1.nodes(), Limits::V1).unwrap();
    let full = vec![7; Limits::V1.file_bytes()];
    tree.write_file("/f", &full).unwrap();
    assert_eq!(tree.read_to_end("/f").unwrap(), full);
    tree.write_file("/f", "short").unwrap();
    assert_eq!(tree.read_to_end("/f").unwrap(), b"short");
    let more = [&full[..], b"x"].concat();
    stays(&mut tree, Errno::EFBIG, |tree| tree.write_file("/f", &more));
    stays(&mut tree, Errno::EFBIG, |tree| tree.write_file("/new", &more));
    tree.mkdir("/d").unwrap();
    stays(&mut tree, Errno::EISDIR, |tree| tree.write_file("/d", "x"));
    stays(&mut tree, Errno::EISDIR, |tree| tree.read_to_end("/d"));
    stays(&mut tree, Errno::ENOENT, |tree| tree.write_file("/x/y", "x"));
    stays(&mut tree, Errno::ENOENT, |tree| tree.read_to_end("/x"));
    assert_eq!(tree.check().unwrap(), "lawful");
    let mut tree = Tree::new().unwrap();
    let large = vec![1; Limits::V2.file_bytes()];
    tree.write_file("/f", &large).unwrap();
    assert!(tree.read_to_end("/f").unwrap() == large);
}

#[test]
fn a_walk() {
    let mut tree = tree();
    let walked = |tree: &mut Tree, path: &str| -> Vec<(String, u64)> {
        let found = tree.walk(path).unwrap();
        let told = |entry: &atomfs::Entry| (entry.path().display().to_string(), entry.stat().size);
        found.iter().map(told).collect()
    };
    let all = [("/", 1), ("/a", 2), ("/a/b", 2), ("/a/b/c", 0), ("/a/b/g", 0), ("/a/f", 5)];
    assert_eq!(walked(&mut tree, "/"), all.map(|(path, size)| (path.to_string(), size)));
    assert_eq!(walked(&mut tree, "/a/f"), [("/a/f".to_string(), 5)]);
    let names: Vec<_> = tree.walk("/a/b").unwrap();
    let names: Vec<_> = names.iter().map(|entry| entry.name().unwrap()).collect();
    assert_eq!(names, ["b", "c", "g"]);
    assert_eq!(tree.walk("/").unwrap()[0].name(), None);
    assert_eq!(tree.walk("/x").unwrap_err(), ErrorKind::Failed(Errno::ENOENT));
    let mut deep = String::new();
    for at in 0..64 {
        deep += &format!("/{at}");
    }
    tree.create_dir_all(&deep).unwrap();
    assert_eq!(tree.walk("/0").unwrap().len(), 64);
    tree.remove_dir_all("/0").unwrap();
    assert_eq!(walked(&mut tree, "/")[0].1, 1);
    assert_eq!(tree.check().unwrap(), "lawful");
}

#[test]
fn directories_with_all_below_them() {
    let mut tree = tree();
    stays(&mut tree, Errno::ENOENT, |tree| tree.remove_dir_all("/x"));
    stays(&mut tree, Errno::ENOTDIR, |tree| tree.remove_dir_all("/a/f"));
    stays(&mut tree, Errno::EBUSY, |tree| tree.remove_dir_all("/"));
    tree.mkdir("/z").unwrap();
    tree.remove_dir_all("/z").unwrap();
    tree.remove_dir_all("/a").unwrap();
    assert_eq!(tree.text_of_tree().unwrap(), "tree\ndir /\n");
    assert_eq!(tree.check().unwrap(), "lawful");
}
