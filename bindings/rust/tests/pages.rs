//! Pages that play a run: as the package for Python makes them of the same run, whatever names it has.

use std::io::Write;
use std::path::{Path, PathBuf};
use std::process::{Command, Stdio};

use atomfs::{explore, Errno, ErrorKind, Limits, Plan, Schedule, SharedTree, Tree};

/// The page without a run.
const STORED: &str = include_str!(concat!(env!("OUT_DIR"), "/run.html"));
const SCRIPT: &str =
    "atomfs 1\nthread m\nmkdir /a\nmkdir /a/d\nmkdir /a/d/x\nthread r\nrename /a /b\nschedule\nm*18 r*6 m*3\n";
const WRONG: &str =
    "atomfs-journal 1\nbegin 1 0 mkdir /a\ncommit 1\nreturn 1 ok\nbegin 2 0 mkdir /a\ncommit 2\nreturn 2 ok\n";

/// The picture and the text of a page, whose other parts are those that are stored.
fn parts(page: &str) -> (String, String) {
    let (before, rest) = STORED.split_once("@PICTURE@\n").unwrap();
    let (between, after) = rest.split_once("@RUN@").unwrap();
    let inside = page.strip_prefix(before).and_then(|rest| rest.strip_suffix(after)).expect("the page without a run");
    let (picture, text) = inside.split_once(between).unwrap();
    (picture.to_owned(), text.replace("&lt;", "<").replace("&gt;", ">").replace("&amp;", "&"))
}

/// The package for Python beside the crate, and the library for it, where they are there.
fn python() -> Option<(PathBuf, PathBuf)> {
    let here = Path::new(env!("CARGO_MANIFEST_DIR"));
    let package = here.join("../python/src");
    let named = std::env::var_os("ATOMFS_LIB_DIR").map(PathBuf::from);
    let folders = named.into_iter().chain([here.join("../../dist/lib"), here.join("../../../lib")]);
    let library = folders.map(|folder| folder.join("libatomfs.so")).find(|library| library.is_file())?;
    package.join("atomfs").is_dir().then_some((package, library))
}

/// Ends with 77 where the package cannot be used.
const PROGRAM: &str = "if True:
    import sys
    try:
        import atomfs
        atomfs.library_version()
    except Exception:
        sys.exit(77)
    sys.stdout.write(str(atomfs.draw(sys.stdin.buffer.read(), html=True, **eval(sys.argv[1]))))
";

/// The page that Python's package makes of a text, with these arguments besides; none where it is not there.
fn of_python(text: &[u8], more: &str) -> Option<String> {
    let (package, library) = python()?;
    let mut command = Command::new("python3");
    command.args(["-c", PROGRAM, more]).env("PYTHONPATH", package).env("ATOMFS_LIBRARY", library);
    command.env("ATOMFS_PURE", "1").env("PYTHONPYCACHEPREFIX", env!("CARGO_TARGET_TMPDIR"));
    let mut child = command.stdin(Stdio::piped()).stdout(Stdio::piped()).spawn().ok()?;
    // Where the package cannot be used nobody may read this.
    let _ = child.stdin.take()?.write_all(text);
    let came = child.wait_with_output().unwrap();
    if came.status.code() == Some(77) {
        return None;
    }
    assert!(came.status.success(), "Python's package makes no page");
    Some(String::from_utf8(came.stdout).unwrap())
}

/// The page of a text, which is Python's too.
fn page(text: impl AsRef<[u8]>, by: Schedule) -> String {
    let page = atomfs::page(&text, by).unwrap();
    let more = match by {
        Schedule::Given => "{}".to_owned(),
        Schedule::RoundRobin => "{'robin': True}".to_owned(),
        Schedule::Seeded(seed) => format!("{{'seed': {seed}}}"),
    };
    match of_python(text.as_ref(), &more) {
        Some(of_python) => assert!(page == of_python, "not Python's page"),
        None => eprintln!("the page is compared with no other: the package for Python is not there"),
    }
    page
}

/// The picture and the trace of the same run of a script.
#[test]
fn scripts() {
    for by in [Schedule::Given, Schedule::RoundRobin, Schedule::Seeded(7)] {
        let wanted = (atomfs::draw(SCRIPT, by, None).unwrap(), atomfs::trace(SCRIPT, by, false).unwrap());
        assert_eq!(parts(&page(SCRIPT, by)), wanted);
    }
}

/// A journal is as it is, after a line with the verdict on it.
#[test]
fn journals() {
    let journal = "atomfs-journal 1\n# seat 0 m\n# fault 9 None\n#\nbegin 1 0 stat /\ncommit 1\nreturn 1 stat dir 0\n";
    for (journal, verdict) in [(journal, "lawful"), (WRONG, "fault 6 WrongReply")] {
        let picture = atomfs::draw(journal, Schedule::Given, None).unwrap();
        assert_eq!(parts(&page(journal, Schedule::Given)), (picture, format!("# {verdict}\n{journal}")));
    }
}

/// What is no script and no journal has no page.
#[test]
fn no_runs() {
    for text in ["", "atomfs 1\nmkdir /a\n", "atomfs-journal 1\nbegin\n"] {
        let error = atomfs::page(text, Schedule::Given).unwrap_err();
        assert!(matches!(error.kind(), ErrorKind::BadText(..)), "{error}");
    }
}

/// Names that a page must not take for signs of its own.
const HOSTILE: [&[u8]; 7] = [
    b"</pre><script>alert(1)<",
    b"&lt;&amp;",
    b"\xff\xfe\r\n\t",
    b"@RUN@",
    b"@PICTURE@\n",
    b"--><!--",
    b"'\" onload=\"",
];

/// A page has the signs of HTML that the stored one and the picture have, and nothing but ASCII.
fn is_harmless(page: &str) {
    assert!(page.is_ascii() && !page.contains(['\r', '\t']));
    assert_eq!((page.matches("</pre>").count(), page.matches("<script>").count()), (1, 2));
    assert!(!page.contains("<!--") && !page.contains("alert(1)<"));
}

/// No byte of a name or of a comment comes to the page as a sign of HTML, or as one that is not ASCII.
#[test]
fn hostile_texts() {
    let script = b"atomfs 3\nthread t\nmkdir /</pre><script>\nmkdir /&lt;\nmkdir /\xff\xfe\nschedule\nfinish\n";
    let journal = b"atomfs-journal 1\n# seat 0 </pre>\nbegin 1 0 stat /<\xc3\r>\ncommit 1\nreturn 1 failed ENOENT\n";
    for text in [&script[..], journal] {
        is_harmless(&page(text, Schedule::Given));
    }
    let (_, text) = parts(&page(journal, Schedule::Given));
    assert!(text.contains("\nbegin 1 0 stat /<%C3%0D>\n"), "{text}");
}

#[test]
fn hostile_trees() {
    let mut tree = Tree::new().unwrap();
    for name in HOSTILE {
        let path = [b"/", name].concat();
        match name.contains(&b'/') {
            true => assert_eq!(tree.mkdir(&path).unwrap_err(), ErrorKind::Failed(Errno::ENOENT)),
            false => tree.mkdir(&path).unwrap(),
        }
    }
    let journal = tree.journal().unwrap();
    assert_eq!(tree.page().unwrap(), page(&journal, Schedule::Given));
    is_harmless(&tree.page().unwrap());
    let (_, text) = parts(&tree.page().unwrap());
    assert_eq!(text, format!("# lawful\n{journal}"));
    assert!(text.contains("mkdir /@RUN@\n"), "{text}");
}

/// The page of a shared tree, of one by other limits, and of one that starts at a tree.
#[test]
fn trees() {
    let shared = SharedTree::new().unwrap();
    shared.mkdir("/a").unwrap();
    let mut lent = shared.lock();
    let journal = lent.journal().unwrap();
    assert_eq!(lent.page().unwrap(), page(journal, Schedule::Given));
    let mut tree = Tree::from_text("tree\ndir /\nfile /f 6869\n", 10, Limits::V1).unwrap();
    tree.unlink("/f").unwrap();
    let journal = tree.journal().unwrap();
    assert_eq!(tree.page().unwrap(), page(journal, Schedule::Given));
}

/// The page of a run that failed plays its script, and shows the lines of the source that made its calls.
#[test]
fn failed_runs() {
    let plan = |plan: &mut Plan<'_, ()>| {
        plan.before(|tree| tree.mkdir([b"/", HOSTILE[2]].concat()).unwrap());
        for name in ["a", "b"] {
            plan.thread(name, move |tree| tree.mkdir(format!("/</{name}>")).unwrap_or_default());
        }
        plan.check(|_, _| false);
    };
    let error = explore(1..9, plan).unwrap_err();
    let script = error.script.as_ref().expect("a script");
    is_harmless(&error.page().unwrap());
    let (picture, text) = parts(&error.page().unwrap());
    let (notes, trace) = text.split_at(text.find("atomfs-trace").expect("a trace"));
    assert_eq!((picture, trace.to_owned()), parts(&page(script, Schedule::Given)));
    let of_a_thread = "plan.thread(name, move |tree| tree.mkdir(format!(\"/</{name}>\")).unwrap_or_default());";
    let lines = ["plan.before(|tree| tree.mkdir([b\"/\", HOSTILE[2]].concat()).unwrap());", of_a_thread, of_a_thread];
    assert_eq!(notes.lines().count(), lines.len());
    for ((number, line), note) in (1..).zip(lines).zip(notes.lines()) {
        let words = note.strip_prefix(&format!("# source {number} {}:", file!())).expect("a note");
        let (_, shown) = words.split_once(' ').unwrap_or((words, ""));
        // A test may run where the source is not found.
        assert!(shown == line || shown.is_empty(), "{note}");
    }
    let none = explore(3..3, plan).unwrap_err();
    assert!(matches!(none.page().unwrap_err().kind(), ErrorKind::BadText(..)));
}
