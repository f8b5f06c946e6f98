//! The same typed calls as of `embed.c`, from Rust: `embed_rust CALLS`, or `embed_rust --long CALLS`.

const PIECE: usize = 4000;
const EVERY: usize = 10_000;
const EARLY: usize = 100_000;

fn piece() -> Vec<u8> {
    (0..PIECE).map(|k| (k * 7) as u8).collect()
}

fn names_typed(tree: &mut atomfs::Tree, i: usize) {
    let name = format!("/a{}", i / 4 % 100);
    match i % 4 {
        0 => tree.mkdir(name).unwrap(),
        1 => drop(tree.stat(name).unwrap()),
        2 => tree.rename(name, "/b").unwrap(),
        _ => tree.rmdir("/b").unwrap(),
    }
}

/// Where the next piece of a file is.
fn place(i: usize) -> u64 {
    (i % 16 * PIECE) as u64
}

fn write_typed(tree: &mut atomfs::Tree, i: usize, piece: &[u8]) {
    assert_eq!(tree.write("/f", place(i), piece), Ok(PIECE as u64));
}

fn read_typed(tree: &mut atomfs::Tree, i: usize, out: &mut [u8]) {
    assert_eq!(tree.read_into("/f", place(i), out), Ok(PIECE));
}

fn tree() -> atomfs::Tree {
    let mut tree = atomfs::Tree::with_limit(1000).unwrap();
    tree.mknod("/f").unwrap();
    tree.truncate("/f", 16 * PIECE as u64).unwrap();
    tree
}

unsafe extern "C" {
    /// How many millionths of a second the process has had a processor.
    safe fn clock() -> i64;
}

fn processor_seconds() -> f64 {
    clock() as f64 / 1e6
}

/// The best of three rounds, each on a tree of its own.
fn measure(name: &str, calls: usize, mut call: impl FnMut(&mut atomfs::Tree, usize)) {
    let mut best = 0.0;
    for _ in 0..3 {
        let mut tree = tree();
        let from = processor_seconds();
        (0..calls).for_each(|i| call(&mut tree, i));
        best = f64::max(best, calls as f64 / (processor_seconds() - from));
    }
    println!("Rust    {name:13} {best:9.0} calls/s");
}

fn measure_all(calls: usize) {
    let (piece, mut out) = (piece(), vec![0; PIECE]);
    measure("names, typed", calls, names_typed);
    measure("writes, typed", calls / 8, |tree, i| write_typed(tree, i, &piece));
    measure("reads, typed", calls / 8, |tree, i| read_typed(tree, i, &mut out));
}

/// The most KiB that the process had.
fn peak() -> usize {
    let status = std::fs::read_to_string("/proc/self/status").unwrap();
    let line = status.lines().find(|line| line.starts_with("VmHWM:")).unwrap();
    line.split_whitespace().nth(1).unwrap().parse().unwrap()
}

/// Behind so many calls the tree has forgotten them by itself, or a checkpoint hands them out.
fn run_long(calls: usize, forgets: bool) {
    let (piece, mut out, mut early) = (piece(), vec![0; PIECE], 0);
    let mut tree = tree();
    if forgets {
        tree.keep(atomfs::Journal::Last(EVERY as u32)).unwrap();
    }
    for i in 0..calls {
        match i % 10 {
            8 => write_typed(&mut tree, i / 10, &piece),
            9 => read_typed(&mut tree, i / 10, &mut out),
            k => names_typed(&mut tree, i / 10 * 8 + k),
        }
        if !forgets && (i + 1) % EVERY == 0 {
            tree.checkpoint().unwrap();
        }
        if i + 1 == EARLY {
            early = peak();
        }
    }
    let what = if forgets { "forgotten" } else { "a checkpoint" };
    println!("Rust    {calls} calls, {what} behind each {EVERY}: {early} KiB after {EARLY}, at most {} KiB", peak());
}

fn main() {
    let words: Vec<String> = std::env::args().skip(1).collect();
    match words.as_slice() {
        [long, calls] if long == "--long" => {
            for forgets in [true, false] {
                run_long(calls.parse().unwrap(), forgets);
            }
        }
        [calls] => measure_all(calls.parse().unwrap()),
        _ => panic!("embed_rust [--long] CALLS"),
    }
}
