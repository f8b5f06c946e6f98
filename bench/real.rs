// Plays a list of bench/real into the tree of plain.rs, its limits raised (--cfg large), and reads all back: real LIST.
// What a list is, and what is printed: real.c.
#[allow(dead_code)]
mod plain {
    include!("plain.rs");

    pub mod real {
        use super::{Node, Tree, names, number};
        use std::ffi::OsStr;
        use std::fs::File;
        use std::io::Read;
        use std::os::unix::ffi::OsStrExt;

        const PIECE: usize = 65_536;

        unsafe extern "C" {
            safe fn clock() -> i64;
        }

        /// A directory or a file of the list, and how many entries of it, or bytes, are in.
        struct Listed {
            is_dir: bool,
            path: Vec<u8>,
            size: usize,
            held: usize,
        }

        struct List {
            folder: Vec<u8>,
            nodes: Vec<Listed>,
        }

        impl List {
            fn of(text: &[u8]) -> List {
                let mut words = text.split(|b| *b == 0);
                let folder = words.next().unwrap().to_vec();
                let mut nodes = Vec::new();
                while let Some([kind, path @ ..]) = words.next() {
                    let is_dir = *kind == b'd';
                    let size = if is_dir { 0 } else { number(words.next().unwrap()) as usize };
                    nodes.push(Listed { is_dir, path: path.to_vec(), size, held: 0 });
                }
                List { folder, nodes }
            }

            fn source(&self, node: &Listed) -> File {
                let path = [&self.folder[..], &node.path].concat();
                File::open(OsStr::from_bytes(&path)).unwrap()
            }
        }

        /// The next piece of a file of the disk, of which so many bytes are left.
        fn next_piece<'a>(source: &mut File, piece: &'a mut [u8], left: usize) -> &'a [u8] {
            let size = left.min(PIECE);
            source.read_exact(&mut piece[..size]).unwrap();
            &piece[..size]
        }

        fn read_alone(list: &List, piece: &mut [u8]) {
            for node in list.nodes.iter().filter(|node| !node.is_dir) {
                let (mut source, mut left) = (list.source(node), node.size);
                while left > 0 {
                    left -= next_piece(&mut source, piece, left).len();
                }
            }
        }

        /// Makes all, each directory before what is in it, and answers how many calls that were, and how much is in
        /// each.
        fn make(tree: &mut Tree, list: &List, piece: &mut [u8]) -> usize {
            let mut calls = 0;
            for node in &list.nodes[1..] {
                calls += 1;
                if node.is_dir {
                    tree.add(&node.path, Node::Dir(Default::default())).unwrap();
                    continue;
                }
                tree.add(&node.path, Node::File(Vec::new())).unwrap();
                let (mut source, mut at) = (list.source(node), 0);
                while at < node.size {
                    let bytes = next_piece(&mut source, piece, node.size - at);
                    tree.write(&node.path, at as u64, bytes).unwrap();
                    at += bytes.len();
                    calls += 1;
                }
            }
            calls
        }

        /// Compares a file with the one on the disk, and answers by how many reads, or none where it differs.
        fn compared(tree: &mut Tree, list: &List, node: &Listed, pieces: &mut [Vec<u8>; 2]) -> Option<usize> {
            let [piece, other] = pieces;
            let (mut source, mut at, mut reads) = (list.source(node), 0, 0);
            loop {
                let bytes = next_piece(&mut source, piece, node.size - at);
                let file = tree.file(&node.path).ok()?;
                let found = &file[at.min(file.len())..(at + PIECE).min(file.len())];
                other[..found.len()].copy_from_slice(found);
                reads += 1;
                if other[..found.len()] != *bytes {
                    return None;
                }
                at += bytes.len();
                if bytes.len() < PIECE {
                    return Some(reads);
                }
            }
        }

        fn back(tree: &mut Tree, list: &List, pieces: &mut [Vec<u8>; 2]) -> usize {
            let mut calls = 0;
            for (at, node) in list.nodes.iter().enumerate() {
                let is_same = if node.is_dir {
                    calls += 1;
                    let entries = tree.find(&node.path).and_then(|found| tree.dir(found));
                    entries.is_ok_and(|entries| entries.len() == node.held)
                } else {
                    let reads = compared(tree, list, node, pieces);
                    calls += reads.unwrap_or(1);
                    reads.is_some()
                };
                if !is_same {
                    println!("wrong {at} other");
                }
            }
            calls
        }

        /// Notes of each directory how many entries it has: a node is in the last directory before it with one name
        /// less.
        fn count_entries(nodes: &mut [Listed]) {
            let mut above: Vec<usize> = Vec::new();
            for at in 0..nodes.len() {
                let depth = names(&nodes[at].path).count();
                above.truncate(depth);
                if let Some(dir) = above.last() {
                    nodes[*dir].held += 1;
                }
                if nodes[at].is_dir {
                    above.push(at);
                }
            }
        }

        fn most_held() -> String {
            let status = std::fs::read_to_string("/proc/self/status").unwrap();
            status
                .lines()
                .find_map(|line| line.strip_prefix("VmHWM:"))
                .unwrap()
                .trim_end_matches("kB")
                .trim()
                .to_string()
        }

        pub fn play(path: &str) {
            let mut list = List::of(&std::fs::read(path).unwrap());
            count_entries(&mut list.nodes);
            let mut pieces = [vec![0; PIECE], vec![0; PIECE]];
            let mut clocks = vec![clock()];
            let mut held = Vec::new();
            let mut note = |clocks: &mut Vec<i64>| {
                clocks.push(clock());
                held.push(most_held());
            };
            read_alone(&list, &mut pieces[0]);
            note(&mut clocks);
            let mut tree = Tree::new();
            let mut calls = make(&mut tree, &list, &mut pieces[0]);
            note(&mut clocks);
            calls += back(&mut tree, &list, &mut pieces);
            note(&mut clocks);
            let seconds: Vec<String> =
                clocks.windows(2).map(|two| format!("{:.6}", (two[1] - two[0]) as f64 / 1e6)).collect();
            println!("used {calls} {} {} 0 0", seconds.join(" "), held.join(" "));
        }
    }
}

fn main() {
    plain::real::play(&std::env::args().nth(1).expect("real LIST"));
}
