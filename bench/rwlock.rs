// A std::sync::RwLock round the tree of plain.rs: what the observers of crates/bench are measured against.
//
// rwlock READS: the reads a second of 1, 2 and 4 readers, so many each, beside a writer that sleeps 100 microseconds
// between two calls.
#[allow(dead_code)]
mod plain {
    include!("plain.rs");

    pub mod shared {
        use super::{Answer, Call, Node, Reply, Tree};
        use std::sync::RwLock;
        use std::sync::atomic::{AtomicU64, Ordering};
        use std::time::{Duration, Instant};

        const FILE: &[u8] = b"/a/b/f";

        fn write() -> Call {
            Call::Write(FILE.to_vec(), 0, vec![b'x'; 32])
        }

        fn read(tree: &Tree, path: &[u8], off: usize, count: usize) -> Answer {
            match &tree.nodes[tree.find(path)?] {
                Node::File(bytes) => {
                    let from = off.min(bytes.len());
                    let to = off.saturating_add(count).min(bytes.len());
                    Ok(Reply::Bytes(bytes[from..to].to_vec()))
                }
                Node::Dir(_) => Err("EISDIR"),
            }
        }

        /// So many stats and reads of the file, in turn.
        fn reads_all(tree: &RwLock<Tree>, reads: u64) {
            for number in 0..reads {
                let tree = tree.read().unwrap();
                match number % 2 {
                    0 => assert!(matches!(tree.stat(FILE), Ok(Reply::Stat(false, 32)))),
                    _ => match read(&tree, FILE, 0, 64) {
                        Ok(Reply::Bytes(bytes)) => assert_eq!(bytes.len(), 32),
                        _ => panic!("no bytes"),
                    },
                }
            }
        }

        /// Writes to the file until nobody reads any more.
        fn writes(tree: &RwLock<Tree>, reading: &AtomicU64) {
            while reading.load(Ordering::SeqCst) > 0 {
                tree.write().unwrap().apply(&write());
                std::thread::sleep(Duration::from_micros(100));
            }
        }

        /// How long so many readers take.
        pub fn timed(readers: u64, reads: u64) -> Duration {
            let mut tree = Tree::new();
            for call in
                [Call::Mkdir(b"/a".to_vec()), Call::Mkdir(b"/a/b".to_vec()), Call::Mknod(FILE.to_vec()), write()]
            {
                tree.apply(&call);
            }
            let (tree, reading) = (RwLock::new(tree), AtomicU64::new(readers));
            let start = Instant::now();
            std::thread::scope(|scope| {
                scope.spawn(|| writes(&tree, &reading));
                for _ in 0..readers {
                    scope.spawn(|| {
                        reads_all(&tree, reads);
                        reading.fetch_sub(1, Ordering::SeqCst);
                    });
                }
            });
            start.elapsed()
        }
    }
}

fn main() {
    let reads: u64 = std::env::args().nth(1).and_then(|word| word.parse().ok()).unwrap_or(500);
    for readers in [1, 2, 4] {
        let time = plain::shared::timed(readers, reads);
        let rate = u128::from(readers * reads) * 1000 / time.as_micros().max(1);
        println!("{readers} readers of a lock: {rate} thousand reads a second");
    }
}
