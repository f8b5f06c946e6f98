//! Threads on one tree.

use std::future::Future;
use std::io::{Read, Write};
use std::panic;
use std::pin::Pin;
use std::sync::atomic::{AtomicUsize, Ordering};
use std::sync::mpsc::{channel, Receiver, Sender};
use std::sync::{Arc, Barrier, Mutex};
use std::task::{Context, Poll, Wake};
use std::thread::{self, JoinHandle};
use std::time::Duration;

use atomfs::{Call, Did, Errno, Error, ErrorKind, Journal, Reply, Session, SharedTree, Tree};

const ROUNDS: usize = 100;

/// What one thread does in a round: a directory goes up and down, and another moves the one above.
fn work(session: &mut Session, thread: usize, rounds: usize) {
    let (mine, moved) = (format!("/top/{thread}"), format!("/away/{thread}"));
    for _ in 0..rounds {
        for came in [
            session.mkdir(&mine),
            session.rename("/top", "/away"),
            session.stat(&moved).map(|_| ()),
            session.rename("/away", "/top"),
            session.rmdir(&mine),
        ] {
            let errno = came.as_ref().err().map(|error| error.errno());
            assert!(matches!(errno, None | Some(Some(Errno::ENOENT | Errno::EEXIST | Errno::ENOTEMPTY))), "{came:?}");
        }
    }
}

#[test]
fn sessions_interleave_and_the_journal_is_lawful() {
    let tree = SharedTree::with_limit(1000).unwrap();
    tree.mkdir("/top").unwrap();
    thread::scope(|scope| {
        for thread in 0..4 {
            let mut session = tree.session().unwrap();
            scope.spawn(move || work(&mut session, thread, ROUNDS));
        }
    });
    let mut tree = tree.lock();
    assert_eq!(tree.check().unwrap(), "lawful");
    assert_eq!(tree.journal().unwrap().matches("\nreturn ").count(), 1 + 4 * 5 * ROUNDS);
}

/// Another thread hands the journal out whenever no call is under way, and no session misses a reply by that.
#[test]
fn a_journal_in_pieces_while_threads_call() {
    let tree = SharedTree::with_limit(1000).unwrap();
    tree.mkdir("/top").unwrap();
    let left = AtomicUsize::new(2);
    let mut pieces = Vec::new();
    thread::scope(|scope| {
        for thread in 0..2 {
            let (mut session, left) = (tree.session().unwrap(), &left);
            scope.spawn(move || {
                work(&mut session, thread, ROUNDS);
                left.fetch_sub(1, Ordering::SeqCst);
            });
        }
        while left.load(Ordering::SeqCst) > 0 {
            pieces.push(tree.lock().checkpoint().unwrap());
            thread::yield_now();
        }
    });
    pieces.push(tree.lock().checkpoint().unwrap());
    let returned: usize = pieces.iter().map(|piece| piece.matches("\nreturn ").count()).sum();
    assert_eq!(returned, 1 + 2 * 5 * ROUNDS);
    assert_eq!(tree.lock().calls_before(), returned as u64);
    for piece in pieces {
        assert_eq!(atomfs::check(piece).unwrap(), "lawful");
    }
}

/// The processor time that this thread has used.
fn used() -> Duration {
    #[repr(C)]
    struct Time {
        seconds: std::os::raw::c_long,
        nanoseconds: std::os::raw::c_long,
    }
    extern "C" {
        fn clock_gettime(clock: std::os::raw::c_int, time: *mut Time) -> std::os::raw::c_int;
    }
    const OF_THIS_THREAD: std::os::raw::c_int = 3;
    let mut time = Time { seconds: 0, nanoseconds: 0 };
    // SAFETY: the clock is one of Linux, and the time a local of its form.
    assert_eq!(unsafe { clock_gettime(OF_THIS_THREAD, &mut time) }, 0);
    Duration::new(time.seconds as u64, time.nanoseconds as u32)
}

/// A call that a gate has stand behind an event, until it is let go.
struct Standing {
    goes: Sender<()>,
    thread: JoinHandle<Result<Reply, Error>>,
}

impl Standing {
    /// Makes a call on a thread of its own, and waits until it stands behind the event of a number.
    fn at(tree: &SharedTree, event: usize, call: Call<'static>) -> Standing {
        let mut session = tree.session().unwrap();
        let (stands, has_come): (_, Receiver<()>) = channel();
        let (goes, may_go): (_, Receiver<()>) = channel();
        let (its, heard) = (session.seat(), AtomicUsize::new(0));
        let ends = Mutex::new((stands, may_go));
        tree.gate(Some(Box::new(move |seat, _| {
            if seat == its && heard.fetch_add(1, Ordering::SeqCst) == event {
                let ends = ends.lock().unwrap();
                ends.0.send(()).unwrap();
                // Whoever has the other end may be gone.
                let _ = ends.1.recv();
            }
        })));
        let thread = thread::spawn(move || session.call(&call));
        has_come.recv().unwrap();
        Standing { goes, thread }
    }

    fn goes_on(self) -> Result<Reply, Error> {
        let _ = self.goes.send(());
        self.thread.join().unwrap()
    }
}

/// A tree in which a mkdir of `/a/x` holds `/a`: it began, took the root, took /a and let the root go.
fn held() -> (SharedTree, Standing) {
    let tree = SharedTree::with_limit(1000).unwrap();
    tree.mkdir("/a").unwrap();
    let standing = Standing::at(&tree, 3, Call::mkdir("/a/x"));
    (tree, standing)
}

/// Waits until so many calls wait.
fn wait_for(tree: &SharedTree, count: usize) {
    while tree.holders().matches("waits for").count() < count {
        thread::sleep(Duration::from_millis(5));
    }
}

/// A call that waits sleeps until the node is let go: it uses a tenth of the processor time of one that tries again, at
/// most. All of those that wait come through.
#[test]
fn a_call_that_waits_sleeps() {
    let (tree, standing) = held();
    let mut session = tree.session().unwrap();
    let waits: Vec<_> = (0..3)
        .map(|thread| {
            let tree = tree.clone();
            thread::spawn(move || {
                let before = used();
                let came = tree.mkdir(format!("/a/{thread}"));
                (came, used() - before)
            })
        })
        .collect();
    let stats = thread::spawn(move || {
        let before = used();
        let came = session.stat("/a/x").map(|_| ());
        (came, used() - before)
    });
    wait_for(&tree, 4);
    // As long as it takes one that tries again and again to use a tenth of a second.
    let before = used();
    while used() - before < Duration::from_millis(100) {
        drop(tree.holders());
        thread::yield_now();
    }
    assert!(!stats.is_finished() && !waits.iter().any(|thread| thread.is_finished()));
    assert_eq!(standing.goes_on(), Ok(Reply::Done));
    for thread in waits.into_iter().chain([stats]) {
        let (came, used) = thread.join().unwrap();
        assert_eq!(came, Ok(()));
        assert!(used < Duration::from_millis(10), "{used:?}");
    }
    assert_eq!(tree.readdir("/a").unwrap(), [b"0", b"1", b"2", b"x"]);
    assert_eq!(tree.lock().check().unwrap(), "lawful");
}

/// Calls that stand, and those that wait for them, return by `finish_all`, and are answered.
#[test]
fn finished_by_another_thread() {
    let (tree, standing) = held();
    let waits = thread::spawn({
        let tree = tree.clone();
        move || tree.rmdir("/a/x")
    });
    wait_for(&tree, 1);
    assert_eq!(tree.finish_all(), 2);
    assert_eq!(waits.join().unwrap(), Ok(()));
    assert_eq!(tree.finish_all(), 0);
    assert_eq!(standing.goes_on(), Ok(Reply::Done));
    assert_eq!(tree.readdir("/a").unwrap(), [b""; 0]);
    assert_eq!(tree.lock().check().unwrap(), "lawful");
}

/// A wait that takes too long is an error that tells who holds what; so for the lock.
#[test]
fn a_wait_that_is_given_up() {
    let (tree, standing) = held();
    tree.wait_most(Some(Duration::from_millis(30)));
    let mut session = tree.session().unwrap();
    let error = session.stat("/a/x").unwrap_err();
    assert_eq!(error, ErrorKind::TimedOut(3));
    assert_eq!(std::io::Error::from(error.clone()).kind(), std::io::ErrorKind::TimedOut);
    let holders = error.holders().unwrap();
    let lines: Vec<_> = holders.lines().collect();
    assert_eq!(lines, ["call 2 on seat 1 holds 1", "call 3 on seat 2 holds 0, waits for call 2"]);
    assert!(error.to_string().starts_with("\"/a/x\": call 3 waited for too long"), "{error}");
    assert!(error.to_string().ends_with("holds 0, waits for call 2"), "{error}");
    let error = tree.try_lock().unwrap_err();
    assert_eq!(error, ErrorKind::TimedOut(0));
    assert!(error.to_string().starts_with("no call began"), "{error}");
    assert_eq!(session.stat("/").unwrap_err(), ErrorKind::SeatBusy);
    assert_eq!(tree.finish_all(), 2);
    assert!(session.stat("/").unwrap().is_dir);
    assert_eq!(standing.goes_on(), Ok(Reply::Done));
    tree.wait_most(None);
    assert_eq!(tree.lock().check().unwrap(), "lawful");
}

/// A thread whose gate panics at an event makes its call to the end first, so nobody waits for ever; and the thread can
/// make more.
#[test]
fn a_gate_that_panics() {
    let events: [fn(&Did) -> bool; 5] = [
        |did| matches!(did, Did::Began(_)),
        |did| matches!(did, Did::Took(_)),
        |did| matches!(did, Did::Committed),
        |did| matches!(did, Did::LetGo(_)),
        |did| matches!(did, Did::Returned),
    ];
    for at in events {
        let tree = SharedTree::new().unwrap();
        tree.gate(Some(Box::new(move |_, did| assert!(!at(&did), "at an event"))));
        let dies = thread::spawn({
            let mut session = tree.session().unwrap();
            move || session.mkdir("/a")
        });
        assert!(dies.join().is_err());
        let came = thread::spawn({
            let tree = tree.clone();
            move || {
                let came = panic::catch_unwind(panic::AssertUnwindSafe(|| tree.mkdir("/b")));
                tree.gate(None);
                (came.is_err(), tree.mkdir("/c"))
            }
        });
        assert_eq!(came.join().unwrap(), (true, Ok(())));
        assert_eq!(tree.readdir("/").unwrap(), [b"a", b"b", b"c"]);
        assert_eq!(tree.lock().check().unwrap(), "lawful");
    }
}

/// What a gate hears of a call.
#[test]
fn the_events_of_a_call() {
    let tree = SharedTree::new().unwrap();
    let heard = Arc::new(Mutex::new(Vec::new()));
    let hears = Arc::clone(&heard);
    tree.gate(Some(Box::new(move |_, did| hears.lock().unwrap().push(did))));
    tree.mkdir("/a").unwrap();
    tree.gate(None);
    tree.mkdir("/b").unwrap();
    let wanted = [Did::Began(1), Did::Took(0), Did::Committed, Did::LetGo(0), Did::Returned];
    assert_eq!(*heard.lock().unwrap(), wanted);
}

/// How many of so many calls of four threads begin while another is pending, on a tree with the pauses of a seed.
fn overlaps(seed: u64, rounds: usize) -> usize {
    let (tree, all) = (SharedTree::with_limit(1000).unwrap(), Barrier::new(4));
    tree.mkdir("/top").unwrap();
    tree.pauses(Some(seed));
    thread::scope(|scope| {
        for thread in 0..4 {
            let (mut session, all) = (tree.session().unwrap(), &all);
            scope.spawn(move || {
                all.wait();
                work(&mut session, thread, rounds);
            });
        }
    });
    tree.pauses(None);
    let (mut pending, mut overlaps) = (0, 0);
    for line in tree.lock().journal().unwrap().lines() {
        match line.split(' ').next() {
            Some("begin") => {
                overlaps += usize::from(pending > 0);
                pending += 1;
            }
            Some("return") => pending -= 1,
            _ => {}
        }
    }
    assert_eq!(tree.lock().check().unwrap(), "lawful");
    overlaps
}

/// With drawn pauses half of the calls and more overlap. A busy machine may need some trees for that.
#[test]
fn calls_that_pause_overlap() {
    let rounds = ROUNDS / 5;
    let half = 4 * 5 * rounds / 2;
    let few: Vec<_> = (1..=20).map(|seed| overlaps(seed, rounds)).take_while(|&count| count <= half).collect();
    assert!(few.len() < 20, "{few:?} of {}", 2 * half);
}

/// A call that a thread leaves half-way on the tree that it has locked returns once it gives the tree back.
#[test]
fn a_call_that_is_left_half_way() {
    let tree = SharedTree::new().unwrap();
    let mut lent = tree.lock();
    let seat = lent.seat().unwrap();
    let number = lent.begin(seat, &Call::mkdir("/a")).unwrap();
    assert_eq!(lent.step(seat), Ok(Did::Took(0)));
    assert_eq!(lent.reply(seat).unwrap_err(), ErrorKind::NoReply);
    drop(lent);
    assert_eq!(tree.readdir("/").unwrap(), [b"a"]);
    let mut lent = tree.lock();
    assert_eq!((number, lent.reply(seat)), (1, Ok(Reply::Done)));
    let other = lent.seat().unwrap();
    lent.begin(other, &Call::rmdir("/a")).unwrap();
    while lent.step_any().unwrap().is_some() {}
    assert_eq!(lent.finish(other), Ok(Reply::Done));
    assert_eq!(lent.call(&Call::mkdir("/b")), Ok(Reply::Done));
    lent.write_file("/b/f", "hello").unwrap();
    assert_eq!(lent.try_clone().unwrap().read_to_end("/b/f").unwrap(), b"hello");
    assert_eq!(lent.text_of_tree().unwrap(), "tree\ndir /\ndir /b\nfile /b/f 68656c6c6f\n");
    assert_eq!(lent.forget(), Ok(6));
    assert_eq!((lent.calls_before(), lent.check().unwrap().as_str()), (6, "lawful"));
}

/// How a thread dies that has begun a call of its own on the tree.
#[derive(Clone, Copy)]
enum Dies {
    ByPanic,
    InFuture,
    OnSeatOfSession,
}

/// Waits once, and never goes on.
struct Never;

impl Future for Never {
    type Output = ();

    fn poll(self: Pin<&mut Self>, _: &mut Context<'_>) -> Poll<()> {
        Poll::Pending
    }
}

struct Nobody;

impl Wake for Nobody {
    fn wake(self: Arc<Self>) {}
}

/// Begins a call on a tree that it has locked, makes a step of it, and dies.
fn dies_with_tree(tree: &SharedTree, dies: Dies) {
    let mut session = tree.session().unwrap();
    let mut lent = tree.lock();
    let seat = match dies {
        Dies::OnSeatOfSession => session.seat(),
        Dies::ByPanic | Dies::InFuture => lent.seat().unwrap(),
    };
    lent.begin(seat, &Call::mkdir("/a")).unwrap();
    assert_eq!(lent.step(seat), Ok(Did::Took(0)));
    match dies {
        Dies::ByPanic => panic!("between begin and return"),
        Dies::OnSeatOfSession => {
            drop(lent);
            session.mkdir("/a/b").unwrap();
        }
        Dies::InFuture => {
            let mut future = Box::pin(async move {
                Never.await;
                lent.finish(seat).unwrap();
            });
            let waker = Arc::new(Nobody).into();
            assert!(future.as_mut().poll(&mut Context::from_waker(&waker)).is_pending());
        }
    }
}

/// A thread that dies between the begin and the return of a call keeps nobody waiting: the call returns.
#[test]
fn threads_that_die_with_the_tree() {
    for dies in [Dies::ByPanic, Dies::InFuture, Dies::OnSeatOfSession] {
        let tree = SharedTree::new().unwrap();
        let came = thread::spawn({
            let tree = tree.clone();
            move || dies_with_tree(&tree, dies)
        });
        assert_eq!(came.join().is_err(), matches!(dies, Dies::ByPanic));
        assert_eq!(tree.readdir("/").unwrap(), [b"a"]);
        assert_eq!(tree.lock().check().unwrap(), "lawful");
    }
}

/// A call whose wait was given up holds the root. Its thread dies by the error, which drops its session, or it was none
/// of a session. Nobody waits for it: the call returns once the one goes on that it waits for, and its seat is free.
#[test]
fn threads_that_die_after_a_wait() {
    for has_session in [true, false] {
        let (tree, standing) = held();
        tree.wait_most(Some(Duration::from_millis(30)));
        let its = tree.session().unwrap();
        let seat = its.seat();
        let came = thread::spawn({
            let (tree, mut its) = (tree.clone(), its);
            move || match has_session {
                true => its.rename("/a/x", "/c").unwrap(),
                false => tree.rename("/a/x", "/c").unwrap(),
            }
        });
        assert!(came.join().is_err());
        tree.wait_most(None);
        let waits = thread::spawn({
            let tree = tree.clone();
            move || tree.stat("/").unwrap().size
        });
        wait_for(&tree, 2);
        assert_eq!(standing.goes_on(), Ok(Reply::Done));
        assert_eq!(waits.join().unwrap(), 2);
        tree.gate(None);
        assert_eq!(tree.readdir("/").unwrap(), [b"a", b"c"]);
        assert_eq!(tree.lock().check().unwrap(), "lawful");
        // The seat of the call, and no other, is had by the next session.
        let sessions: Vec<_> = (0..4).map(|_| tree.session().unwrap()).collect();
        assert!(sessions.iter().any(|session| session.seat().number() == seat.number()));
        assert!(!sessions.iter().any(|session| session.seat() == seat));
        assert_eq!(tree.lock().step(seat).unwrap_err(), ErrorKind::NoSeat);
    }
}

/// Threads whose waits are given up now and then die by that, with a session or without one, and others take their
/// places. No call is left, and each seat is had again.
#[test]
fn threads_that_die_again_and_again() {
    let tree = SharedTree::with_limit(1000).unwrap();
    tree.mkdir("/top").unwrap();
    tree.wait_most(Some(Duration::from_millis(1)));
    let events = AtomicUsize::new(0);
    tree.gate(Some(Box::new(move |_, did| {
        if matches!(did, Did::LetGo(_)) && events.fetch_add(1, Ordering::SeqCst) % 7 == 0 {
            thread::sleep(Duration::from_millis(4));
        }
    })));
    let rounds = |tree: &SharedTree, thread: usize| {
        let (mine, mut session) = (format!("/top/{thread}"), tree.session().unwrap());
        for _ in 0..5 {
            for came in [session.mkdir(&mine), tree.rename("/top", "/away"), session.rename("/away", "/top")] {
                match came.map_err(|error| error.kind()) {
                    Ok(()) | Err(ErrorKind::Failed(_)) => {}
                    Err(ErrorKind::TimedOut(_)) => panic::resume_unwind(Box::new("the wait is given up")),
                    other => panic!("{other:?}"),
                }
            }
        }
    };
    let deaths = AtomicUsize::new(0);
    thread::scope(|scope| {
        for thread in 0..4 {
            let (tree, deaths) = (&tree, &deaths);
            scope.spawn(move || {
                for _ in 0..10 {
                    let lives = thread::scope(|scope| scope.spawn(|| rounds(tree, thread)).join().is_ok());
                    deaths.fetch_add(usize::from(!lives), Ordering::SeqCst);
                }
            });
        }
    });
    assert!(deaths.load(Ordering::SeqCst) > 0);
    tree.wait_most(None);
    let journal = tree.lock().journal().unwrap();
    assert_eq!(journal.matches("\nbegin ").count(), journal.matches("\nreturn ").count());
    assert_eq!(tree.lock().check().unwrap(), "lawful");
    assert_eq!((tree.holders().as_str(), tree.finish_all()), ("", 0));
    // Each life left one call at most, and seats are had again.
    assert!(tree.lock().seat().unwrap().number() < 60);
}

/// A journal that forgets by itself while threads call: all calls are counted.
#[test]
fn calls_that_are_forgotten() {
    let tree = SharedTree::new().unwrap();
    tree.lock().keep(Journal::Last(100)).unwrap();
    thread::scope(|scope| {
        for _ in 0..3 {
            let mut session = tree.session().unwrap();
            scope.spawn(move || (0..1_000).for_each(|_| assert!(session.stat("/").unwrap().is_dir)));
        }
    });
    let mut lent = tree.lock();
    let left = lent.journal().unwrap().matches("\nbegin ").count() as u64;
    assert_eq!(lent.calls_before() + left, 3_000);
    assert!(lent.calls_before() >= 2_000);
}

/// A rename from another thread helps a mkdir that stands half-way below what it moves.
#[test]
fn a_rename_of_a_shared_tree_helps() {
    let tree = SharedTree::new().unwrap();
    tree.create_dir_all("/a/d").unwrap();
    let standing = Standing::at(&tree, 5, Call::mkdir("/a/d/x"));
    tree.rename("/a", "/b").unwrap();
    assert_eq!(standing.goes_on(), Ok(Reply::Done));
    assert_eq!(tree.readdir("/b/d").unwrap(), [b"x"]);
    let mut tree = tree.lock();
    let journal = tree.journal().unwrap();
    let number = journal.lines().find(|line| line.ends_with(" mkdir /a/d/x")).unwrap().split(' ').nth(1).unwrap();
    let number: u64 = number.parse().unwrap();
    let at = |entry: String| journal.find(&entry).expect("an entry");
    assert!(at(format!("\ncommit {number}\n")) < at(format!("\ncommit {}\n", number + 1)));
    assert!(at(format!("\nreturn {} ", number + 1)) < at(format!("\nreturn {number} ")));
    assert_eq!(tree.check().unwrap(), "lawful");
}

/// Threads on clones of one tree: no wake-up is lost, each call returns, and the journal is lawful.
#[test]
fn clones_interleave_and_the_journal_is_lawful() {
    let tree = SharedTree::with_limit(1000).unwrap();
    tree.mkdir("/top").unwrap();
    let threads: Vec<_> = (0..6)
        .map(|thread| {
            let tree = tree.clone();
            thread::spawn(move || {
                let (mine, moved) = (format!("/top/{thread}"), format!("/away/{thread}"));
                for _ in 0..ROUNDS / 2 {
                    let _ = tree.write_file(&mine, "hello");
                    let _ = tree.rename("/top", "/away");
                    let _ = tree.walk("/");
                    let _ = tree.read_to_end(&moved);
                    let _ = tree.rename("/away", "/top");
                    let _ = tree.unlink(&mine);
                }
            })
        })
        .collect();
    threads.into_iter().for_each(|thread| thread.join().unwrap());
    let journal = tree.lock().journal().unwrap();
    let count = |entry| journal.matches(entry).count();
    assert_eq!(count("\nbegin "), count("\nreturn "));
    assert!(count("\nreturn ") > 6 * ROUNDS / 2 * 6);
    // No more seats than calls can be under way at once, beside the tree's own.
    assert!((1..=6).contains(&tree.lock().seat().unwrap().number().saturating_sub(1)));
    assert_eq!(tree.lock().check().unwrap(), "lawful");
}

/// A file of a shared tree goes to another thread.
#[test]
fn files_of_a_shared_tree() {
    let tree = SharedTree::new().unwrap();
    let mut file = tree.create("/f").unwrap();
    thread::spawn(move || file.write_all(b"hello").unwrap()).join().unwrap();
    let mut told = String::new();
    tree.open("/f").unwrap().read_to_string(&mut told).unwrap();
    assert_eq!((told.as_str(), tree.stat("/f").unwrap().size), ("hello", 5));
    tree.create_dir_all("/a/b").unwrap();
    tree.rename("/f", "/a/b/f").unwrap();
    assert_eq!(tree.walk("/a").unwrap().len(), 3);
    tree.remove_dir_all("/a").unwrap();
    assert_eq!(tree.readdir("/").unwrap(), [b""; 0]);
    assert_eq!(tree.lock().check().unwrap(), "lawful");
}

#[test]
fn each_call_of_a_shared_tree() {
    fn shares<T: Clone + Send + Sync>(_: &T) {}
    let tree = SharedTree::try_from(Tree::new().unwrap()).unwrap();
    shares(&tree);
    thread::scope(|scope| scope.spawn(|| tree.mkdir("/a").unwrap()).join().unwrap());
    tree.mknod("/a/f").unwrap();
    assert_eq!(tree.write("/a/f", 0, "hello"), Ok(5));
    assert_eq!(tree.read("/a/f", 1, 3).unwrap(), b"ell");
    tree.truncate("/a/f", 1).unwrap();
    assert_eq!(tree.stat("/a/f").unwrap().size, 1);
    tree.mkdir("/b").unwrap();
    tree.exchange("/a/f", "/b").unwrap();
    assert_eq!(tree.readdir("/a").unwrap(), [b"f"]);
    tree.rmdir("/a/f").unwrap();
    tree.unlink("/b").unwrap();
    tree.rename("/a", "/c").unwrap();
    assert_eq!(tree.stat("/a").unwrap_err(), ErrorKind::Failed(Errno::ENOENT));
    assert_eq!(tree.lock().check().unwrap(), "lawful");
}

/// A session gives its seat back when it is dropped. What is left of the seat says so, and nothing of the calls of the
/// session that has it then.
#[test]
fn seats_of_sessions() {
    let tree = SharedTree::new().unwrap();
    let (one, other) = (tree.session().unwrap(), tree.session().unwrap());
    let (first, second) = (one.seat(), other.seat());
    assert_ne!(first, second);
    let mut lent = tree.lock();
    lent.begin(first, &Call::stat("/")).unwrap();
    assert!(matches!(lent.finish(first), Ok(Reply::Stat(_))));
    drop((lent, one));
    let mut again = tree.session().unwrap();
    assert_eq!(again.seat().number(), first.number());
    assert_ne!(again.seat(), first);
    let heard = Arc::new(Mutex::new(Vec::new()));
    let hears = Arc::clone(&heard);
    tree.gate(Some(Box::new(move |seat, _| hears.lock().unwrap().push(seat))));
    again.mkdir("/a").unwrap();
    tree.gate(None);
    assert_eq!(*heard.lock().unwrap(), [again.seat(); 5]);
    let mut lent = tree.lock();
    assert_eq!(lent.reply(again.seat()).unwrap_err(), ErrorKind::NoReply);
    for came in [lent.reply(first), lent.finish(first), lent.step(first).map(|_| Reply::Done)] {
        assert_eq!(came.unwrap_err(), ErrorKind::NoSeat);
    }
    assert_eq!(lent.begin(first, &Call::mkdir("/b")).unwrap_err(), ErrorKind::NoSeat);
    lent.begin(again.seat(), &Call::mkdir("/b")).unwrap();
    assert!(matches!(lent.step_any(), Ok(Some((seat, Did::Took(0)))) if seat == again.seat()));
    drop((lent, again, other));
    let journal = tree.lock().journal().unwrap();
    assert!(journal.contains(&format!("\nbegin 2 {} mkdir /a\n", first.number())), "{journal}");
}

/// A tree with a call under way goes over as a whole, and the call returns.
#[test]
fn a_tree_that_becomes_shared() {
    let mut tree = Tree::new().unwrap();
    tree.mkdir("/a").unwrap();
    let seat = tree.seat().unwrap();
    tree.begin(seat, &Call::mkdir("/a/b")).unwrap();
    let tree = SharedTree::try_from(tree).unwrap();
    assert!(tree.stat("/a/b").unwrap().is_dir);
    let mut lent = tree.lock();
    assert_eq!(lent.reply(seat), Ok(Reply::Done));
    assert_eq!(lent.journal().unwrap().matches("\nbegin ").count(), 3);
    let foreign = Tree::new().unwrap().seat().unwrap();
    assert_eq!(lent.step(foreign).unwrap_err(), ErrorKind::ForeignSeat);
}

#[test]
fn each_call_of_a_session() {
    let tree = SharedTree::new().unwrap();
    let mut session = tree.session().unwrap();
    session.mkdir("/a").unwrap();
    session.mknod("/a/f").unwrap();
    assert_eq!(session.write("/a/f", 0, "hello"), Ok(5));
    assert_eq!(session.read("/a/f", 1, 3).unwrap(), b"ell");
    session.truncate("/a/f", 1).unwrap();
    assert_eq!(session.stat("/a/f").unwrap().size, 1);
    session.mkdir("/b").unwrap();
    session.exchange("/a/f", "/b").unwrap();
    assert_eq!(session.readdir("/a").unwrap(), [b"f"]);
    session.rmdir("/a/f").unwrap();
    session.unlink("/b").unwrap();
    session.rename("/a", "/c").unwrap();
    assert_eq!(session.stat("/a").unwrap_err(), ErrorKind::Failed(Errno::ENOENT));
    assert_eq!(session.read_dir("/c").unwrap(), [b""; 0]);
    session.create_dir_all("/c/d").unwrap();
    session.write_file("/c/d/f", "more").unwrap();
    assert_eq!(session.read_to_end("/c/d/f").unwrap(), b"more");
    assert_eq!(session.walk("/c").unwrap().len(), 3);
    session.remove_dir_all("/c").unwrap();
    assert_eq!(tree.lock().check().unwrap(), "lawful");
}

#[test]
fn a_tree_goes_to_another_thread() {
    let mut tree = Tree::new().unwrap();
    tree.mkdir("/a").unwrap();
    let mut tree = thread::spawn(move || {
        tree.mkdir("/b").unwrap();
        tree
    })
    .join()
    .unwrap();
    assert_eq!(tree.readdir("/").unwrap(), [b"a", b"b"]);
}
