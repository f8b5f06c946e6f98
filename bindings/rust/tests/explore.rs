//! Functions under drawn schedules: what is seen, what fails, and what is no plan. `races.rs` has eight real bugs.

use std::cell::Cell;
use std::collections::BTreeSet;
use std::env;
use std::process::Command;
use std::sync::atomic::{AtomicBool, AtomicUsize, Ordering};
use std::thread;
use std::time::Duration;

use atomfs::{explore, explore_on, outcomes, replay, Call, Draws, Error, ErrorKind, Plan, ScheduleFault, ThreadTree};

/// A bug is found in fewer runs.
const FOUND: u64 = 300;

/// Two threads read a number, add one, and write it.
fn lost_update(plan: &mut Plan<'_, Result<u64, Error>>) {
    plan.before(|tree| tree.write_file("/n", "0").unwrap());
    for name in ["a", "b"] {
        plan.thread(name, |tree| {
            let n: u64 = String::from_utf8(tree.read("/n", 0, 10)?).unwrap().parse().unwrap();
            tree.write("/n", 0, (n + 1).to_string())
        });
    }
    plan.check(|tree, _| match number(tree) {
        2 => Ok(()),
        other => Err(format!("the counter is {other}")),
    });
}

fn number(tree: &mut atomfs::Tree) -> u64 {
    String::from_utf8(tree.read_to_end("/n").unwrap()).unwrap().parse().unwrap()
}

/// A panic in a thread is a fault with its line; one in the check, too.
#[test]
fn panics() {
    let error = explore(1..100, |plan| {
        plan.thread("a", |tree| tree.mkdir("/a").unwrap());
        plan.thread("b", |tree| assert!(tree.stat("/a").is_err(), "it is there"));
        plan.check(|_, _| ());
    })
    .unwrap_err();
    match &error.fault {
        ScheduleFault::Panicked(name, why) => {
            assert_eq!(name, "b");
            assert!(why.starts_with("it is there (") && why.contains("tests/explore.rs:"), "{why}");
        }
        other => panic!("{other:?}"),
    }
    assert!(error.to_string().starts_with(&format!("seed {}: thread b: it is there", error.seed.unwrap())));
    let error = explore(1..2, |plan| {
        plan.thread("a", |tree| tree.mkdir("/a").unwrap());
        plan.check(|tree, _| assert_eq!(tree.readdir("/").unwrap().len(), 2));
    })
    .unwrap_err();
    assert!(matches!(&error.fault, ScheduleFault::Check(why) if why.contains("left: 1")), "{error}");
}

/// A plan that panics once, in the midst of a range, loses nothing; one that goes on to panic is an error in words.
#[test]
fn workers_that_panic() {
    let plans = AtomicUsize::new(0);
    let made = |panics: bool, plan: &mut Plan<'_, Result<u64, Error>>| {
        assert!(!panics, "no plan today");
        lost_update(plan);
    };
    let wanted = explore(1..FOUND, |plan| made(false, plan)).unwrap_err();
    // The first two are for the run by which schedules are drawn, so this is one of a worker.
    let once = explore_on(3, 1..FOUND, |plan| made(plans.fetch_add(1, Ordering::SeqCst) == 2, plan)).unwrap_err();
    assert_eq!(once, wanted);
    assert!(plans.load(Ordering::SeqCst) > 3);
    plans.store(0, Ordering::SeqCst);
    let seen = explore_on(2, 1..50, |plan: &mut Plan<'_, ()>| {
        assert!(![9, 30].contains(&plans.fetch_add(1, Ordering::SeqCst)), "no plan today");
        plan.thread("a", |tree| tree.mkdir("/a").unwrap()).check(|_, _| ());
    });
    assert_eq!(seen.map(|seen| (seen.runs, seen.outcomes, seen.last_new)), Ok((49, 1, 1)));
    // While a schedule is cut down, a panic of the plan costs a trial, and the run that failed is not lost.
    plans.store(0, Ordering::SeqCst);
    let found = explore_on(1, 1..FOUND, |plan: &mut Plan<'_, ()>| {
        assert!(plans.fetch_add(1, Ordering::SeqCst) < 3, "no plan today");
        plan.thread("a", |tree| tree.mkdir("/a").unwrap()).check(|_, _| false);
    });
    assert_eq!(found.unwrap_err().fault.to_string(), "the check says no");
    plans.store(0, Ordering::SeqCst);
    let never = explore_on(1, 1..9, |plan: &mut Plan<'_, ()>| {
        assert!(plans.fetch_add(1, Ordering::SeqCst) < 4, "no plan today");
        plan.thread("a", |tree| tree.mkdir("/a").unwrap()).check(|_, _| ());
    });
    let words = never.unwrap_err().fault.to_string();
    let begin = "a worker panicked 3 times in the runs of the seeds 3 to 4: no plan today (";
    assert!(words.starts_with(begin) && words.contains("tests/explore.rs:"), "{words}");
}

/// More workers than seeds, and as many as there are cores.
#[test]
fn workers_of_few_seeds() {
    let plan = |plan: &mut Plan<'_, ()>| {
        plan.thread("a", |tree| tree.mkdir("/a").unwrap()).check(|_, _| ());
    };
    for workers in [0, 1, 9] {
        let seen = explore_on(workers, 5..7, plan).unwrap();
        assert_eq!((seen.runs, seen.outcomes, seen.last_new), (2, 1, 5));
    }
    assert_eq!(explore_on(2, 7..7, plan).unwrap_err().to_string(), "there are no seeds to draw from\n");
    let none = explore_on(2, 1..9, |_: &mut Plan<'_, ()>| ()).unwrap_err();
    assert_eq!(none.to_string(), "the plan has no threads\n");
}

/// A lock that is let go where its value is dropped, as by a panic too.
struct Locked<'t>(&'t mut ThreadTree);

impl<'t> Locked<'t> {
    fn of(tree: &'t mut ThreadTree) -> Locked<'t> {
        while tree.mkdir("/lock").is_err() {
            tree.turn();
        }
        Locked(tree)
    }
}

impl Drop for Locked<'_> {
    fn drop(&mut self) {
        // Where the run is over this is refused.
        let _ = self.0.rmdir("/lock");
    }
}

/// A thread panics with the lock, and lets it go. The run is over then for the others, wherever they are. Each run ends
/// with the words of the panic.
#[test]
fn threads_that_die() {
    let plan = |plan: &mut Plan<'_, ()>| {
        for name in ["a", "b", "c"] {
            plan.thread(name, move |tree| {
                let locked = Locked::of(tree);
                locked.0.write_file("/n", name).unwrap();
                assert_ne!(name, "b", "it has the lock");
                assert_eq!(locked.0.read_to_end("/n").unwrap(), name.as_bytes());
            });
        }
        plan.check(|tree, _| tree.readdir("/").unwrap() == [b"n"]);
    };
    let orders = (0..60).map(|at| format!("a*{} c*{} b*{}", at % 20 + 1, at % 7 + 1, at / 4 + 1));
    let errors = orders.map(|order| replay(&order, plan).unwrap_err());
    for error in errors.chain([explore(3..4, plan).unwrap_err()]) {
        match &error.fault {
            ScheduleFault::Panicked(name, why) => {
                assert_eq!(name, "b", "{error}");
                assert!(why.contains("it has the lock"), "{error}");
            }
            other => panic!("{other:?}"),
        }
        assert_eq!(atomfs::check(&error.journal).unwrap(), "lawful");
    }
}

/// A function that goes on after the run is over, as one does that catches every panic, ends at its next call again.
#[test]
fn a_function_that_catches_panics() {
    let fault = fault_of(|plan| {
        plan.thread("a", |tree| {
            for _ in 0..40 {
                let _ = std::panic::catch_unwind(std::panic::AssertUnwindSafe(|| tree.stat("/")));
            }
        });
        plan.thread("b", |tree| {
            tree.mkdir("/b").unwrap();
            panic!("dies");
        });
        plan.check(|_, _| ());
    });
    assert!(fault.starts_with("thread b: dies ("), "{fault}");
}

/// What prepares the tree may die, and lets its lock go; so may the check, between the begin and the return of a call.
#[test]
fn before_and_check_that_die() {
    let fault = fault_of(|plan: &mut Plan<'_, ()>| {
        plan.before(|tree| {
            let locked = Locked::of(tree);
            assert!(locked.0.stat("/n").is_ok(), "nothing is there");
        });
        plan.thread("a", |tree| tree.mkdir("/a").unwrap()).check(|_, _| ());
    });
    assert!(fault.starts_with("thread before: nothing is there ("), "{fault}");
    let fault = fault_of(|plan: &mut Plan<'_, ()>| {
        plan.thread("a", |tree| tree.mkdir("/a").unwrap()).check(|tree, _| {
            let seat = tree.seat().unwrap();
            tree.begin(seat, &Call::mkdir("/b")).unwrap();
            assert!(tree.step(seat).is_err(), "between begin and return");
        });
    });
    assert!(fault.starts_with("between begin and return ("), "{fault}");
}

fn fault_of<R: Send + 'static>(plan: impl FnMut(&mut Plan<'_, R>)) -> String {
    explore(1..3, plan).unwrap_err().fault.to_string()
}

#[test]
fn what_is_no_plan() {
    assert_eq!(fault_of(|_: &mut Plan<'_, ()>| ()), "the plan has no threads");
    let none = |plan: &mut Plan<'_, ()>| {
        plan.thread("a", |_| ());
    };
    assert_eq!(fault_of(none), "the plan has no check");
    let twice = "two threads have the name \"a\", or it is that of what is done before";
    let names = |plan: &mut Plan<'_, ()>| {
        plan.thread("a", |_| ()).thread("a", |_| ()).check(|_, _| ());
    };
    assert_eq!(fault_of(names), twice);
    let depth = |plan: &mut Plan<'_, ()>| {
        plan.thread("a", |_| ()).draws(Draws::Pct { depth: 0 }).check(|_, _| ());
    };
    assert_eq!(fault_of(depth), "PCT has a depth of 1 or more");
    let limits = |plan: &mut Plan<'_, ()>| {
        plan.thread("a", |_| ()).limits(0, atomfs::Limits::V3).check(|_, _| ());
    };
    assert_eq!(fault_of(limits), ErrorKind::BadLimit.to_string());
    let empty = explore(3..3, none).unwrap_err();
    assert_eq!(empty.to_string(), "there are no seeds to draw from\n");
    let plan = |plan: &mut Plan<'_, ()>| {
        plan.thread("a", |tree| tree.mkdir("/a").unwrap()).check(|_, _| ());
    };
    replay("a*2 a", plan).unwrap();
    let word = replay("a*2 b", plan).unwrap_err().fault.to_string();
    assert_eq!(word, "the schedule's word \"b\" is of no thread of the plan");
    let word = replay("a*0", plan).unwrap_err().fault.to_string();
    assert_eq!(word, "the schedule's word \"a*0\" has no number of 1 to 1,000,000");
}

/// Functions that never end, that go round the tree for too long, and a check that changes the tree.
#[test]
fn bad_functions() {
    let ends = fault_of(|plan| {
        plan.events(100).thread("a", |tree| loop {
            tree.stat("/").unwrap();
        });
        plan.thread("b", |tree| tree.mkdir("/a").unwrap()).check(|_, _| ());
    });
    assert_eq!(ends, "no end in 100 events");
    let stuck = fault_of(|plan| {
        plan.patience(Duration::from_millis(100));
        plan.thread("a", |tree| {
            tree.mkdir("/a").unwrap();
            std::thread::sleep(Duration::from_secs(20));
        });
        plan.thread("b", |tree| tree.mkdir("/b").unwrap()).check(|_, _| ());
    });
    assert_eq!(stuck, "thread a makes no call and does not end");
    let changed = fault_of(|plan| {
        plan.thread("a", |tree| tree.mkdir("/a").unwrap()).check(|tree, _| tree.rmdir("/a").unwrap());
    });
    assert_eq!(changed, "the check changed the tree");
}

/// Each call of a thread's way, and files; the same run by each seed that there is, whatever the machine does.
#[test]
fn each_call() {
    let plan = |plan: &mut Plan<'_, Vec<u8>>| {
        use std::io::{Read, Write};
        plan.thread("a", |tree| {
            tree.create_dir_all("/a/b").unwrap();
            tree.mknod("/a/f").unwrap();
            tree.write("/a/f", 0, "hello").unwrap();
            tree.truncate("/a/f", 4).unwrap();
            tree.exchange("/a/f", "/a/b").unwrap();
            tree.rename("/a", "/c").unwrap();
            assert_eq!(tree.read_dir("/c").unwrap(), [b"b", b"f"]);
            assert_eq!(tree.walk("/c").unwrap().len(), 3);
            write!(tree.create("/c/g").unwrap(), "more").unwrap();
            let mut told = String::new();
            tree.open("/c/g").unwrap().read_to_string(&mut told).unwrap();
            assert_eq!(told, "more");
            tree.unlink("/c/g").unwrap();
            tree.rmdir("/c/f").unwrap();
            let came = tree.read_to_end("/c/b").unwrap();
            tree.remove_dir_all("/c").unwrap();
            came
        });
        plan.thread("z", |tree| {
            let error = tree.mkdir("/z/").unwrap_err();
            assert_eq!(error, ErrorKind::BadPath(atomfs::PathFault::TrailingSlash));
            Vec::new()
        });
        plan.check(|tree, replies| {
            assert_eq!(replies["a"], b"hell");
            tree.readdir("/").unwrap().is_empty()
        });
    };
    let seen = explore(1..50, plan).unwrap();
    assert_eq!((seen.runs, seen.outcomes, seen.last_new), (49, 1, 1));
}

/// How much was seen: outcomes, how many of the last runs brought a new one, and which calls met, by whatever workers.
#[test]
fn what_was_seen() {
    let plan = |plan: &mut Plan<'_, bool>| {
        for name in ["a", "b"] {
            plan.thread(name, |tree| {
                // These lines make three calls of two kinds.
                let _ = tree.stat("/").is_ok() && tree.stat("/d").is_ok();
                tree.mkdir("/d").is_ok()
            });
        }
        plan.check(|_, replies| replies["a"] != replies["b"]);
    };
    let seen = explore(1..2_001, plan).unwrap();
    assert_eq!((seen.runs, seen.lately, seen.pairs), (2_000, 1_000, 4));
    assert!((1..=4).contains(&seen.met), "{seen}");
    assert!(seen.outcomes >= 2 && seen.last_new <= 2_000 && seen.new < seen.outcomes as u64, "{seen}");
    let (outcomes, new, met) = (seen.outcomes, seen.new, seen.met);
    let words =
        format!("2,000 runs, {outcomes} outcomes, {new} new in the last 1,000 runs; {met} of 4 pairs of calls met");
    assert_eq!(seen.to_string(), words);
    assert_eq!(explore_on(3, 1..2_001, plan).unwrap(), seen);
    let one = explore(7..8, plan).unwrap();
    assert_eq!((one.runs, one.outcomes, one.last_new, one.new, one.lately), (1, 1, 7, 1, 1));
    // One thread alone meets nobody.
    let alone = |plan: &mut Plan<'_, ()>| {
        plan.before(|tree| tree.mkdir("/b").unwrap());
        plan.thread("a", |tree| tree.mkdir("/a").unwrap()).check(|_, _| ());
    };
    let words = "3 runs, 1 outcome, 1 new in the last 3 runs; 0 of 0 pairs of calls met";
    assert_eq!(explore(1..4, alone).unwrap().to_string(), words);
}

/// Each value with how often it came, the most frequent first, and a seed by which it comes.
#[test]
fn counted_outcomes() {
    let plan = |plan: &mut Plan<'_, Result<u64, Error>>| lost_update_unchecked(plan);
    let mut found = outcomes(1..401, plan, |tree, _| number(tree)).unwrap();
    let values: BTreeSet<u64> = found.rows().iter().map(|row| row.value).collect();
    assert_eq!(values, BTreeSet::from([1, 2]));
    assert_eq!((found.seen().runs, found.seen().outcomes, found.seen().pairs), (400, 2, 4));
    assert_eq!(found.rows().iter().map(|row| row.runs).sum::<u64>(), 400);
    assert!(found.rows()[0].runs >= found.rows()[1].runs);
    for row in found.rows() {
        assert_eq!(found.count(|value| *value == row.value), row.runs);
        let again = outcomes(row.seed..row.seed + 1, plan, |tree, _| number(tree)).unwrap();
        assert_eq!(again.rows()[0].value, row.value);
    }
    let first = found.rows()[0];
    let table = found.to_string();
    assert!(table.starts_with(&format!("{} times, first by seed {}: {}\n", first.runs, first.seed, first.value)));
    assert_eq!(table.lines().last().unwrap(), found.seen().to_string());
    assert_eq!(format!("{found:?}"), format!("\n{table}"));
    // What is broken by no run, and what is: by the run of the first seed, cut down.
    found.never(|n| *n == 0).unwrap().sometimes(|n| *n == 1).unwrap().always(|n| [1, 2].contains(n)).unwrap();
    let (lost, seed) = (found.count(|n| *n == 1), found.rows().iter().find(|row| row.value == 1).unwrap().seed);
    let never = found.never(|n| *n == 1).unwrap_err();
    let always = found.always(|n| *n == 2).unwrap_err();
    for (error, word) in [(never, "never"), (always, "not always")] {
        assert_eq!(error.fault, ScheduleFault::Check(format!("{word} 1: {lost} of 400 runs break it")));
        assert_eq!((error.seed, error.schedule.split(' ').count()), (Some(seed), 3), "{error}");
        assert!(error.trials > 0 && error.script.is_some());
    }
    let none = found.sometimes(|n| *n == 3).unwrap_err();
    assert_eq!(none.to_string(), format!("it came in none of these:\n{table}\n"));
    assert!(none.trace.is_empty());
}

fn lost_update_unchecked(plan: &mut Plan<'_, Result<u64, Error>>) {
    plan.before(|tree| tree.write_file("/n", "0").unwrap());
    for name in ["a", "b"] {
        plan.thread(name, |tree| {
            let n: u64 = String::from_utf8(tree.read("/n", 0, 10)?).unwrap().parse().unwrap();
            tree.write("/n", 0, (n + 1).to_string())
        });
    }
}

/// Of functions that panic, of a check that fails, of what is observed badly, and of what differs from run to run.
#[test]
fn outcomes_of_bad_runs() {
    let made = |plan: &mut Plan<'_, ()>| {
        plan.thread("a", |tree| tree.mkdir("/a").unwrap());
    };
    let never = outcomes(
        1..5,
        |plan| {
            made(plan);
            plan.check(|_, _| false);
        },
        |_, _| 0,
    );
    assert_eq!(never.unwrap_err().fault.to_string(), "the check says no");
    let panics = outcomes(
        1..5,
        |plan: &mut Plan<'_, ()>| {
            plan.thread("a", |_| panic!("no"));
        },
        |_, _| 0,
    );
    assert!(matches!(&panics.unwrap_err().fault, ScheduleFault::Panicked(name, _) if name == "a"));
    let observed = outcomes(1..5, made, |tree, _| tree.stat("/none").unwrap().size);
    assert!(matches!(&observed.unwrap_err().fault, ScheduleFault::Check(why) if why.contains("ENOENT")));
    let changed = outcomes(1..5, made, |tree, _| tree.rmdir("/a").is_ok());
    assert_eq!(changed.unwrap_err().fault, ScheduleFault::ChangedByCheck);
    assert_eq!(outcomes(5..5, made, |_, _| 0).unwrap_err().to_string(), "there are no seeds to draw from\n");
    assert_eq!(
        outcomes(1..5, |_: &mut Plan<'_, ()>| (), |_, _| 0).unwrap_err().to_string(),
        "the plan has no threads\n"
    );
    let count = Cell::new(0);
    let mut found = outcomes(1..5, made, |_, _| count.replace(count.get() + 1)).unwrap();
    let differs = found.never(|n| *n == 2).unwrap_err();
    assert!(differs.fault.to_string().starts_with("seed 3 comes to another outcome now: "), "{differs}");
    let bounded = outcomes(
        1..9,
        |plan| {
            made(plan);
            plan.events(2);
        },
        |_, _| 0,
    );
    assert_eq!(bounded.unwrap_err().fault, ScheduleFault::NeverEnds(2));
}

/// Two threads take two locks in another order, and neither goes on: the events after which that is so, and the last
/// ones of all.
#[test]
fn two_locks_in_another_order() {
    fn takes(tree: &mut ThreadTree, path: &str) {
        while tree.mkdir(path).is_err() {
            tree.turn();
        }
    }
    let plan = |plan: &mut Plan<'_, ()>| {
        for (name, one, other) in [("a", "/one", "/two"), ("b", "/two", "/one")] {
            plan.thread(name, move |tree| {
                takes(tree, one);
                takes(tree, other);
                tree.rmdir(one).unwrap();
                tree.rmdir(other).unwrap();
            });
        }
        plan.events(20_000).check(|_, _| ());
    };
    let error = explore(1..FOUND, plan).unwrap_err();
    assert_eq!(error.fault, ScheduleFault::NeverEnds(20_000));
    // One has its first lock, and the other goes on until it has its own.
    assert!(error.schedule.split(' ').count() <= 2, "{}", error.schedule);
    assert!(error.trials < 300, "{}", error.trials);
    // The turns that they hand on are events too, though no call has them.
    assert!((10_000..20_000).contains(&error.trace.len()), "{}", error.trace.len());
    let told = error.to_string();
    let hidden = format!("{}", error.parts.len() - 40);
    assert!(told.contains(&format!("    .. {},{} before these\n", &hidden[..1], &hidden[1..])), "{told}");
    assert!(told.contains("mkdir /one: failed EEXIST") && told.contains("mkdir /two: failed EEXIST"), "{told}");
    assert_eq!((told.lines().count(), told.contains("script:")), (44, false), "{told}");
    assert_eq!(replay(&error.schedule, plan).unwrap_err().journal, error.journal);
    assert_eq!(explore(1..FOUND, plan).unwrap_err(), error);
}

/// A run of many events is cut down in bounded memory and time.
#[test]
fn long_runs() {
    let plan = |plan: &mut Plan<'_, ()>| {
        for name in ["a", "b"] {
            plan.thread(name, move |tree| (0..500).for_each(|_| drop(tree.mkdir(format!("/{name}")))));
        }
        plan.check(|tree, _| tree.readdir("/").unwrap().is_empty());
    };
    let error = explore(1..2, plan).unwrap_err();
    assert!(error.trials > 1 && error.trials < 1_000, "{}", error.trials);
    assert!(replay(&error.schedule, plan).is_err());
}

/// What a process of its own prints: errors, what was seen, and what was observed.
const ALONE: &str = "ATOMFS_TEST_ALONE";

#[test]
fn what_a_process_tells() {
    if env::var_os(ALONE).is_none() {
        return;
    }
    let error = explore(1..FOUND, lost_update).unwrap_err();
    println!("{error}{}", error.journal);
    println!("{}", explore_on(2, 1..FOUND, lost_update).unwrap_err());
    for draws in [Draws::Uniform, Draws::Pct { depth: 3 }] {
        let plan = |plan: &mut Plan<'_, Result<u64, Error>>| {
            lost_update_unchecked(plan);
            plan.draws(draws).check(|tree, replies| println!("{}{replies:?}", tree.journal().unwrap()));
        };
        println!("{}", explore(1..60, plan).unwrap());
    }
    println!("{}", outcomes(1..60, lost_update_unchecked, |tree, _| tree.text_of_tree().unwrap()).unwrap());
}

/// A seed is one run: byte for byte the same in each process, alone and under load. Each process has other hashes.
#[test]
fn the_same_in_each_process() {
    let told = || {
        let words = ["--exact", "what_a_process_tells", "--nocapture", "--test-threads=1"];
        let done = Command::new(env::current_exe().unwrap()).args(words).env(ALONE, "1").output().unwrap();
        assert!(done.status.success(), "{}", String::from_utf8_lossy(&done.stderr));
        let text = String::from_utf8(done.stdout).unwrap();
        text.lines()
            .filter(|line| !line.starts_with("test result: "))
            .map(|line| format!("{line}\n"))
            .collect::<String>()
    };
    let first = told();
    assert!(first.len() > 20_000, "{first}");
    static DONE: AtomicBool = AtomicBool::new(false);
    let cores = thread::available_parallelism().map_or(1, usize::from);
    let spins = || {
        while !DONE.load(Ordering::Relaxed) {
            std::hint::spin_loop();
        }
    };
    let busy: Vec<_> = (0..cores).map(|_| thread::spawn(spins)).collect();
    let other = told();
    DONE.store(true, Ordering::Relaxed);
    busy.into_iter().for_each(|one| one.join().unwrap());
    assert!(first == other, "{first}\n{other}");
    assert!(first == told());
}

/// A lost update needs two events in a certain order. Priorities with few changes find it at least as often as they
/// promise: 1 in `n k^(d-1)` runs, here of 2 threads, 28 events and depth 2.
#[test]
fn as_often_as_promised() {
    for depth in [2, 3] {
        let plan = move |plan: &mut Plan<'_, Result<u64, Error>>| {
            lost_update_unchecked(plan);
            plan.draws(Draws::Pct { depth });
        };
        let found = outcomes(0..1_000, plan, |tree, _| number(tree)).unwrap();
        let bound = 1_000 / (2 * 28_u64.pow(depth - 1));
        assert!(found.count(|n| *n == 1) > bound, "{found}");
    }
    // One priority for each thread, and none changes: one thread after the other.
    let plan = |plan: &mut Plan<'_, Result<u64, Error>>| {
        lost_update_unchecked(plan);
        plan.draws(Draws::Pct { depth: 1 });
    };
    outcomes(0..300, plan, |tree, _| number(tree)).unwrap().always(|n| *n == 2).unwrap();
}
