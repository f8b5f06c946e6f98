//! The eight races of `examples/races`: each is found, made again and cut down, and its repair passes.
//!
//! `ATOMFS_RACES` says how many runs of each repair are made.

use std::env;

use atomfs::{explore, explore_on, replay, Draws, Plan, ScheduleError, ScheduleFault};

#[path = "../examples/races/exists_then_create.rs"]
mod exists_then_create;
#[path = "../examples/races/listing_in_pages.rs"]
mod listing_in_pages;
#[path = "../examples/races/log_rotation.rs"]
mod log_rotation;
#[path = "../examples/races/lost_update.rs"]
mod lost_update;
#[path = "../examples/races/mkdir_p.rs"]
mod mkdir_p;
#[path = "../examples/races/publish_by_rename.rs"]
mod publish_by_rename;
#[path = "../examples/races/queue_by_rename.rs"]
mod queue_by_rename;
#[path = "../examples/races/stale_lock.rs"]
mod stale_lock;

const DRAWS: [Draws; 3] = [Draws::Both, Draws::Uniform, Draws::Pct { depth: 3 }];
/// A bug is found in fewer runs, its repair passes so many by one worker, and so many by those of all cores.
const FOUND: u64 = 300;
const PASSED: u64 = 500;
const PASSED_BY_ALL: u64 = 10_000;

/// Finds a bug by each way of drawing, by one worker and by four, by the same run again and by its schedule; it has a
/// script and a picture. Cut down, one thread goes on in the midst of another.
fn is_found<'p, R: Send + 'static>(name: &str, made: impl Fn(&mut Plan<'p, R>) + Copy + Sync) -> ScheduleError {
    let mut last = None;
    for draws in DRAWS {
        let plan = |plan: &mut Plan<'p, R>| {
            made(plan);
            plan.draws(draws);
        };
        let error = explore(1..FOUND, plan).unwrap_err();
        assert!(matches!(error.fault, ScheduleFault::Check(_)), "{error}");
        let seed = error.seed.unwrap();
        // Workers take the draws as they are, so one way is enough.
        for workers in [1, 4].into_iter().filter(|_| draws == Draws::Both) {
            assert_eq!(explore_on(workers, 1..FOUND, plan).unwrap_err(), error);
        }
        assert_eq!(explore(seed..seed + 1, plan).unwrap_err(), error);
        let again = replay(&error.schedule, plan).unwrap_err();
        assert_eq!((&again.fault, &again.journal, &again.trace), (&error.fault, &error.journal, &error.trace));
        let script = error.script.as_ref().expect("a script");
        assert!(atomfs::run(script).unwrap().starts_with(&error.journal), "{script}");
        assert_eq!(atomfs::check(&error.journal).unwrap(), "lawful");
        assert!(error.picture().unwrap().starts_with("<svg "));
        assert_eq!(error.schedule.split(' ').count(), 3, "{error}");
        let source = format!("examples/races/{name}.rs:");
        assert!(error.trace.iter().all(|line| line.contains(&source)), "{error}");
        // No switch is left in the midst of a call.
        assert!(error.parts.iter().all(|part| part.begins && part.reply.is_some()), "{error}");
        assert!(error.parts.iter().all(|part| part.line.contains(&source) && !part.source.is_empty()), "{error}");
        let told = error.to_string();
        assert!(error.parts.iter().all(|part| told.contains(&part.to_string())), "{told}");
        last = Some(error);
    }
    last.unwrap()
}

/// A repair passes, and by all workers more is seen than by one at most.
fn passes<'p, R: Send + 'static>(plan: impl Fn(&mut Plan<'p, R>) + Sync) {
    let seen = explore(1..PASSED + 1, &plan).unwrap();
    assert_eq!((seen.runs, seen.lately), (PASSED, PASSED));
    assert!(seen.outcomes > 0 && seen.last_new <= PASSED && seen.new == seen.outcomes as u64);
    assert!(seen.met <= seen.pairs);
    assert_eq!(explore_on(4, 1..PASSED + 1, &plan).unwrap(), seen);
    let runs = env::var("ATOMFS_RACES").map_or(PASSED_BY_ALL, |runs| runs.parse().unwrap());
    let all = explore_on(0, 1..runs + 1, plan).unwrap();
    assert_eq!((all.runs, all.lately), (runs, runs.min(1_000)));
    assert!(runs < PASSED || (all.outcomes >= seen.outcomes && all.met >= seen.met && all.pairs >= seen.pairs));
}

macro_rules! races {
    ($($name:ident)*) => {
        $(
            #[test]
            fn $name() {
                is_found(stringify!($name), $name::race);
                passes($name::repair);
            }
        )*
    };
}

races!(
    exists_then_create
    listing_in_pages
    log_rotation
    mkdir_p
    publish_by_rename
    queue_by_rename
    stale_lock
);

#[test]
fn lost_update() {
    let error = is_found("lost_update", lost_update::race);
    assert_eq!(error.fault, ScheduleFault::Check("the counter is 1".to_owned()));
    assert!(error.trace.iter().any(|line| line.ends_with("read /counter 0 10: begins")), "{error}");
    passes(lost_update::repair);
}
