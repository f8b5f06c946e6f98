//! Runs on more than one core: ranges of seeds, each by one worker.

use std::ops::Range;
use std::sync::{Mutex, MutexGuard, PoisonError};
use std::thread;

use crate::bar::Bar;
use crate::explore::{end_of, quiet, Drawn, End, Plan, Player, Ran, ScheduleError};
use crate::seen::{Explored, Look};

/// How many runs a worker makes at most before it asks for more.
const RANGE: u64 = 64;
/// How many ranges there are for each worker if the seeds are few.
const RANGES: u64 = 4;
/// How often a range is begun.
const TIMES: u32 = 3;

/// [`explore`](crate::explore()) by so many workers, each a thread that makes the runs of a range of seeds at a time; 0
/// are as many as the machine has cores. What comes of it is the same as by one: the first seed that fails, its
/// schedule, and what was seen.
///
/// The workers share the closure that makes plans. If it panics in a worker, the worker's range is done again, and a
/// third panic becomes an error that has its words.
///
/// ```
/// let seen = atomfs::explore_on(4, 1..500, |plan| {
///     for name in ["/a", "/b"] {
///         plan.thread(name, move |tree| tree.mkdir(name).unwrap());
///     }
///     plan.check(|tree, _| tree.readdir("/").unwrap().len() == 2);
/// })?;
/// assert_eq!((seen.runs, seen.outcomes), (499, 1));
/// # Ok::<(), atomfs::ScheduleError>(())
/// ```
pub fn explore_on<'p, R: Send + 'static>(
    workers: usize,
    seeds: Range<u64>,
    plan: impl Fn(&mut Plan<'p, R>) + Sync,
) -> Result<Explored, ScheduleError> {
    let mut made = |one: &mut Plan<'p, R>| plan(one);
    // Its processor is given back before the workers start.
    let drawn = Player::of(&mut made).drawn(&seeds)?;
    let runs = seeds.end - seeds.start;
    let workers = match workers {
        0 => thread::available_parallelism().map_or(1, usize::from),
        workers => workers.min(usize::try_from(runs).unwrap_or(usize::MAX)),
    };
    let most = (runs / RANGES / workers as u64).clamp(1, RANGE);
    let shared = Mutex::new(Shared { left: seeds.clone(), look: Look::new(), failed: None });
    let work = Work { plan: &plan, drawn: &drawn, shared: &shared, bar: Bar::of(runs), most };
    thread::scope(|scope| {
        for _ in 1..workers {
            // This thread is a worker too. If the system has no more threads, there are fewer.
            if thread::Builder::new().spawn_scoped(scope, || work.work::<R>()).is_err() {
                break;
            }
        }
        work.work::<R>();
    });
    drop(work);
    let Shared { look, failed, .. } = shared.into_inner().unwrap_or_else(PoisonError::into_inner);
    match failed {
        Some((seed, Failed::Ran(ran))) => Err(Player::of(&mut made).cut_down(*ran, seed)),
        Some((_, Failed::None(error))) => Err(error),
        None => Ok(look.seen(&seeds)),
    }
}

/// Why there are no more runs: a run that failed, or none.
enum Failed {
    Ran(Box<Ran>),
    None(ScheduleError),
}

/// What workers have of each other.
struct Shared {
    /// The seeds that nobody has.
    left: Range<u64>,
    /// What was seen.
    look: Look<End>,
    /// The first seed whose run failed, and how.
    failed: Option<(u64, Failed)>,
}

impl Shared {
    /// The next seeds, in order, unless an earlier one has failed.
    fn range(&mut self, most: u64) -> Option<Range<u64>> {
        let start = self.left.start;
        if start >= self.left.end || !self.goes_on(start) {
            return None;
        }
        let end = self.left.end.min(start.saturating_add(most));
        self.left.start = end;
        Some(start..end)
    }

    /// Whether a seed is to be run: none that failed is less.
    fn goes_on(&self, seed: u64) -> bool {
        self.failed.as_ref().map_or(true, |(failed, _)| seed < *failed)
    }

    fn fails(&mut self, seed: u64, how: Failed) {
        if self.goes_on(seed) {
            self.failed = Some((seed, how));
        }
    }
}

/// What each worker has.
struct Work<'w, F> {
    plan: &'w F,
    drawn: &'w Drawn,
    shared: &'w Mutex<Shared>,
    bar: Bar,
    most: u64,
}

impl<F> Work<'_, F> {
    fn shared(&self) -> MutexGuard<'_, Shared> {
        self.shared.lock().unwrap_or_else(PoisonError::into_inner)
    }

    /// Makes runs until there are no more.
    fn work<'p, R: Send + 'static>(&self)
    where
        F: Fn(&mut Plan<'p, R>),
    {
        loop {
            // The guard is gone before the runs.
            let range = self.shared().range(self.most);
            match range {
                Some(range) => self.again(range),
                None => return,
            }
        }
    }

    /// Makes the runs of a range. If the worker panics it is done again; if that is no help, the range has failed.
    fn again<'p, R: Send + 'static>(&self, range: Range<u64>)
    where
        F: Fn(&mut Plan<'p, R>),
    {
        let mut why = String::new();
        for _ in 0..TIMES {
            match quiet(|| self.runs(range.clone())) {
                Ok(()) => return,
                Err(words) => why = words,
            }
        }
        let (first, last) = (range.start, range.end - 1);
        let words = format!("a worker panicked {TIMES} times in the runs of the seeds {first} to {last}: {why}");
        self.shared().fails(first, Failed::None(ScheduleError::none(words)));
    }

    /// Makes the runs of a range, up to the first that fails.
    fn runs<'p, R: Send + 'static>(&self, range: Range<u64>)
    where
        F: Fn(&mut Plan<'p, R>),
    {
        let mut plan = |made: &mut Plan<'p, R>| (self.plan)(made);
        let mut player = Player::of(&mut plan);
        for seed in range {
            if !self.shared().goes_on(seed) {
                return;
            }
            match player.run_of(self.drawn, seed) {
                Err(error) => return self.shared().fails(seed, Failed::None(error)),
                Ok(ran) if ran.fault.is_some() => return self.shared().fails(seed, Failed::Ran(Box::new(ran))),
                Ok(ran) => {
                    let (end, meetings) = (end_of(&ran), ran.meetings());
                    self.shared().look.add(seed, end, meetings);
                }
            }
            self.bar.add();
        }
    }
}
