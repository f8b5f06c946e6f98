//! Your own functions under drawn schedules: each on a thread of its own, of which one goes at a time.

use std::any::Any;
use std::collections::{BTreeMap, BTreeSet};
use std::fmt;
use std::ops::{Deref, Index, Range};
use std::panic::{self, AssertUnwindSafe, Location};
use std::sync::mpsc;
use std::thread;
use std::time::Duration;

use crate::bar::Bar;
use crate::baton::{Baton, Event, Stopped, Taken, ThreadTree};
use crate::draws::Chooser;
use crate::limits::Limits;
use crate::page::{page_with, sources};
use crate::parts::{lines_of, parts_of, returned, Part};
use crate::processor::OneProcessor;
use crate::seen::{grouped, Explored, Look, Meetings};
use crate::texts::{self, Schedule};
use crate::tree::Tree;
use crate::NODE_LIMIT;

/// How many events a run has at most, unless the plan says so.
const EVENTS: u64 = 100_000;
/// How long a function may make no call, unless the plan says so.
const PATIENCE: Duration = Duration::from_secs(10);
/// How many parts of calls are shown of a run that never ends: its last.
const SHOWN: usize = 40;

/// How schedules are drawn.
#[derive(Clone, Copy, Debug, Default, PartialEq, Eq)]
pub enum Draws {
    /// Both others in turn: `Uniform` for even seeds, and `Pct` of depth 3 for odd ones.
    #[default]
    Both,
    /// Before each event every thread that can go on has the same chance.
    Uniform,
    /// Each thread gets a random priority, and the highest goes. At `depth - 1` random events the thread that goes
    /// becomes the lowest. If a bug needs `depth` events in a certain order, a run of `n` threads and `k` events finds
    /// it with a probability of at least 1 in `n k^(depth - 1)`. This is the scheduler of Burckhardt, Kothari,
    /// Musuvathi and Nagarakatte (ASPLOS 2010).
    Pct {
        /// How many events have to come in a certain order: 1 or more.
        depth: u32,
    },
}

/// What a check says about a run. `()` and `true` say that it is well. `false`, an `Err` and a panic are faults.
pub trait Verdict {
    /// What is wrong; `None` if nothing is.
    fn fault(self) -> Option<String>;
}

impl Verdict for () {
    fn fault(self) -> Option<String> {
        None
    }
}

impl Verdict for bool {
    fn fault(self) -> Option<String> {
        (!self).then(|| "the check says no".to_owned())
    }
}

impl<E: fmt::Display> Verdict for Result<(), E> {
    fn fault(self) -> Option<String> {
        self.err().map(|error| error.to_string())
    }
}

/// What the functions of a run returned, by the names of their threads.
#[derive(Clone, Debug, PartialEq, Eq)]
pub struct Replies<R>(BTreeMap<String, R>);

impl<R> Replies<R> {
    /// What the function of a thread returned.
    pub fn get(&self, name: &str) -> Option<&R> {
        self.0.get(name)
    }

    /// The names with what their functions returned, in the order of the names.
    pub fn iter(&self) -> impl Iterator<Item = (&str, &R)> {
        self.0.iter().map(|(name, reply)| (name.as_str(), reply))
    }
}

impl<R> Index<&str> for Replies<R> {
    type Output = R;

    fn index(&self, name: &str) -> &R {
        &self.0[name]
    }
}

type Function<R> = Box<dyn FnOnce(&mut ThreadTree) -> R + Send>;
type Check<'p, R> = Box<dyn FnOnce(&mut Tree, &Replies<R>) -> Option<String> + 'p>;

/// What is to be run. It is made anew for each run, so that every run begins with the same.
pub struct Plan<'p, R> {
    limit: usize,
    limits: Limits,
    draws: Draws,
    events: u64,
    patience: Duration,
    before: Option<Function<()>>,
    threads: Vec<(String, Function<R>)>,
    check: Option<Check<'p, R>>,
}

impl<R> Plan<'_, R> {
    fn new() -> Self {
        Plan {
            limit: NODE_LIMIT,
            limits: Limits::default(),
            draws: Draws::default(),
            events: EVENTS,
            patience: PATIENCE,
            before: None,
            threads: Vec::new(),
            check: None,
        }
    }
}

impl<'p, R> Plan<'p, R> {
    /// The tree may have so many nodes, and has these limits.
    pub fn limits(&mut self, limit: usize, limits: Limits) -> &mut Self {
        (self.limit, self.limits) = (limit, limits);
        self
    }

    /// How schedules are drawn.
    pub fn draws(&mut self, draws: Draws) -> &mut Self {
        self.draws = draws;
        self
    }

    /// A run may have so many events. If it has more, the fault is that its functions never end.
    pub fn events(&mut self, most: u64) -> &mut Self {
        self.events = most;
        self
    }

    /// How long a function may go on without a call. After that the fault is that it is stuck.
    pub fn patience(&mut self, patience: Duration) -> &mut Self {
        self.patience = patience;
        self
    }

    /// Prepares the empty tree before the threads start.
    pub fn before(&mut self, function: impl FnOnce(&mut ThreadTree) + Send + 'static) -> &mut Self {
        self.before = Some(Box::new(function));
        self
    }

    /// Adds a thread with its function. The check sees what the function returns. A panic is a fault.
    pub fn thread(
        &mut self,
        name: impl Into<String>,
        function: impl FnOnce(&mut ThreadTree) -> R + Send + 'static,
    ) -> &mut Self {
        self.threads.push((name.into(), Box::new(function)));
        self
    }

    /// The check, which is made after each run. It sees the tree, in which no call is pending, and what the functions
    /// returned. It may read the tree, but not change it.
    pub fn check<V: Verdict>(&mut self, check: impl FnOnce(&mut Tree, &Replies<R>) -> V + 'p) -> &mut Self {
        self.check = Some(Box::new(move |tree, replies| check(tree, replies).fault()));
        self
    }

    /// What looks at a run that passes its check, if the plan has one.
    pub(crate) fn observed(&mut self, look: impl FnOnce(&mut Tree, &Replies<R>) + 'p)
    where
        R: 'p,
    {
        let check = self.check.take();
        self.check = Some(Box::new(move |tree, replies| {
            let fault = check.and_then(|check| check(tree, replies));
            if fault.is_none() {
                look(tree, replies);
            }
            fault
        }));
    }

    /// Why this is no plan.
    fn fault(&self) -> Option<String> {
        if self.threads.is_empty() {
            return Some("the plan has no threads".to_owned());
        }
        let mut names = BTreeSet::from([BEFORE]);
        let twice = self.threads.iter().find(|(name, _)| !names.insert(name));
        if let Some((name, _)) = twice {
            return Some(format!("two threads have the name {name:?}, or it is that of what is done before"));
        }
        if self.check.is_none() {
            return Some("the plan has no check".to_owned());
        }
        match self.draws {
            Draws::Pct { depth: 0 } => Some("PCT has a depth of 1 or more".to_owned()),
            _ => None,
        }
    }
}

/// The name that what is done before the threads start has in scripts.
const BEFORE: &str = "before";

/// What is wrong with a run.
#[derive(Clone, Debug, PartialEq, Eq)]
#[non_exhaustive]
pub enum ScheduleFault {
    /// The check failed or panicked: its words.
    Check(String),
    /// The function of this thread panicked: its words, and its line.
    Panicked(String, String),
    /// The run had as many events as it may have, this many, and has not ended.
    NeverEnds(u64),
    /// The function of this thread makes no call and does not end.
    Stuck(String),
    /// The check changed the tree.
    ChangedByCheck,
    /// There was no run: why the plan, the seeds or the schedule are not valid, or a worker gave up.
    NoPlan(String),
    /// What was to come in some run came in none: what was observed instead, as a table.
    NeverCame(String),
}

impl fmt::Display for ScheduleFault {
    fn fmt(&self, f: &mut fmt::Formatter<'_>) -> fmt::Result {
        match self {
            ScheduleFault::Check(why) => f.write_str(why),
            ScheduleFault::Panicked(name, why) => write!(f, "thread {name}: {why}"),
            ScheduleFault::NeverEnds(events) => write!(f, "no end in {events} events"),
            ScheduleFault::Stuck(name) => write!(f, "thread {name} makes no call and does not end"),
            ScheduleFault::ChangedByCheck => f.write_str("the check changed the tree"),
            ScheduleFault::NoPlan(why) => f.write_str(why),
            ScheduleFault::NeverCame(table) => write!(f, "it came in none of these:\n{table}"),
        }
    }
}

/// A schedule under which a plan fails: the first that was drawn, cut down. It has the fields of [`FailedRun`].
#[derive(Clone, PartialEq, Eq)]
pub struct ScheduleError(Box<FailedRun>);

/// A run that failed.
#[derive(Clone, Debug, PartialEq, Eq)]
#[non_exhaustive]
pub struct FailedRun {
    /// What is wrong with the run.
    pub fault: ScheduleFault,
    /// The seed from which it was drawn; none if the schedule was given.
    pub seed: Option<u64>,
    /// The schedule, for [`replay`], for example `a*7 b*9 a`. Each word is a thread and how many events of it. If the
    /// run never ends, these are the events after which it does not.
    pub schedule: String,
    /// How many runs it took to cut it down.
    pub trials: u64,
    /// What each thread did, in order, with the line of the source that made the call.
    pub parts: Vec<Part>,
    /// A line for each event: the thread, the line of the source that made the call, and what the event did.
    pub trace: Vec<String>,
    /// The journal of the run, for [`check`](crate::check) and [`draw`](crate::draw).
    pub journal: String,
    /// A script that `atomfs run` plays with the same journal. Some runs have none.
    pub script: Option<String>,
    /// Which line made each call, in the order in which the calls began.
    made_at: Vec<&'static Location<'static>>,
}

impl ScheduleError {
    /// The error of no run.
    pub(crate) fn none(why: impl Into<String>) -> ScheduleError {
        ScheduleError::of(ScheduleFault::NoPlan(why.into()))
    }

    /// The error of no run in particular.
    pub(crate) fn of(fault: ScheduleFault) -> ScheduleError {
        let (schedule, journal, seed, script) = (String::new(), String::new(), None, None);
        let (parts, trace, made_at) = (Vec::new(), Vec::new(), Vec::new());
        ScheduleError(Box::new(FailedRun { fault, seed, schedule, trials: 0, parts, trace, journal, script, made_at }))
    }

    /// The same with the words of another schedule.
    pub(crate) fn scheduled(mut self, schedule: String) -> ScheduleError {
        self.0.schedule = schedule;
        self
    }

    /// A picture of the run, as an SVG file.
    pub fn picture(&self) -> Result<String, crate::Error> {
        texts::draw(&self.journal, Schedule::Given, None)
    }

    /// A page that plays the run event by event in a browser, as [`page`](crate::page()) makes it. It plays the script,
    /// or the journal if there is no script. It also shows which line of the source made each call.
    pub fn page(&self) -> Result<String, crate::Error> {
        let text = self.script.as_ref().unwrap_or(&self.journal);
        page_with(text.as_bytes(), Schedule::Given, &sources(&self.made_at))
    }
}

impl Deref for ScheduleError {
    type Target = FailedRun;

    fn deref(&self) -> &FailedRun {
        &self.0
    }
}

impl fmt::Display for ScheduleError {
    fn fmt(&self, f: &mut fmt::Formatter<'_>) -> fmt::Result {
        match self.seed {
            Some(seed) => writeln!(f, "seed {seed}: {}", self.fault)?,
            None => writeln!(f, "{}", self.fault)?,
        }
        if self.trace.is_empty() {
            return Ok(());
        }
        writeln!(f, "schedule, cut down in {} runs: {}", self.trials, self.schedule)?;
        let never_ends = matches!(self.fault, ScheduleFault::NeverEnds(_));
        let hidden = if never_ends { self.parts.len().saturating_sub(SHOWN) } else { 0 };
        if hidden > 0 {
            writeln!(f, "    .. {} before these", grouped(hidden as u64))?;
        }
        for line in lines_of(&self.parts[hidden..]) {
            writeln!(f, "{line}")?;
        }
        writeln!(f, "journal: {}", texts::check(&self.journal).unwrap_or_else(|error| error.to_string()))?;
        match &self.script {
            Some(script) if hidden == 0 => write!(f, "script:\n{script}"),
            _ => Ok(()),
        }
    }
}

/// As text, so that `unwrap` in a test shows it.
impl fmt::Debug for ScheduleError {
    fn fmt(&self, f: &mut fmt::Formatter<'_>) -> fmt::Result {
        write!(f, "\n{self}")
    }
}

impl std::error::Error for ScheduleError {}

impl Ran {
    /// What met in it.
    pub(crate) fn meetings(&self) -> Meetings {
        Meetings::of(&self.events, self.names.len())
    }
}

/// What came of a run.
pub(crate) struct Ran {
    pub(crate) fault: Option<ScheduleFault>,
    pub(crate) names: Vec<String>,
    pub(crate) order: Vec<usize>,
    pub(crate) half_way: Vec<bool>,
    before: usize,
    pub(crate) events: Vec<Event>,
    journal: String,
    tree: String,
}

/// Runs functions on threads of their own, of which one runs at a time. Before each begin and each step of a call, the
/// seed decides whose turn is next. So calls meet half-way, and the same seed gives the same run. The first seed whose
/// run fails becomes an error. Its schedule is cut down to few switches between threads, and still fails.
///
/// The closure makes the plan of each run. A seed determines the calls on the tree, and nothing else in the functions:
/// not clocks, random numbers or locks. A function that waits for another one, for example at a lock, must call
/// [`ThreadTree::turn`] meanwhile.
///
/// ```
/// // Two threads add one to a counter in a file: read, add, write.
/// let error = atomfs::explore(1..1_000, |plan| {
///     plan.before(|tree| tree.write_file("/n", "0").unwrap());
///     for name in ["a", "b"] {
///         plan.thread(name, |tree| {
///             let n: u32 = String::from_utf8(tree.read("/n", 0, 10)?).unwrap().parse().unwrap();
///             tree.write("/n", 0, (n + 1).to_string())
///         });
///     }
///     plan.check(|tree, _| tree.read_to_end("/n").unwrap() == b"2");
/// })
/// .unwrap_err();
/// assert_eq!(error.to_string().lines().next().unwrap(), format!("seed {}: the check says no", error.seed.unwrap()));
/// assert!(error.trace[0].contains("explore.rs:"));
/// ```
pub fn explore<'p, R: Send + 'static>(
    seeds: Range<u64>,
    mut plan: impl FnMut(&mut Plan<'p, R>),
) -> Result<Explored, ScheduleError> {
    let mut player = Player::of(&mut plan);
    let drawn = player.drawn(&seeds)?;
    let bar = Bar::of(seeds.end - seeds.start);
    let mut look = Look::new();
    for seed in seeds.clone() {
        let ran = player.run_of(&drawn, seed)?;
        if ran.fault.is_some() {
            drop(bar);
            return Err(player.cut_down(ran, seed));
        }
        look.add(seed, end_of(&ran), ran.meetings());
        bar.add();
    }
    Ok(look.seen(&seeds))
}

/// Runs a plan under a schedule, for example that of a [`ScheduleError`]. Words of threads that have ended are skipped.
/// After the last word each thread goes on to its end, beginning with the thread of that word.
pub fn replay<'p, R: Send + 'static>(
    schedule: &str,
    mut plan: impl FnMut(&mut Plan<'p, R>),
) -> Result<(), ScheduleError> {
    let mut player = Player::of(&mut plan);
    let names = player.names()?;
    let order = order_of(schedule, &names).map_err(ScheduleError::none)?;
    let ran = player.run(Chooser::given(order), true)?;
    match ran.fault {
        None => Ok(()),
        Some(_) => Err(player.error_of(ran, None, 0)),
    }
}

/// How a run ended: its replies in the order of its threads' calls, and its tree.
pub(crate) type End = (Vec<(usize, String)>, String);

pub(crate) fn end_of(ran: &Ran) -> End {
    let seats: BTreeMap<u64, usize> = ran.events.iter().map(|event| (event.call, event.thread)).collect();
    let replies = ran.journal.lines().filter_map(|line| {
        let (number, reply) = returned(line)?;
        Some((*seats.get(&number)?, reply.to_owned()))
    });
    let mut replies: Vec<_> = replies.collect();
    replies.sort_by_key(|(thread, _)| *thread);
    (replies, ran.tree.clone())
}

/// The words of a schedule.
pub(crate) fn words_of(order: &[usize], names: &[String]) -> String {
    let mut words: Vec<(usize, usize)> = Vec::new();
    for thread in order {
        match words.last_mut() {
            Some((last, count)) if last == thread => *count += 1,
            _ => words.push((*thread, 1)),
        }
    }
    let word = |(thread, count): &(usize, usize)| match count {
        1 => names[*thread].clone(),
        _ => format!("{}*{count}", names[*thread]),
    };
    words.iter().map(word).collect::<Vec<_>>().join(" ")
}

/// The threads of a schedule's words.
fn order_of(schedule: &str, names: &[String]) -> Result<Vec<usize>, String> {
    let mut order = Vec::new();
    for word in schedule.split_whitespace() {
        let (name, count) = word.rsplit_once('*').unwrap_or((word, "1"));
        let thread = names.iter().position(|known| known == name);
        let thread = thread.ok_or_else(|| format!("the schedule's word {word:?} is of no thread of the plan"))?;
        let count = count.parse::<usize>().ok().filter(|count| (1..=1_000_000).contains(count));
        let count = count.ok_or_else(|| format!("the schedule's word {word:?} has no number of 1 to 1,000,000"))?;
        order.resize(order.len() + count, thread);
    }
    Ok(order)
}

/// By what schedules are drawn: how, for how many threads, and in how many events.
pub(crate) struct Drawn {
    draws: Draws,
    threads: usize,
    events: u64,
}

/// What runs plans.
pub(crate) struct Player<'m, 'p, R> {
    pub(crate) made: &'m mut dyn FnMut(&mut Plan<'p, R>),
    /// After a run that passes its check, what is wrong with it all the same.
    pub(crate) judge: Option<&'m dyn Fn() -> Option<String>>,
    /// This thread's, and that of the threads of its runs.
    pub(crate) _processor: OneProcessor,
}

impl<'m, 'p, R: Send + 'static> Player<'m, 'p, R> {
    pub(crate) fn of(made: &'m mut dyn FnMut(&mut Plan<'p, R>)) -> Player<'m, 'p, R> {
        Player { made, judge: None, _processor: OneProcessor::next() }
    }

    /// By what the schedules of these seeds are drawn, by a run in which the threads go one after another: by its
    /// events changes of priorities are spread.
    pub(crate) fn drawn(&mut self, seeds: &Range<u64>) -> Result<Drawn, ScheduleError> {
        if seeds.start >= seeds.end {
            return Err(ScheduleError::none("there are no seeds to draw from"));
        }
        let alone = self.run(Chooser::given(Vec::new()), false)?;
        if matches!(alone.fault, Some(ScheduleFault::NeverEnds(_) | ScheduleFault::Stuck(_))) {
            return Err(self.error_of(alone, None, 0));
        }
        Ok(Drawn { draws: self.draws(), threads: alone.names.len(), events: alone.order.len() as u64 })
    }

    /// The run of a seed, with its check.
    pub(crate) fn run_of(&mut self, drawn: &Drawn, seed: u64) -> Result<Ran, ScheduleError> {
        self.run(Chooser::drawn(drawn.draws, seed, drawn.threads, drawn.events), true)
    }

    fn plan(&mut self) -> Result<Plan<'p, R>, ScheduleError> {
        let mut plan = Plan::new();
        (self.made)(&mut plan);
        match plan.fault() {
            Some(why) => Err(ScheduleError::none(why)),
            None => Ok(plan),
        }
    }

    fn names(&mut self) -> Result<Vec<String>, ScheduleError> {
        Ok(self.plan()?.threads.into_iter().map(|(name, _)| name).collect())
    }

    fn draws(&mut self) -> Draws {
        self.plan().map_or(Draws::Both, |plan| plan.draws)
    }

    /// One run. The check is made if it is asked for and all functions returned.
    pub(crate) fn run(&mut self, chooser: Chooser, checked: bool) -> Result<Ran, ScheduleError> {
        self.run_within(chooser, checked, u64::MAX)
    }

    /// One run of at most so many events, or of fewer if the plan says so.
    pub(crate) fn run_within(&mut self, chooser: Chooser, checked: bool, most: u64) -> Result<Ran, ScheduleError> {
        let Plan { limit, limits, events, patience, before, threads, check, .. } = self.plan()?;
        let events = events.min(most);
        let (names, functions): (Vec<String>, Vec<_>) = threads.into_iter().unzip();
        let none = |error: crate::Error| ScheduleError::none(error.to_string());
        let tree = Tree::with_limits(limit, limits).map_err(none)?;
        let (baton, seats) = Baton::new(tree, names.len(), events, chooser).map_err(none)?;
        let mut fault = None;
        if let Some(before) = before {
            let mut own = ThreadTree::alone(&baton, seats[names.len()]);
            fault = quiet(|| before(&mut own)).err().map(|why| ScheduleFault::Panicked(BEFORE.to_owned(), why));
        }
        let prepared = baton.prepared();
        let mut replies = BTreeMap::new();
        if fault.is_none() {
            let (told, came) = mpsc::channel();
            for (at, function) in functions.into_iter().enumerate() {
                let (baton, told, seat) = (baton.clone(), told.clone(), seats[at]);
                let body = move || {
                    let mut its = ThreadTree::of(&baton, at, seat);
                    let came = quiet(|| function(&mut its));
                    baton.ended(at);
                    let _ = told.send((at, came));
                };
                let made = thread::Builder::new().name(names[at].clone()).spawn(body);
                made.map_err(|error| ScheduleError::none(format!("no thread can be made: {error}")))?;
            }
            while replies.len() < names.len() && fault.is_none() {
                let seen = baton.events();
                match came.recv_timeout(patience) {
                    Ok((at, Ok(reply))) => drop(replies.insert(names[at].clone(), reply)),
                    Ok((at, Err(why))) => fault = Some(ScheduleFault::Panicked(names[at].clone(), why)),
                    Err(_) if baton.events() == seen => {
                        fault = Some(ScheduleFault::Stuck(names[baton.turn_of().unwrap_or(0)].clone()));
                    }
                    Err(_) => {}
                }
                if baton.is_spent() {
                    fault = Some(ScheduleFault::NeverEnds(events));
                }
            }
            if fault.is_some() {
                baton.stop();
            }
        }
        let Taken { order, half_way, events, mut tree } = baton.taken().map_err(none)?;
        // What was left half-way by a function that is gone.
        while tree.step_any().map_err(none)?.is_some() {}
        let journal = tree.journal().map_err(none)?;
        let text = tree.text_of_tree().map_err(none)?;
        if let (true, None, Some(check)) = (checked, &fault, check) {
            let replies = Replies(replies);
            fault = match quiet(|| check(&mut tree, &replies)) {
                Ok(None) => None,
                Ok(Some(why)) | Err(why) => Some(ScheduleFault::Check(why)),
            };
            if fault.is_none() && tree.text_of_tree().map_err(none)? != text {
                fault = Some(ScheduleFault::ChangedByCheck);
            }
            if fault.is_none() {
                fault = self.judge.and_then(|judge| judge()).map(ScheduleFault::Check);
            }
        }
        Ok(Ran { fault, names, order, half_way, before: prepared, events, journal, tree: text })
    }

    pub(crate) fn error_of(&mut self, ran: Ran, seed: Option<u64>, trials: u64) -> ScheduleError {
        let spelled = spelled(&ran.journal);
        let events = &ran.events[ran.before..];
        let trace = events.iter().map(|event| event.line(&ran.names, &spelled)).collect();
        let parts = parts_of(events, &ran.names, &ran.journal, &spelled);
        let schedule = words_of(&ran.order, &ran.names);
        let script = script_of(&ran, &spelled);
        let made_at = ran.events.iter().filter(|event| event.is_begin()).map(Event::at).collect();
        let fault = ran.fault.unwrap_or_else(|| ScheduleFault::NoPlan("the run is well".to_owned()));
        let journal = ran.journal;
        ScheduleError(Box::new(FailedRun { fault, seed, schedule, trials, parts, trace, journal, script, made_at }))
    }
}

/// The calls of a journal, as they are spelled there, by their numbers.
fn spelled(journal: &str) -> BTreeMap<u64, String> {
    let begun = journal.lines().filter_map(|line| {
        let mut words = line.strip_prefix("begin ")?.splitn(3, ' ');
        let number = words.next()?.parse().ok()?;
        Some((number, words.nth(1)?.to_owned()))
    });
    begun.collect()
}

/// The script whose run has the journal of a run.
fn script_of(ran: &Ran, spelled: &BTreeMap<u64, String>) -> Option<String> {
    let version = ran.journal.lines().next()?.strip_prefix("atomfs-journal ")?.parse::<u32>().ok()?;
    let mut names = ran.names.clone();
    names.push(BEFORE.to_owned());
    let mut calls = vec![Vec::new(); names.len()];
    for event in ran.events.iter().filter(|event| event.is_begin()) {
        calls[event.thread].push(spelled.get(&event.call)?.as_str());
    }
    // Journals by the first limits have the version 1, or 2 where they begin at a tree.
    let mut script = format!("atomfs {}\n", if version < 3 { 1 } else { version - 1 });
    // The tree's own calls have the first seat.
    names.rotate_right(1);
    calls.rotate_right(1);
    for (name, calls) in names.iter().zip(&calls) {
        script += &format!("thread {name}\n");
        calls.iter().for_each(|call| script += &format!("{call}\n"));
    }
    let order: Vec<usize> = ran.events.iter().map(|event| (event.thread + 1) % names.len()).collect();
    script += "schedule\n";
    words_of(&order, &names).split(' ').for_each(|word| script += &format!("{word}\n"));
    script += "finish\n";
    texts::run(&script).ok()?.starts_with(&ran.journal).then_some(script)
}

/// What a function returns, or the words of its panic, which are not shown.
pub(crate) fn quiet<T>(function: impl FnOnce() -> T) -> Result<T, String> {
    crate::baton::quietly(|| panic::catch_unwind(AssertUnwindSafe(function)))
        .map_err(|payload: Box<dyn Any + Send>| words_of_panic(payload.as_ref()))
}

fn words_of_panic(payload: &(dyn Any + Send)) -> String {
    if payload.is::<Stopped>() {
        return "it was stopped".to_owned();
    }
    let words = payload.downcast_ref::<&str>().map(|words| (*words).to_owned());
    let words = words.or_else(|| payload.downcast_ref::<String>().cloned());
    let words = words.unwrap_or_else(|| "it panicked".to_owned());
    match crate::baton::place_of_panic() {
        Some(place) => format!("{words} ({place})"),
        None => words,
    }
}

/// A line of a source, without the folders above it that all share.
pub(crate) fn place_of(at: &Location<'_>) -> String {
    format!("{}:{}", at.file(), at.line())
}
