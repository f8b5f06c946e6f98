//! Cuts the schedule of a run that failed down. First come the fewest switches between threads that still fail, then
//! the fewest calls, and then the fewest switches in the midst of a call.

use std::rc::Rc;

use crate::draws::Chooser;
use crate::explore::{quiet, words_of, Player, Ran, ScheduleError, ScheduleFault};

/// How many runs are made at most to cut one down, and how many events all of them have.
const TRIALS: u64 = 1_000;
const EVENTS: usize = 400_000;
/// If a run never ends, how many events more than its schedule has a run has to have that does not either.
const ENDLESS: u64 = 4_000;

impl<'p, R: Send + 'static> Player<'_, 'p, R> {
    /// The error of a run that failed, cut down. It tries runs that let one thread go to its end in the midst of
    /// another, and those that leave out or exchange parts of the best.
    pub(crate) fn cut_down(&mut self, ran: Ran, seed: u64) -> ScheduleError {
        match ran.fault {
            // A function that is stuck leaves a thread behind, and takes its time.
            Some(ScheduleFault::Stuck(_)) => return self.error_of(ran, Some(seed), 0),
            Some(ScheduleFault::NeverEnds(_)) => return self.first_of_endless(ran, seed),
            _ => {}
        }
        let (mut best, mut trials, mut events) = (ran, 0, 0);
        let mut tried = alone(&best);
        tried.extend(fewer(&best.order));
        while let Some(candidate) = tried.pop() {
            trials += 1;
            // What was found is not lost if the plan panics.
            let came = match quiet(|| self.run(Chooser::given(candidate.order()), true)) {
                Ok(Ok(came)) => came,
                _ if trials == TRIALS => break,
                _ => continue,
            };
            events += came.order.len();
            if came.fault.is_some() && size(&came) < size(&best) {
                best = came;
                // What lets one thread go in the midst of another has two switches and no fewer.
                let (switches, length) = (switches(&best.order), best.order.len());
                tried.retain(|other| other.switches() < switches || other.len() < length);
                tried.extend(fewer(&best.order));
            }
            if trials == TRIALS || events > EVENTS {
                break;
            }
        }
        while let (Some(came), true) = (self.at_bounds(&best, &mut trials), trials < TRIALS && events <= EVENTS) {
            events += came.order.len();
            best = came;
        }
        self.error_of(best, Some(seed), trials)
    }

    /// A run that fails like this one, and has a switch less in the midst of a call, if there is one.
    fn at_bounds(&mut self, best: &Ran, trials: &mut u64) -> Option<Ran> {
        moved(best).into_iter().find_map(|order| {
            *trials += 1;
            match quiet(|| self.run(Chooser::given(order), true)) {
                Ok(Ok(came)) if came.fault.is_some() && size(&came) < size(best) => Some(came),
                _ => None,
            }
        })
    }

    /// The error of a run that never ends. Its schedule is the first events after which the run does not end, if each
    /// thread goes on from there as long as it can.
    fn first_of_endless(&mut self, ran: Ran, seed: u64) -> ScheduleError {
        let mut trials = 0;
        let mut never_ends = |order: &[usize]| {
            trials += 1;
            let most = order.len() as u64 + ENDLESS;
            let came = quiet(|| self.run_within(Chooser::given(order.to_vec()), true, most));
            matches!(came, Ok(Ok(Ran { fault: Some(ScheduleFault::NeverEnds(_)), .. })))
        };
        let (mut least, mut most) = (0, ran.order.len());
        while least < most {
            let middle = least + (most - least) / 2;
            match never_ends(&ran.order[..middle]) {
                true => most = middle,
                false => least = middle + 1,
            }
        }
        let mut best = ran.order[..most].to_vec();
        let mut tried = fewer(&best);
        let mut left = EVENTS as u64 / (best.len() as u64 + ENDLESS);
        while let Some(order) = tried.pop().map(|candidate| candidate.order()) {
            if left == 0 {
                break;
            }
            if (switches(&order), order.len()) < (switches(&best), best.len()) {
                left -= 1;
                if never_ends(&order) {
                    best = order;
                    tried = fewer(&best);
                }
            }
        }
        // As long as it may be, and without an end all the same.
        let schedule = words_of(&best, &ran.names);
        match quiet(|| self.run(Chooser::given(best), true)) {
            Ok(Ok(came)) if came.fault == ran.fault => self.error_of(came, Some(seed), trials + 1).scheduled(schedule),
            _ => self.error_of(ran, Some(seed), trials + 1),
        }
    }
}

/// How often another thread goes than before.
fn switches(order: &[usize]) -> usize {
    order.windows(2).filter(|pair| pair[0] != pair[1]).count()
}

/// What is to be small: switches, calls, switches in the midst of a call, events.
fn size(ran: &Ran) -> (usize, usize, usize, usize) {
    let calls = ran.events.iter().filter(|event| event.is_begin()).count();
    let halves = (1..ran.order.len()).filter(|at| ran.half_way[*at] && ran.order[*at] != ran.order[*at - 1]).count();
    (switches(&ran.order), calls, halves, ran.order.len())
}

/// The parts of an order without a switch: a thread, and how many events of it.
type Blocks = Rc<Vec<(usize, usize)>>;

/// An order that is tried.
enum Candidate {
    /// So many events of one thread, and then another up to its end, of at most so many events.
    Alone(usize, usize, usize, usize),
    /// The first blocks of an order, as many as this.
    Before(Blocks, usize),
    /// An order without one of its blocks, whose thread then goes on later.
    Without(Blocks, usize),
    /// An order in which a block and the one before it are exchanged, so that those round them are one.
    Exchanged(Blocks, usize),
}

impl Candidate {
    fn blocks(&self) -> Vec<(usize, usize)> {
        match self {
            Candidate::Alone(one, events, other, most) => vec![(*one, *events), (*other, *most)],
            Candidate::Before(blocks, end) => blocks[..*end].to_vec(),
            Candidate::Without(blocks, at) => [&blocks[..*at], &blocks[at + 1..]].concat(),
            Candidate::Exchanged(blocks, at) => {
                let mut blocks = blocks.to_vec();
                blocks.swap(at - 1, *at);
                blocks
            }
        }
    }

    fn order(&self) -> Vec<usize> {
        order_of(&self.blocks())
    }

    fn switches(&self) -> usize {
        let blocks: Vec<_> = self.blocks().into_iter().filter(|(_, events)| *events > 0).collect();
        blocks.windows(2).filter(|pair| pair[0].0 != pair[1].0).count()
    }

    fn len(&self) -> usize {
        self.blocks().iter().map(|(_, events)| events).sum()
    }
}

/// Orders that let one thread go to its end after some events of another.
fn alone(ran: &Ran) -> Vec<Candidate> {
    let count = |thread: usize| ran.order.iter().filter(|other| **other == thread).count();
    let threads = 0..ran.names.len();
    let pairs = threads.clone().flat_map(|one| threads.clone().map(move |other| (one, other)));
    let orders = pairs.filter(|(one, other)| one != other).flat_map(|(one, other)| {
        (0..=count(one)).map(move |events| Candidate::Alone(one, events, other, ran.order.len()))
    });
    orders.collect()
}

fn blocks_of(order: &[usize]) -> Vec<(usize, usize)> {
    let mut blocks: Vec<(usize, usize)> = Vec::new();
    for thread in order {
        match blocks.last_mut() {
            Some((last, events)) if last == thread => *events += 1,
            _ => blocks.push((*thread, 1)),
        }
    }
    blocks
}

fn order_of(blocks: &[(usize, usize)]) -> Vec<usize> {
    let mut order = Vec::new();
    for (thread, events) in blocks {
        order.resize(order.len() + events, *thread);
    }
    order
}

/// Orders in which one switch in the midst of a call comes before the call, or after it.
fn moved(ran: &Ran) -> Vec<Vec<usize>> {
    let blocks = blocks_of(&ran.order);
    let (mut orders, mut start) = (Vec::new(), 0);
    for (at, (thread, events)) in blocks.iter().enumerate() {
        let end = start + events;
        let later = (at + 1..blocks.len()).find(|later| blocks[*later].0 == *thread);
        if let (Some(later), Some(true)) = (later, ran.half_way.get(end)) {
            let mut shifts = |from: usize, to: usize, events: usize| {
                let mut blocks = blocks.clone();
                blocks[from].1 -= events;
                blocks[to].1 += events;
                orders.push(order_of(&blocks));
            };
            if let Some(before) = (start + 1..end).rev().find(|turn| !ran.half_way[*turn]) {
                shifts(at, later, end - before);
            }
            let begin: usize = blocks[..later].iter().map(|(_, events)| events).sum();
            let after = (1..blocks[later].1).find(|turn| !ran.half_way[begin + turn]);
            shifts(later, at, after.unwrap_or(blocks[later].1));
        }
        start = end;
    }
    orders
}

/// Orders with fewer switches.
fn fewer(order: &[usize]) -> Vec<Candidate> {
    let blocks = Rc::new(blocks_of(order));
    let count = blocks.len();
    let before = (0..count).map(|end| Candidate::Before(Rc::clone(&blocks), end));
    let without = (0..count).map(|at| Candidate::Without(Rc::clone(&blocks), at));
    let exchanged = (1..count).map(|at| Candidate::Exchanged(Rc::clone(&blocks), at));
    before.chain(without).chain(exchanged).collect()
}
