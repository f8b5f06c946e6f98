//! How much was seen in runs.

use std::collections::{BTreeMap, BTreeSet};
use std::fmt;
use std::ops::Range;

use crate::baton::Event;

/// Of so many runs it is counted how many brought a new outcome.
const LATELY: u64 = 1_000;

/// How much was seen, if no run failed. As text it is one line, for example
/// `10,000 runs, 3 outcomes, 0 new in the last 1,000 runs; 4 of 9 pairs of calls met`.
#[derive(Clone, Copy, Debug, PartialEq, Eq)]
#[non_exhaustive]
pub struct Explored {
    /// How many runs there were.
    pub runs: u64,
    /// How many different outcomes there were. Of [`explore`](crate::explore()) they differ in replies of calls or in
    /// the tree, and of [`outcomes`](crate::outcomes()) in the values that were observed.
    pub outcomes: usize,
    /// The last seed that brought a new outcome.
    pub last_new: u64,
    /// How many of the last `lately` runs brought a new outcome.
    pub new: u64,
    /// 1,000, or how many runs there were if they were fewer.
    pub lately: u64,
    /// For how many pairs of calls of two threads both calls were pending at once in some run.
    pub met: usize,
    /// How many such pairs there are. All calls of one kind that a line of the source makes in a thread count as one.
    pub pairs: usize,
}

impl fmt::Display for Explored {
    fn fmt(&self, f: &mut fmt::Formatter<'_>) -> fmt::Result {
        let (runs, outcomes) = (counted(self.runs, "run"), counted(self.outcomes as u64, "outcome"));
        let (new, lately) = (grouped(self.new), counted(self.lately, "run"));
        let (met, pairs) = (grouped(self.met as u64), counted(self.pairs as u64, "pair"));
        write!(f, "{runs}, {outcomes}, {new} new in the last {lately}; {met} of {pairs} of calls met")
    }
}

/// A number with commas.
pub(crate) fn grouped(number: u64) -> String {
    let digits = number.to_string();
    let mut text = String::new();
    for (at, digit) in digits.char_indices() {
        if at > 0 && (digits.len() - at) % 3 == 0 {
            text.push(',');
        }
        text.push(digit);
    }
    text
}

fn counted(number: u64, what: &str) -> String {
    format!("{} {what}{}", grouped(number), if number == 1 { "" } else { "s" })
}

/// A call by its thread, the file and the line that make it, and its kind.
type Site = (usize, &'static str, u32, u8);

/// What met in a run.
pub(crate) struct Meetings {
    sites: BTreeSet<Site>,
    met: BTreeSet<(Site, Site)>,
}

impl Meetings {
    /// That of these events of so many threads. The calls before the threads start meet nothing.
    pub(crate) fn of(events: &[Event], threads: usize) -> Meetings {
        let (mut sites, mut met) = (BTreeSet::new(), BTreeSet::new());
        let mut pending: Vec<Option<Site>> = vec![None; threads];
        for event in events.iter().filter(|event| event.thread < threads) {
            if event.is_begin() {
                let site = (event.thread, event.at().file(), event.at().line(), event.kind);
                let others = pending.iter().enumerate().filter(|(thread, _)| *thread != event.thread);
                met.extend(others.filter_map(|(_, other)| *other).map(|other| (site.min(other), site.max(other))));
                sites.insert(site);
                pending[event.thread] = Some(site);
            } else if event.is_end() {
                pending[event.thread] = None;
            }
        }
        Meetings { sites, met }
    }
}

/// What was seen in runs. `K` is by what outcomes differ.
pub(crate) struct Look<K> {
    /// The first seed that brought each outcome.
    first: BTreeMap<K, u64>,
    all: Meetings,
}

impl<K: Ord> Look<K> {
    pub(crate) fn new() -> Look<K> {
        Look { first: BTreeMap::new(), all: Meetings { sites: BTreeSet::new(), met: BTreeSet::new() } }
    }

    /// Notes the run of a seed, in whatever order they come, and if one comes twice.
    pub(crate) fn add(&mut self, seed: u64, outcome: K, meetings: Meetings) {
        let first = self.first.entry(outcome).or_insert(seed);
        *first = seed.min(*first);
        self.all.sites.extend(meetings.sites);
        self.all.met.extend(meetings.met);
    }

    /// How much that was, of the runs of these seeds.
    pub(crate) fn seen(&self, seeds: &Range<u64>) -> Explored {
        let runs = seeds.end - seeds.start;
        let lately = runs.min(LATELY);
        let new = self.first.values().filter(|seed| **seed >= seeds.end - lately).count() as u64;
        let last_new = self.first.values().copied().max().unwrap_or(seeds.start);
        let (met, pairs) = (self.all.met.len(), self.pairs());
        Explored { runs, outcomes: self.first.len(), last_new, new, lately, met, pairs }
    }

    /// How many pairs there are of calls of two threads.
    fn pairs(&self) -> usize {
        let mut of_thread: BTreeMap<usize, usize> = BTreeMap::new();
        self.all.sites.iter().for_each(|(thread, ..)| *of_thread.entry(*thread).or_default() += 1);
        let all = self.all.sites.len();
        of_thread.values().map(|count| count * (all - count)).sum::<usize>() / 2
    }
}

#[cfg(test)]
mod tests {
    use super::*;

    #[test]
    fn numbers_with_commas() {
        for (number, text) in [(0, "0"), (999, "999"), (1_000, "1,000"), (12_345_678, "12,345,678")] {
            assert_eq!(grouped(number), text);
        }
    }

    /// New ones of the last 1,000 runs, by the first seed of each; the order in which they are noted does not matter.
    #[test]
    fn what_is_new() {
        let none = || Meetings { sites: BTreeSet::new(), met: BTreeSet::new() };
        let mut look = Look::new();
        for (seed, outcome) in [(2_500, "b"), (7, "a"), (1_999, "b"), (2_000, "c"), (2_999, "a")] {
            look.add(seed, outcome, none());
        }
        let seen = look.seen(&(0..3_000));
        assert_eq!((seen.runs, seen.outcomes, seen.new, seen.lately, seen.last_new), (3_000, 3, 1, 1_000, 2_000));
        let words = "3,000 runs, 3 outcomes, 1 new in the last 1,000 runs; 0 of 0 pairs of calls met";
        assert_eq!(seen.to_string(), words);
    }
}
