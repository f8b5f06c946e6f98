//! Whose turn it is: drawn, or given.

use crate::explore::Draws;

/// SplitMix64.
struct Drawn(u64);

impl Drawn {
    fn next(&mut self) -> u64 {
        self.0 = self.0.wrapping_add(0x9e37_79b9_7f4a_7c15);
        let mut made = self.0;
        made = (made ^ (made >> 30)).wrapping_mul(0xbf58_476d_1ce4_e5b9);
        made = (made ^ (made >> 27)).wrapping_mul(0x94d0_49bb_1331_11eb);
        made ^ (made >> 31)
    }

    /// A number below this one, which is not 0.
    fn below(&mut self, bound: u64) -> u64 {
        // By the high bits of the product, so that each is as likely as another but for one part in 2^40 or less.
        ((u128::from(self.next()) * u128::from(bound)) >> 64) as u64
    }
}

/// What says which thread goes.
pub(crate) enum Chooser {
    Uniform(Uniform),
    ByPriorities(Priorities),
    Given(Given),
}

pub(crate) struct Uniform(Drawn);

pub(crate) struct Priorities {
    /// Of each thread; the highest goes.
    of: Vec<i64>,
    /// The events before which the one that goes becomes the lowest, and how many have come.
    changes: Vec<u64>,
    event: u64,
    /// How often a thread has handed the turn on.
    yields: i64,
}

pub(crate) struct Given {
    order: Vec<usize>,
    next: usize,
    last: Option<usize>,
}

impl Chooser {
    /// The one of a seed, for so many threads, in a run of some so many events.
    pub(crate) fn drawn(draws: Draws, seed: u64, threads: usize, events: u64) -> Chooser {
        let mut drawn = Drawn(seed);
        let depth = match draws {
            Draws::Both if seed % 2 == 1 => 3,
            Draws::Pct { depth } => depth,
            Draws::Both | Draws::Uniform => return Chooser::Uniform(Uniform(drawn)),
        };
        // A permutation: each priority is above those that changes give.
        let mut of: Vec<i64> = (0..threads as i64).map(|thread| i64::from(depth) + thread).collect();
        for at in (1..threads).rev() {
            of.swap(at, drawn.below(at as u64 + 1) as usize);
        }
        let mut changes: Vec<u64> = (1..depth).map(|_| drawn.below(events.max(1))).collect();
        changes.sort_unstable();
        Chooser::ByPriorities(Priorities { of, changes, event: 0, yields: 0 })
    }

    /// The one that goes by an order. Threads that cannot go on are skipped. After the order each goes on to its end,
    /// the last first.
    pub(crate) fn given(order: Vec<usize>) -> Chooser {
        Chooser::Given(Given { order, next: 0, last: None })
    }

    /// One of the threads that can go on, which are one or more, in order. The one that hands the turn on goes only if
    /// no other can. By priorities it becomes the lowest, so that a thread that waits for others in a loop lets them go
    /// on.
    pub(crate) fn choose(&mut self, able: &[usize], yielding: Option<usize>) -> usize {
        let others: Vec<usize> = able.iter().copied().filter(|thread| Some(*thread) != yielding).collect();
        let able = if others.is_empty() { able } else { &others };
        if let (Chooser::ByPriorities(priorities), Some(thread)) = (&mut *self, yielding) {
            priorities.yields += 1;
            priorities.of[thread] = -priorities.yields;
        }
        match self {
            Chooser::Uniform(Uniform(drawn)) => able[drawn.below(able.len() as u64) as usize],
            Chooser::ByPriorities(priorities) => priorities.choose(able),
            Chooser::Given(given) => given.choose(able),
        }
    }
}

impl Priorities {
    fn highest(&self, able: &[usize]) -> usize {
        able.iter().copied().max_by_key(|thread| self.of[*thread]).unwrap_or(able[0])
    }

    fn choose(&mut self, able: &[usize]) -> usize {
        while self.changes.first() == Some(&self.event) {
            self.changes.remove(0);
            let goes = self.highest(able);
            // Each later change gives a lower one.
            self.of[goes] = self.changes.len() as i64;
        }
        self.event += 1;
        self.highest(able)
    }
}

impl Given {
    fn choose(&mut self, able: &[usize]) -> usize {
        let mut chosen = None;
        while chosen.is_none() && self.next < self.order.len() {
            chosen = Some(self.order[self.next]).filter(|thread| able.contains(thread));
            self.next += 1;
        }
        let chosen = chosen.or_else(|| self.last.filter(|thread| able.contains(thread)));
        let behind = |last: usize| able.iter().copied().find(|thread| *thread > last);
        let chosen = chosen.or_else(|| self.last.and_then(behind)).unwrap_or(able[0]);
        self.last = Some(chosen);
        chosen
    }
}
