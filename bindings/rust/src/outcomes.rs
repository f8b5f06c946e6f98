//! What comes of functions, over many runs: how often, and by which seed.

use std::cell::RefCell;
use std::collections::BTreeMap;
use std::fmt;
use std::ops::Range;
use std::rc::Rc;

use crate::bar::Bar;
use crate::explore::{Plan, Player, Replies, ScheduleError, ScheduleFault};
use crate::seen::{grouped, Explored, Look};
use crate::tree::Tree;

/// A value that was observed.
#[derive(Clone, Copy, Debug, PartialEq, Eq)]
#[non_exhaustive]
pub struct Outcome<V> {
    /// The value.
    pub value: V,
    /// In how many runs it came.
    pub runs: u64,
    /// The first seed of one. [`explore`](crate::explore()) with this seed alone makes the run again.
    pub seed: u64,
}

/// What makes the run of a seed again. It fails because what is observed is bad, with these words.
type Again<'p, V> = Box<dyn FnMut(u64, &dyn Fn(&V) -> bool, &str) -> ScheduleError + 'p>;

/// What was observed in runs. As text it is a table.
pub struct Outcomes<'p, V> {
    rows: Vec<Outcome<V>>,
    seen: Explored,
    again: Again<'p, V>,
}

impl<V: fmt::Debug> Outcomes<'_, V> {
    /// Each value, the most frequent first.
    pub fn rows(&self) -> &[Outcome<V>] {
        &self.rows
    }

    /// How many runs there were, and how much was seen in them.
    pub fn seen(&self) -> Explored {
        self.seen
    }

    /// In how many runs such a value came.
    pub fn count(&self, is: impl Fn(&V) -> bool) -> u64 {
        self.rows.iter().filter(|row| is(&row.value)).map(|row| row.runs).sum()
    }

    /// An error if such a value came: that of the run of its first seed, cut down.
    pub fn never(&mut self, is: impl Fn(&V) -> bool) -> Result<&mut Self, ScheduleError> {
        self.none("never", &is)
    }

    /// An error if another value came: that of the run of its first seed, cut down.
    pub fn always(&mut self, is: impl Fn(&V) -> bool) -> Result<&mut Self, ScheduleError> {
        self.none("not always", &|value: &V| !is(value))
    }

    /// An error if no such value came. It has the table, and no run.
    pub fn sometimes(&mut self, is: impl Fn(&V) -> bool) -> Result<&mut Self, ScheduleError> {
        match self.count(is) {
            0 => Err(ScheduleError::of(ScheduleFault::NeverCame(self.to_string()))),
            _ => Ok(self),
        }
    }

    fn none(&mut self, word: &str, bad: &dyn Fn(&V) -> bool) -> Result<&mut Self, ScheduleError> {
        let those = || self.rows.iter().filter(|row| bad(&row.value));
        let first = those().min_by_key(|row| row.seed).map(|row| (row.seed, format!("{word} {:?}", row.value)));
        let runs: u64 = those().map(|row| row.runs).sum();
        match first {
            None => Ok(self),
            Some((seed, words)) => {
                let (runs, all) = (grouped(runs), grouped(self.seen.runs));
                Err((self.again)(seed, bad, &format!("{words}: {runs} of {all} runs break it")))
            }
        }
    }
}

impl<V: fmt::Debug> fmt::Display for Outcomes<'_, V> {
    fn fmt(&self, f: &mut fmt::Formatter<'_>) -> fmt::Result {
        let width = self.rows.iter().map(|row| grouped(row.runs).len()).max().unwrap_or(0);
        for Outcome { value, runs, seed } in &self.rows {
            writeln!(f, "{:>width$} times, first by seed {seed}: {value:?}", grouped(*runs))?;
        }
        write!(f, "{}", self.seen)
    }
}

impl<V: fmt::Debug> fmt::Debug for Outcomes<'_, V> {
    fn fmt(&self, f: &mut fmt::Formatter<'_>) -> fmt::Result {
        write!(f, "\n{self}")
    }
}

/// Runs functions as [`explore`](crate::explore()) does, and counts what is observed after each run. The plan need have
/// no check; if it has one, a run that fails it is an error. `observe` may read the tree, but not change it.
///
/// ```
/// // Two threads add one to a counter in a file: read, add, write.
/// let mut found = atomfs::outcomes(
///     1..500,
///     |plan| {
///         plan.before(|tree| tree.write_file("/n", "0").unwrap());
///         for name in ["a", "b"] {
///             plan.thread(name, |tree| {
///                 let n: u32 = String::from_utf8(tree.read("/n", 0, 10)?).unwrap().parse().unwrap();
///                 tree.write("/n", 0, (n + 1).to_string())
///             });
///         }
///     },
///     |tree, _| String::from_utf8(tree.read_to_end("/n").unwrap()).unwrap(),
/// )?;
/// println!("{found}");
/// found.never(|n| n == "0")?.sometimes(|n| n == "2")?;
/// let lost = found.never(|n| n == "1").unwrap_err();
/// assert!(lost.to_string().contains(": never \"1\": "));
/// # Ok::<(), atomfs::ScheduleError>(())
/// ```
pub fn outcomes<'p, R: Send + 'static, V: Ord + fmt::Debug + 'p>(
    seeds: Range<u64>,
    mut plan: impl FnMut(&mut Plan<'p, R>) + 'p,
    observe: impl FnMut(&mut Tree, &Replies<R>) -> V + 'p,
) -> Result<Outcomes<'p, V>, ScheduleError> {
    let (observe, observed) = (Rc::new(RefCell::new(observe)), Rc::new(RefCell::new(None)));
    let came = Rc::clone(&observed);
    let mut made = move |one: &mut Plan<'p, R>| {
        plan(one);
        let (observe, observed) = (Rc::clone(&observe), Rc::clone(&observed));
        one.observed(move |tree, replies| {
            let value = (observe.borrow_mut())(tree, replies);
            *observed.borrow_mut() = Some(value);
        });
    };
    let mut player = Player::of(&mut made);
    let drawn = player.drawn(&seeds)?;
    let bar = Bar::of(seeds.end - seeds.start);
    let (mut look, mut rows) = (Look::new(), BTreeMap::new());
    for seed in seeds.clone() {
        let ran = player.run_of(&drawn, seed)?;
        let value = match (&ran.fault, came.borrow_mut().take()) {
            (None, Some(value)) => value,
            _ => {
                drop(bar);
                return Err(player.cut_down(ran, seed));
            }
        };
        let number = rows.len();
        let (number, row) = rows.entry(value).or_insert((number, (0, seed)));
        row.0 += 1;
        look.add(seed, *number, ran.meetings());
        bar.add();
    }
    drop(bar);
    let row = |(value, (_, (runs, seed)))| Outcome { value, runs, seed };
    let mut rows: Vec<Outcome<V>> = rows.into_iter().map(row).collect();
    rows.sort_by_key(|row| (u64::MAX - row.runs, row.seed));
    let again = move |seed, bad: &dyn Fn(&V) -> bool, words: &str| {
        let judge = || came.borrow_mut().take().filter(bad).map(|_| words.to_owned());
        let mut player = Player { judge: Some(&judge), ..Player::of(&mut made) };
        match player.run_of(&drawn, seed) {
            Err(error) => error,
            Ok(ran) if ran.fault.is_some() => player.cut_down(ran, seed),
            Ok(_) => ScheduleError::none(format!(
                "seed {seed} comes to another outcome now: something besides the tree and the seed decides it"
            )),
        }
    };
    Ok(Outcomes { rows, seen: look.seen(&seeds), again: Box::new(again) })
}
