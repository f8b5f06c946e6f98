//! Threads of which one goes at a time, and their ways into the tree.

use std::cell::{Cell, RefCell};
use std::collections::BTreeMap;
use std::panic::{self, Location};
use std::sync::{Arc, Condvar, Mutex, MutexGuard, Once, PoisonError};
use std::thread;

use crate::call::{Call, Did, Reply, Seat};
use crate::draws::Chooser;
use crate::error::{Error, ErrorKind};
use crate::explore::place_of;
use crate::file::{File, OpenOptions};
use crate::limits::Limits;
use crate::methods::methods;
use crate::path::AsPath;
use crate::tree::Tree;
use crate::whole::{self, Calls};

/// By this a function ends whose run is over.
pub(crate) struct Stopped;

/// An event of a run: the begin of a call, or a step of it.
#[derive(Clone, Copy, Debug)]
pub(crate) struct Event {
    pub(crate) thread: usize,
    pub(crate) call: u64,
    /// Which of the twelve calls it is, as a number.
    pub(crate) kind: u8,
    did: Option<Did>,
    at: &'static Location<'static>,
}

impl Event {
    pub(crate) fn is_begin(&self) -> bool {
        self.did.is_none()
    }

    /// Whether the call is pending no more.
    pub(crate) fn is_end(&self) -> bool {
        matches!(self.did, Some(Did::Returned | Did::Idle))
    }

    /// The line of the source that made the call.
    pub(crate) fn at(&self) -> &'static Location<'static> {
        self.at
    }

    /// The event as a line of a trace, with calls as they are spelled.
    pub(crate) fn line(&self, names: &[String], spelled: &BTreeMap<u64, String>) -> String {
        let call = |number: &u64| spelled.get(number).cloned().unwrap_or_else(|| format!("call {number}"));
        let did = match &self.did {
            None | Some(Did::Began(_)) => "begins".to_owned(),
            Some(Did::Took(node)) => format!("locks node {node}"),
            Some(Did::WaitsFor(number)) => format!("waits for {}", call(number)),
            Some(Did::LetGo(node)) => format!("unlocks node {node}"),
            Some(Did::Helped(number)) => format!("helps {}", call(number)),
            Some(Did::Committed) => "commits".to_owned(),
            Some(Did::CarriedOut) => "makes its change, since it was helped".to_owned(),
            Some(Did::Returned) => "returns".to_owned(),
            Some(Did::Idle) => "is idle".to_owned(),
        };
        format!("{}  {}  {}: {did}", names[self.thread], place_of(self.at), call(&self.call))
    }
}

/// What goes from thread to thread.
struct State {
    /// None once the run is over.
    tree: Option<Tree>,
    chooser: Chooser,
    /// Which threads have come to their first event, which have ended, and which wait for a node.
    has_come: Vec<bool>,
    has_ended: Vec<bool>,
    waits: Vec<bool>,
    turn: Option<usize>,
    is_stopped: bool,
    most: u64,
    /// Which threads have a pending call.
    pending: Vec<bool>,
    /// Whose turn it was before each event; of each turn, whether the thread of the one before had a pending call.
    order: Vec<usize>,
    half_way: Vec<bool>,
    events: Vec<Event>,
}

impl State {
    /// Draws whose turn it is next, once each thread has come to its first event. A thread that waits for a node has a
    /// turn only if no other one can go on. Then its step says again that it waits.
    fn draw(&mut self, yielding: Option<usize>) {
        let live: Vec<usize> = (0..self.has_come.len()).filter(|at| !self.has_ended[*at]).collect();
        if live.is_empty() || !live.iter().all(|at| self.has_come[*at]) {
            self.turn = None;
            return;
        }
        let able: Vec<usize> = live.iter().copied().filter(|at| !self.waits[*at]).collect();
        let next = self.chooser.choose(if able.is_empty() { &live } else { &able }, yielding);
        self.is_stopped |= self.order.len() as u64 >= self.most;
        self.half_way.push(self.order.last().map_or(false, |last| self.pending[*last]));
        self.order.push(next);
        self.turn = Some(next);
    }

    /// Notes an event, and whether the call is pending after it.
    fn note(&mut self, event: Event, pending: bool) {
        // What is done before the threads start has none of their places.
        if let Some(of_thread) = self.pending.get_mut(event.thread) {
            *of_thread = pending;
        }
        self.events.push(event);
    }
}

/// What hands the turn on.
pub(crate) struct Baton {
    state: Mutex<State>,
    turns: Vec<Condvar>,
}

type Held<'b> = MutexGuard<'b, State>;

impl Baton {
    /// With a tree for so many threads, a seat for each, and last that of the tree's own calls, which is its first.
    pub(crate) fn new(
        mut tree: Tree,
        threads: usize,
        most: u64,
        chooser: Chooser,
    ) -> Result<(Arc<Baton>, Vec<Seat>), Error> {
        let mut seats = (0..threads).map(|_| tree.seat()).collect::<Result<Vec<_>, _>>()?;
        seats.push(tree.seat_of_own()?);
        let state = State {
            tree: Some(tree),
            chooser,
            has_come: vec![false; threads],
            has_ended: vec![false; threads],
            waits: vec![false; threads],
            turn: None,
            is_stopped: false,
            most,
            pending: vec![false; threads],
            order: Vec::new(),
            half_way: Vec::new(),
            events: Vec::new(),
        };
        let turns = (0..threads).map(|_| Condvar::new()).collect();
        Ok((Arc::new(Baton { state: Mutex::new(state), turns }), seats))
    }

    fn held(&self) -> Held<'_> {
        self.state.lock().unwrap_or_else(PoisonError::into_inner)
    }

    fn wake(&self, state: &State) {
        if state.is_stopped {
            self.turns.iter().for_each(Condvar::notify_one);
        } else if let Some(next) = state.turn {
            self.turns[next].notify_one();
        }
    }

    /// Waits for the turn of a thread. If the thread has the turn it hands it on, to another one if it yields and one
    /// can go on. If the run is over the function ends here.
    fn turn(&self, me: usize, yields: bool) -> Result<Held<'_>, Error> {
        let mut state = self.held();
        state.has_come[me] = true;
        if state.turn == Some(me) || state.turn.is_none() {
            state.draw(Some(me).filter(|_| yields));
            self.wake(&state);
        }
        while state.turn != Some(me) && !state.is_stopped {
            state = self.turns[me].wait(state).unwrap_or_else(PoisonError::into_inner);
        }
        if state.is_stopped {
            drop(state);
            return Err(over());
        }
        Ok(state)
    }

    /// The function of a thread has ended.
    pub(crate) fn ended(&self, me: usize) {
        let mut state = self.held();
        state.has_ended[me] = true;
        state.waits.fill(false);
        if state.turn == Some(me) || state.turn.is_none() {
            state.draw(None);
        }
        self.wake(&state);
    }

    /// The run is over: each function ends at its next event.
    pub(crate) fn stop(&self) {
        let mut state = self.held();
        state.is_stopped = true;
        self.wake(&state);
    }

    /// How many events there were.
    pub(crate) fn events(&self) -> usize {
        self.held().order.len()
    }

    /// How many events there were before the threads started.
    pub(crate) fn prepared(&self) -> usize {
        self.held().events.len()
    }

    pub(crate) fn turn_of(&self) -> Option<usize> {
        self.held().turn
    }

    /// Whether there were as many events as there may be.
    pub(crate) fn is_spent(&self) -> bool {
        let state = self.held();
        state.order.len() as u64 > state.most
    }

    /// What is left of the run.
    pub(crate) fn taken(&self) -> Result<Taken, Error> {
        let mut state = self.held();
        let tree = match state.tree.take() {
            Some(tree) => tree,
            None => Tree::new()?,
        };
        let most = usize::try_from(state.most).unwrap_or(usize::MAX);
        let (mut order, mut half_way) = (std::mem::take(&mut state.order), std::mem::take(&mut state.half_way));
        order.truncate(most);
        half_way.truncate(most);
        Ok(Taken { order, half_way, events: std::mem::take(&mut state.events), tree })
    }
}

/// What is left of a run.
pub(crate) struct Taken {
    pub(crate) order: Vec<usize>,
    pub(crate) half_way: Vec<bool>,
    pub(crate) events: Vec<Event>,
    pub(crate) tree: Tree,
}

/// A thread's way into the tree of a run. [`explore`](crate::explore()) decides before each begin and each step of a
/// call which thread is next.
///
/// When another thread fails, the run is over, and this thread ends by a panic at its next call. Calls that its values
/// make while they are dropped are refused with `ErrorKind::NoSeat`.
pub struct ThreadTree {
    baton: Arc<Baton>,
    /// None of what is done before.
    me: Option<usize>,
    seat: Seat,
    limits: Limits,
    at: &'static Location<'static>,
}

impl ThreadTree {
    pub(crate) fn of(baton: &Arc<Baton>, me: usize, seat: Seat) -> ThreadTree {
        ThreadTree { me: Some(me), ..ThreadTree::alone(baton, seat) }
    }

    /// The way of what is done before the threads start.
    pub(crate) fn alone(baton: &Arc<Baton>, seat: Seat) -> ThreadTree {
        let limits = baton.held().tree.as_ref().map_or_else(Limits::default, Tree::limits);
        ThreadTree { baton: Arc::clone(baton), me: None, seat, limits, at: Location::caller() }
    }

    /// The line that makes the calls that follow.
    fn stands_at(&mut self, at: &'static Location<'static>) {
        self.at = at;
    }

    fn turn_to_go(&self) -> Result<Held<'_>, Error> {
        match self.me {
            Some(me) => self.baton.turn(me, false),
            None => Ok(self.baton.held()),
        }
    }

    /// Lets another thread go on. Call it in a loop that waits for what another thread does.
    pub fn turn(&mut self) {
        if let Some(me) = self.me {
            drop(self.baton.turn(me, true));
        }
    }

    /// Opens a file to read it from its start. [`OpenOptions`] open it for more.
    #[track_caller]
    pub fn open(&mut self, path: impl AsPath) -> Result<File<&mut ThreadTree>, Error> {
        self.at = Location::caller();
        OpenOptions::new().read(true).open(self, path)
    }

    /// Opens a file to write it from its start. A new file is made, and one that exists is emptied.
    #[track_caller]
    pub fn create(&mut self, path: impl AsPath) -> Result<File<&mut ThreadTree>, Error> {
        self.at = Location::caller();
        whole::created().open(self, path)
    }
}

methods!(ThreadTree, ": calls of other threads can come between its calls.");

/// The place of a thread in the events; what was done before the threads has the place after theirs.
fn place(me: Option<usize>, state: &State) -> usize {
    me.unwrap_or(state.has_come.len())
}

/// The run is over, so the function ends by a panic. If it unwinds already, a second panic would end the process: then
/// what its values call while they are dropped is refused.
fn over() -> Error {
    if !thread::panicking() {
        panic::resume_unwind(Box::new(Stopped));
    }
    ErrorKind::NoSeat.into()
}

impl Calls for ThreadTree {
    fn call(&mut self, call: &Call) -> Result<Reply, Error> {
        let (me, seat, at, kind) = (self.me, self.seat, self.at, call.request().call);
        let mut state = self.turn_to_go()?;
        let thread = place(me, &state);
        let number = match state.tree.as_mut().map(|tree| tree.begin(seat, call)) {
            Some(begun) => begun?,
            None => {
                drop(state);
                return Err(over());
            }
        };
        state.note(Event { thread, call: number, kind, did: None, at }, true);
        loop {
            drop(state);
            state = self.turn_to_go()?;
            let did = match state.tree.as_mut().map(|tree| tree.step(seat)) {
                Some(did) => did?,
                None => {
                    drop(state);
                    return Err(over());
                }
            };
            let event = Event { thread, call: number, kind, did: Some(did), at };
            let is_end = event.is_end();
            state.note(event, !is_end);
            match did {
                Did::WaitsFor(_) => state.waits[thread] = true,
                Did::LetGo(_) => state.waits.fill(false),
                Did::Returned | Did::Idle => {
                    state.waits.fill(false);
                    return match state.tree.as_mut() {
                        Some(tree) => tree.reply(seat),
                        None => Err(over()),
                    };
                }
                _ => {}
            }
        }
    }

    fn limits(&mut self) -> Limits {
        self.limits
    }
}

thread_local! {
    static QUIET: Cell<bool> = const { Cell::new(false) };
    static PLACE: RefCell<Option<String>> = const { RefCell::new(None) };
}

/// Does something without the words of a panic on standard error, since the error of the run has them.
pub(crate) fn quietly<T>(function: impl FnOnce() -> T) -> T {
    static HOOK: Once = Once::new();
    HOOK.call_once(|| {
        let before = panic::take_hook();
        panic::set_hook(Box::new(move |info| {
            if QUIET.with(Cell::get) {
                PLACE.with(|place| *place.borrow_mut() = info.location().map(place_of));
            } else {
                before(info);
            }
        }));
    });
    let was = QUIET.with(|quiet| quiet.replace(true));
    let came = function();
    QUIET.with(|quiet| quiet.set(was));
    came
}

/// The line of the last panic of this thread that was not shown.
pub(crate) fn place_of_panic() -> Option<String> {
    PLACE.with(|place| place.borrow_mut().take())
}
