//! The replicas of one run: executes steps on the user's type, and reports them.

use std::cell::Cell;
use std::collections::{BTreeMap, HashMap};
use std::panic::{self, AssertUnwindSafe};
use std::rc::Rc;
use std::sync::Once;

use super::delivery_state::DeliveryState;
use super::options::{Delivery, Profile};
use super::replica::{Replica, Sent, Update};
use super::steps::{initial_replicas, Action, Step};
use crate::reports::{text_of, Reports, Seen, Sink};
use crate::translation::{expected_result, Translator};
use crate::{Error, Kind, Method, Operation, Value};

/// The reports of a random run: replicas by name, values and messages by number, identifiers as texts.
pub(crate) type RunReports = Reports<String, u64, usize, String>;

/// The index of each update of a list, by the update's number.
pub(crate) type Indexes = BTreeMap<usize, usize>;

/// A failure of the replica itself: the stored cause, and what the replica did, behind its call.
#[derive(Clone, Debug)]
pub(crate) struct Raised {
    pub(crate) cause: Vec<String>,
    pub(crate) outcome: String,
}

/// Why a step was not executed.
enum Stop {
    Raised(Raised),
    Error(Error),
}

impl From<Error> for Stop {
    fn from(error: Error) -> Self {
        Stop::Error(error)
    }
}

/// A state that was taken early, with its replica and what was in it.
struct Early<S> {
    state: Rc<S>,
    replica: usize,
    seen: Seen<String>,
    counts: Vec<usize>,
}

/// What a replica received.
enum Received<S> {
    Message(usize),
    State(Rc<S>),
}

/// What a replica stored, and what it received since then.
struct Saved<S> {
    state: S,
    moment: String,
    received: Vec<Received<S>>,
}

/// The steps of a run that were executed, and the lines that report them.
pub(crate) struct Transcript {
    pub(crate) reports: RunReports,
    pub(crate) executed: Vec<Step>,
    /// The index of each update of a list.
    pub(crate) indexes: Indexes,
    /// For each executed step, the number of lines after it.
    line_counts: Vec<usize>,
}

impl Transcript {
    fn lines(&self) -> &[String] {
        match &self.reports.sink {
            Sink::Transcript(lines) => lines,
            Sink::Pipe(_) => &[],
        }
    }

    /// Returns the history, or the header with this number of commands.
    pub(crate) fn text(&self, commands: Option<usize>) -> String {
        let lines = self.lines();
        text_of(&self.reports.header(), &lines[..commands.unwrap_or(lines.len()).min(lines.len())])
    }

    /// Returns the steps up to the one that reported the command with this number.
    pub(crate) fn steps_to(&self, command: usize) -> &[Step] {
        let last = self.line_counts.iter().position(|it| *it > command);
        last.map_or(&self.executed[..], |it| &self.executed[..=it])
    }
}

/// The replicas of one run.
pub(crate) struct Driver<'a, R: Replica> {
    names: &'a [String],
    profile: Profile,
    replicas: BTreeMap<usize, R>,
    state: DeliveryState,
    messages: HashMap<usize, R::Message>,
    early: HashMap<usize, Early<R::State>>,
    saved: HashMap<usize, Saved<R::State>>,
    /// The step that is being executed, or the read that is reported in its place.
    current: Step,
    transcript: Transcript,
}

/// Executes the steps up to the first failure of the user's type, and returns it with what was executed.
///
/// Steps that depend on a removed step are skipped.
pub(crate) fn execute<R: Replica>(
    names: &[String],
    profile: Profile,
    steps: &[Step],
) -> Result<(Transcript, Option<Raised>), Error> {
    let initial = initial_replicas(steps);
    let keys: Vec<String> = initial.iter().map(|it| names[*it].clone()).collect();
    let sink = Sink::Transcript(Vec::new());
    let reports = Reports::new(Translator::new(R::KIND, keys)?, sink, None);
    let mut driver: Driver<'_, R> = Driver {
        names,
        profile,
        replicas: BTreeMap::new(),
        state: DeliveryState::new(Some(R::KIND), names.len()),
        messages: HashMap::new(),
        early: HashMap::new(),
        saved: HashMap::new(),
        current: Step::new(Action::Read, 0, 0),
        transcript: Transcript { reports, executed: Vec::new(), indexes: Indexes::new(), line_counts: Vec::new() },
    };
    let raised = match driver.run(&initial, steps) {
        Ok(()) => None,
        Err(Stop::Raised(it)) => Some(it),
        Err(Stop::Error(it)) => return Err(it),
    };
    Ok((driver.transcript, raised))
}

impl<R: Replica> Driver<'_, R> {
    fn run(&mut self, initial: &[usize], steps: &[Step]) -> Result<(), Stop> {
        for replica in initial {
            let name = &self.names[*replica];
            let created = guarded(|| R::create(name)).map_err(Stop::Raised)?;
            self.replicas.insert(*replica, created);
            self.save_state(*replica)?;
        }
        for step in steps {
            if self.replicas.contains_key(&step.replica) == (step.action == Action::Join) {
                continue;
            }
            self.current = step.clone();
            match self.execute(step) {
                Ok(false) => {}
                Ok(true) => {
                    self.transcript.executed.push(self.current.clone());
                    let lines = self.transcript.lines().len();
                    self.transcript.line_counts.push(lines);
                }
                Err(stop) => {
                    self.transcript.executed.push(self.current.clone());
                    return Err(stop);
                }
            }
        }
        Ok(())
    }

    /// Executes a step, and returns whether it could be executed.
    fn execute(&mut self, step: &Step) -> Result<bool, Stop> {
        match step.action {
            Action::Update => self.update(step),
            Action::Deliver => self.deliver(step),
            Action::Duplicate => self.duplicate(step),
            Action::Merge => self.merge(step),
            Action::Snapshot => self.snapshot(step),
            Action::MergeSnapshot => self.merge_snapshot(step),
            Action::Save => self.save_state(step.replica).map(|()| true),
            Action::Restart => self.restart(step),
            Action::Join => self.join(step),
            Action::Read => self.read(step),
        }
    }

    fn name(&self, replica: usize) -> String {
        self.names[replica].clone()
    }

    fn update(&mut self, step: &Step) -> Result<bool, Stop> {
        if !self.state.can_update(step) {
            return Ok(false);
        }
        let mut right = None;
        if R::KIND == Kind::List {
            let place = match self.shown_list(step.replica)? {
                Some(shown) => place_of(step, &shown),
                None => return Ok(true),
            };
            self.transcript.indexes.extend(place.map(|it| (step.number, it.0)));
            right = place.and_then(|it| it.1);
        }
        let update = match update_of(step, &self.transcript.indexes) {
            Some(it) => it,
            None => return Ok(false),
        };
        let sent = self.call(step.replica, |it| it.update(update))?;
        let name = self.name(step.replica);
        let operations = match (R::KIND, &step.arguments[..]) {
            (Kind::List, [left, Some(element)]) => vec![Operation::insert(*left, *element, right)],
            (Kind::List, [Some(element)]) => vec![Operation::delete(*element)],
            _ => operations_of(R::KIND, update, &sent)?,
        };
        self.transcript.reports.compose(&name, &operations, step.number)?;
        self.messages.insert(step.number, sent.message);
        self.state.update(step);
        self.save_state(step.replica)?;
        Ok(true)
    }

    /// Returns the list that the replica shows before an update.
    ///
    /// A list with other elements than those that were delivered is reported as a read, in the place of the update. The
    /// result is `None` then.
    fn shown_list(&mut self, replica: usize) -> Result<Option<Vec<u64>>, Stop> {
        let value = self.call(replica, |it| it.read())?;
        let expected = &self.state.visible[replica];
        if let Value::Elements(shown) = &value {
            if shown.len() == expected.len() && expected.iter().all(|it| shown.contains(it)) {
                return Ok(Some(shown.clone()));
            }
        }
        self.current = Step::new(Action::Read, replica, 0);
        self.report_read(replica, &value)?;
        Ok(None)
    }

    fn deliver(&mut self, step: &Step) -> Result<bool, Stop> {
        let (replica, number) = (step.replica, step.number);
        let name = self.name(replica);
        if self.profile.delivery == Delivery::Causal {
            if !self.state.can_deliver(replica, number) {
                return Ok(false);
            }
            self.hand(replica, Received::Message(number))?;
            self.transcript.reports.deliver(&name, &number)?;
            self.state.deliver(replica, number);
            return Ok(true);
        }
        if !self.state.can_arrive(replica, number) {
            return Ok(false);
        }
        if let Some(cause) = self.state.missing_cause(replica, number) {
            self.note(replica, &format!("receives message {number} before message {cause}, on which it depends"));
        }
        self.hand(replica, Received::Message(number))?;
        for it in self.state.arrive(replica, number) {
            self.transcript.reports.deliver(&name, &it)?;
        }
        Ok(true)
    }

    fn duplicate(&mut self, step: &Step) -> Result<bool, Stop> {
        if !self.state.can_repeat(step.replica, step.number) {
            return Ok(false);
        }
        self.note(step.replica, &format!("receives message {} again", step.number));
        self.apply(step.replica, &Received::Message(step.number))?;
        Ok(true)
    }

    fn merge(&mut self, step: &Step) -> Result<bool, Stop> {
        let sender = step.number;
        if step.replica == sender || !self.replicas.contains_key(&sender) {
            return Ok(false);
        }
        let state = self.state_of(sender)?;
        self.hand(step.replica, Received::State(Rc::new(state)))?;
        let seen = self.transcript.reports.seen(&self.name(sender))?;
        self.transcript.reports.merge(&self.name(step.replica), &seen)?;
        let counts = self.state.counts(sender);
        self.state.merge(step.replica, &counts);
        Ok(true)
    }

    fn snapshot(&mut self, step: &Step) -> Result<bool, Stop> {
        if self.early.contains_key(&step.number) {
            return Ok(false);
        }
        let state = Rc::new(self.state_of(step.replica)?);
        let mut seen = self.transcript.reports.seen(&self.name(step.replica))?;
        seen.moment = format!(" of step {}", self.transcript.executed.len() + 1);
        let counts = self.state.counts(step.replica);
        self.early.insert(step.number, Early { state, replica: step.replica, seen, counts });
        Ok(true)
    }

    fn merge_snapshot(&mut self, step: &Step) -> Result<bool, Stop> {
        let early = match self.early.get(&step.number) {
            Some(it) if it.replica != step.replica => it,
            _ => return Ok(false),
        };
        let (state, seen, counts) = (Rc::clone(&early.state), early.seen.clone(), early.counts.clone());
        self.hand(step.replica, Received::State(state))?;
        self.transcript.reports.merge(&self.name(step.replica), &seen)?;
        self.state.merge(step.replica, &counts);
        Ok(true)
    }

    fn restart(&mut self, step: &Step) -> Result<bool, Stop> {
        let (name, saved) = match self.saved.get(&step.replica) {
            Some(saved) => (self.name(step.replica), saved),
            None => return Ok(false),
        };
        let loaded = guarded(|| R::load(&name, &saved.state)).map_err(Stop::Raised)?;
        let (loaded, note) = match loaded {
            Some(it) => (it, format!("restarts from its state {}", saved.moment)),
            None => return Ok(false),
        };
        let received: Vec<Received<R::State>> = saved.received.iter().map(Received::again).collect();
        self.note(step.replica, &note);
        self.replicas.insert(step.replica, loaded);
        received.iter().try_for_each(|it| self.apply(step.replica, it))?;
        Ok(true)
    }

    fn join(&mut self, step: &Step) -> Result<bool, Stop> {
        let (name, source) = (self.name(step.replica), step.number);
        if !self.replicas.contains_key(&source) {
            return Ok(false);
        }
        let forked = match self.call(source, |it| it.fork(&name))? {
            Some(it) => it,
            None => return Ok(false),
        };
        self.replicas.insert(step.replica, forked);
        let source_name = self.name(source);
        self.transcript.reports.join(name, &source_name)?;
        self.state.join(step.replica, source);
        self.save_state(step.replica)?;
        Ok(true)
    }

    fn read(&mut self, step: &Step) -> Result<bool, Stop> {
        let value = self.call(step.replica, |it| it.read())?;
        self.report_read(step.replica, &value)?;
        Ok(true)
    }

    fn report_read(&mut self, replica: usize, value: &Value) -> Result<(), Stop> {
        let name = self.name(replica);
        self.transcript.reports.read(&name, value).map_err(|_| {
            Stop::Raised(Raised {
                cause: vec![String::from("returned"), String::from("Value")],
                outcome: format!("returned {value:?}: expected {}", expected_result(R::KIND)),
            })
        })
    }

    // Calls of the user's type.

    fn call<T>(&mut self, replica: usize, act: impl FnOnce(&mut R) -> T) -> Result<T, Stop> {
        match self.replicas.get_mut(&replica) {
            Some(it) => guarded(|| act(it)).map_err(Stop::Raised),
            None => Err(Stop::Error(Error::invalid(format!("there is no replica {replica}")))),
        }
    }

    fn state_of(&mut self, replica: usize) -> Result<R::State, Stop> {
        self.call(replica, |it| it.state())?.ok_or_else(|| {
            Stop::Error(Error::invalid("`state` returned None: a type that merges or restarts returns its state"))
        })
    }

    /// Hands a message or a state to the replica, which receives it again after a restart.
    fn hand(&mut self, replica: usize, received: Received<R::State>) -> Result<(), Stop> {
        self.apply(replica, &received)?;
        if let Some(it) = self.saved.get_mut(&replica) {
            it.received.push(received);
        }
        Ok(())
    }

    fn apply(&mut self, replica: usize, received: &Received<R::State>) -> Result<(), Stop> {
        let result = match (self.replicas.get_mut(&replica), received) {
            (Some(it), Received::State(state)) => guarded(|| it.merge(state)),
            (Some(it), Received::Message(number)) => match self.messages.get(number) {
                Some(message) => guarded(|| it.receive(message)),
                None => Ok(()),
            },
            (None, _) => Ok(()),
        };
        result.map_err(Stop::Raised)
    }

    fn save_state(&mut self, replica: usize) -> Result<(), Stop> {
        if !self.profile.restarts {
            return Ok(());
        }
        let step = self.transcript.executed.len() + 1;
        let moment = if step > 1 { format!("of step {step}") } else { String::from("at the beginning") };
        let state = self.state_of(replica)?;
        self.saved.insert(replica, Saved { state, moment, received: Vec::new() });
        Ok(())
    }

    fn note(&mut self, replica: usize, text: &str) {
        let note = format!("{:?} {text}", self.names[replica]);
        self.transcript.reports.note(note);
    }
}

impl<S> Received<S> {
    /// Returns the same once more. Deriving `Clone` would ask it of the state.
    fn again(&self) -> Self {
        match self {
            Received::Message(number) => Received::Message(*number),
            Received::State(state) => Received::State(Rc::clone(state)),
        }
    }
}

/// Returns the index of a list's update, and the element that the list shows behind an insertion.
fn place_of(step: &Step, shown: &[u64]) -> Option<(usize, Option<u64>)> {
    let place = |element: u64| shown.iter().position(|it| *it == element);
    match (step.method?, step.arguments.first()?) {
        (Method::Delete, Some(element)) => Some((place(*element)?, None)),
        (Method::Insert, left) => {
            let index = left.map_or(Some(0), |it| place(it).map(|before| before + 1))?;
            Some((index, shown.get(index).copied()))
        }
        _ => None,
    }
}

/// Returns the update of a step, or `None` if it has other arguments. Those of a list have an index.
pub(crate) fn update_of(step: &Step, indexes: &Indexes) -> Option<Update> {
    let index = indexes.get(&step.number).copied();
    match (step.method?, &step.arguments[..]) {
        (Method::Increment, []) => Some(Update::Increment(1)),
        (Method::Increment, [Some(by)]) => Some(Update::Increment(*by)),
        (Method::Decrement, []) => Some(Update::Decrement(1)),
        (Method::Decrement, [Some(by)]) => Some(Update::Decrement(*by)),
        (Method::Write, [Some(value)]) => Some(Update::Write(*value)),
        (Method::Add, [Some(element)]) => Some(Update::Add(*element)),
        (Method::Remove, [Some(element)]) => Some(Update::Remove(*element)),
        (Method::Insert, [_, Some(element)]) => Some(Update::Insert { index: index?, element: *element }),
        (Method::Delete, [_]) => Some(Update::Delete { index: index? }),
        (Method::InsertAfter, [anchor, Some(element)]) => {
            Some(Update::InsertAfter { anchor: *anchor, element: *element })
        }
        _ => None,
    }
}

/// Returns the operations of an update, with the clock or the identifiers of what it sent.
fn operations_of<M>(kind: Kind, update: Update, sent: &Sent<M>) -> Result<Vec<Operation<u64, String>>, Error> {
    let clock = || {
        sent.clock.ok_or_else(|| {
            Error::not_representable(format!(
                "{update:?} returned a message without a clock: expected Sent::new(message).clock(clock)"
            ))
        })
    };
    Ok(match (kind, update) {
        (_, Update::Increment(by)) => vec![Operation::Increment; usize::try_from(by).unwrap_or(usize::MAX)],
        (_, Update::Decrement(by)) => vec![Operation::Decrement; usize::try_from(by).unwrap_or(usize::MAX)],
        (_, Update::Write(value)) => vec![Operation::write(value, clock()?)],
        (_, Update::InsertAfter { anchor, element }) => vec![Operation::insert_after(anchor, element, clock()?)],
        (Kind::OrSet, Update::Add(element)) => {
            let identifier = sent.identifiers.as_ref().and_then(|it| it.first().cloned());
            vec![Operation::Add { element, identifier }]
        }
        (Kind::OrSet, Update::Remove(element)) => {
            vec![Operation::Remove { element, identifiers: sent.identifiers.clone() }]
        }
        (Kind::Rga, Update::Remove(element)) => vec![Operation::delete(element)],
        // The operations of a list name elements, which its updates do not.
        (_, Update::Insert { .. } | Update::Delete { .. }) => Vec::new(),
        (_, Update::Add(element)) => vec![Operation::add_at(element, clock()?)],
        (_, Update::Remove(element)) => vec![Operation::remove_at(element, clock()?)],
    })
}

thread_local! {
    /// Whether a panic of this thread is a result, of which the standard message would only be noise.
    static IS_QUIET: Cell<bool> = const { Cell::new(false) };
}

/// Runs code of the user's type, and returns its panic as a failure of the replica.
pub(crate) fn guarded<T>(act: impl FnOnce() -> T) -> Result<T, Raised> {
    static HOOK: Once = Once::new();
    HOOK.call_once(|| {
        let previous = panic::take_hook();
        panic::set_hook(Box::new(move |info| {
            if !IS_QUIET.with(Cell::get) {
                previous(info);
            }
        }));
    });
    let was_quiet = IS_QUIET.with(|it| it.replace(true));
    // After a panic the replica is not used any more, so it may be inconsistent.
    let result = panic::catch_unwind(AssertUnwindSafe(act));
    IS_QUIET.with(|it| it.set(was_quiet));
    result.map_err(|payload| {
        let text = payload.downcast_ref::<&str>().map(|it| (*it).to_string());
        let text = text.or_else(|| payload.downcast_ref::<String>().cloned());
        let outcome = text.map_or_else(|| String::from("panicked"), |it| format!("panicked: {it}"));
        Raised { cause: vec![String::from("raised"), String::from("panic")], outcome }
    })
}
