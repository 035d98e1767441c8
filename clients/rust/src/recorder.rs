//! Reports what replicas do, in the user's own names.

use std::fmt::Debug;
use std::panic::Location;
use std::sync::{Mutex, MutexGuard, PoisonError};

use crate::numbers::Key;
use crate::pipe::Pipe;
use crate::reports::{Reports, Seen, Sink};
use crate::translation::Translator;
use crate::{program, Error, Kind, Operation, Options, Report, Value};

/// A reporter for replicas with names, values, messages' keys and identifiers of any type that is [`Key`].
///
/// The replicas are given in the order in which the type breaks ties, lowest first. Many threads may share a recorder.
/// Each call is one step. [`step`](Recorder::step) makes one step of an act and its reports, so that no other thread's
/// step is between them.
///
/// ```
/// use yehatu::{Kind, Operation, Recorder, Value};
///
/// # fn main() -> Result<(), yehatu::Error> {
/// let recorder: Recorder<&str, &str, &str> = Recorder::new(Kind::OrSet, ["Ann's phone", "Bob's laptop"])?;
/// let mut phone = std::collections::BTreeSet::new();
/// recorder.step(|reports| {
///     phone.insert("milk");
///     reports.update(&"Ann's phone", &Operation::add("milk"), "m1")
/// })?;
/// recorder.deliver(&"Bob's laptop", &"m1")?;
/// recorder.read(&"Bob's laptop", &Value::Elements(vec!["milk"]))?;
/// assert!(recorder.close()?.is_linearizable);
/// # Ok(())
/// # }
/// ```
///
/// The first report that fails is returned as an error by its call or, within the window of [`Options::window`], by a
/// later one, and then by each call. A recorder that is dropped without [`close`](Recorder::close) or
/// [`stop`](Recorder::stop) panics, since its last reports were not checked ([`Options::must_close`]).
#[must_use]
pub struct Recorder<N: Key, V: Key = u64, M: Key = u64, I: Key = u64> {
    reports: Mutex<Reports<N, V, M, I>>,
    created: &'static Location<'static>,
    is_open: bool,
}

impl<N: Key, V: Key, M: Key, I: Key> Recorder<N, V, M, I> {
    /// Starts the program on a history with these initial replicas.
    ///
    /// # Errors
    /// [`Error::NotRepresentable`] unless there are 1 to 64 distinct replicas, [`Error::MonitorExited`] if the program
    /// cannot be started.
    #[track_caller]
    pub fn new(kind: Kind, replicas: impl IntoIterator<Item = N>) -> Result<Self, Error> {
        Recorder::with_options(kind, replicas, &Options::default())
    }

    /// Does the same with these options.
    ///
    /// # Errors
    /// As [`Recorder::new`].
    #[track_caller]
    pub fn with_options(
        kind: Kind,
        replicas: impl IntoIterator<Item = N>,
        options: &Options,
    ) -> Result<Self, Error> {
        let created = Location::caller();
        let translator = Translator::new(kind, replicas.into_iter().collect())?;
        let program = program::find(options.program.as_deref())?;
        let pipe = Pipe::start(&program, &translator.header(), options.window)?;
        let reports = Mutex::new(Reports::new(translator, Sink::Pipe(pipe), options.history.clone()));
        Ok(Recorder { reports, created, is_open: options.must_close })
    }

    /// Runs an act and its reports as one step, and returns the result of the act.
    ///
    /// The act must not wait for another replica, nor call the recorder itself.
    pub fn step<T>(&self, act: impl FnOnce(&mut Reports<N, V, M, I>) -> T) -> T {
        act(&mut self.lock())
    }

    /// Reports an update of this replica. `message` is the key that its deliveries name.
    ///
    /// # Errors
    /// As [`Reports::update`].
    pub fn update(
        &self,
        replica: &N,
        operation: &Operation<V, I>,
        message: impl Into<Option<M>>,
    ) -> Result<(), Error> {
        self.lock().update(replica, operation, message)
    }

    /// Reports that the replica applies the message of this key. A repeated delivery is not reported.
    ///
    /// # Errors
    /// As [`Reports::update`].
    pub fn deliver(&self, replica: &N, message: &M) -> Result<(), Error> {
        self.lock().deliver(replica, message)
    }

    /// Reports that the replica merges a state, given by what its replica had [`seen`](Recorder::seen) by then.
    ///
    /// # Errors
    /// As [`Reports::update`].
    pub fn merge(&self, replica: &N, state: &Seen<N>) -> Result<(), Error> {
        self.lock().merge(replica, state)
    }

    /// Reports that a new replica joins with a copy of the source's state. It is the last one in the order of ties.
    ///
    /// # Errors
    /// As [`Reports::join`].
    pub fn join(&self, replica: N, source: &N) -> Result<(), Error> {
        self.lock().join(replica, source)
    }

    /// Reports a read with this result.
    ///
    /// # Errors
    /// As [`Reports::update`].
    pub fn read(&self, replica: &N, value: &Value<V>) -> Result<(), Error> {
        self.lock().read(replica, value)
    }

    /// Reports a read of a part of a list: these elements are shown in this order, perhaps with others between.
    ///
    /// # Errors
    /// As [`Reports::part`].
    pub fn part(&self, replica: &N, elements: &[V]) -> Result<(), Error> {
        self.lock().part(replica, elements)
    }

    /// Returns the updates that were delivered to the replica so far, for a [`merge`](Recorder::merge) of its current
    /// state.
    ///
    /// # Errors
    /// [`Error::NotRepresentable`] if there is no such replica.
    pub fn seen(&self, replica: &N) -> Result<Seen<N>, Error> {
        self.lock().seen(replica)
    }

    /// Waits for all replies.
    ///
    /// # Errors
    /// As [`Reports::update`].
    pub fn settle(&self) -> Result<(), Error> {
        let mut reports = self.lock();
        let settled = match &reports.sink {
            Sink::Pipe(pipe) => pipe.settle(),
            Sink::Transcript(_) => Ok(()),
        };
        reports.accepted(settled)
    }

    /// Returns the text so far, which `ra_monitor check` reads.
    #[must_use]
    pub fn history(&self) -> String {
        self.lock().history()
    }

    /// Ends the history, waits for the program and returns its report.
    ///
    /// # Errors
    /// As [`Reports::update`]. An [`Error::NotRepresentable`] that was returned before is returned again, since no
    /// later step was checked.
    pub fn close(mut self) -> Result<Report, Error> {
        self.is_open = false;
        let mut reports = self.lock();
        let closed = match &mut reports.sink {
            Sink::Pipe(pipe) => pipe.close(),
            Sink::Transcript(_) => Ok(Vec::new()),
        };
        let lines = reports.accepted(closed)?;
        Report::of_closing_lines(&lines)
    }

    /// Ends the history without waiting for replies.
    pub fn stop(mut self) {
        self.is_open = false;
    }

    /// Locks, also after an act has panicked: no report of it was begun.
    fn lock(&self) -> MutexGuard<'_, Reports<N, V, M, I>> {
        self.reports.lock().unwrap_or_else(PoisonError::into_inner)
    }
}

impl<N: Key, V: Key, M: Key, I: Key> Drop for Recorder<N, V, M, I> {
    fn drop(&mut self) {
        let mut reports = self.lock();
        if let Sink::Pipe(pipe) = &mut reports.sink {
            pipe.stop();
        }
        let has_failed = reports.failure().is_some();
        drop(reports);
        assert!(
            !self.is_open || has_failed || std::thread::panicking(),
            "the Recorder that was created at {} was not closed, so its last reports were not checked: call close() or \
             stop(), or use Options::must_close",
            self.created
        );
    }
}

impl<N: Key, V: Key, M: Key, I: Key> Debug for Recorder<N, V, M, I> {
    fn fmt(&self, out: &mut std::fmt::Formatter<'_>) -> std::fmt::Result {
        self.lock().fmt(out)
    }
}
