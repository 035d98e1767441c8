//! A monitor of one history whose values are numbers.

use std::collections::BTreeMap;
use std::fmt;

use crate::failure_report::{Describe, FailureReport};
use crate::numbers::{is_name, join_numbers, MAX_REPLICAS};
use crate::pipe::{Expected, Pipe, Stopped, Unexpected};
use crate::{program, Error, Kind, Options, Report};

/// The number of an accepted operation, counted from 0.
#[derive(Clone, Copy, Debug, PartialEq, Eq, PartialOrd, Ord, Hash)]
pub struct Label(u32);

impl Label {
    /// Returns the number.
    #[must_use]
    pub fn number(self) -> u32 {
        self.0
    }
}

impl fmt::Display for Label {
    fn fmt(&self, out: &mut fmt::Formatter<'_>) -> fmt::Result {
        fmt::Display::fmt(&self.0, out)
    }
}

/// A run of the program on one history, in which replicas have the names of the text format and values are numbers.
///
/// A [`Recorder`](crate::Recorder) takes names and values of any type instead. An operation returns before its reply
/// has arrived. The first reply that is no acceptance is returned as [`Error::Violation`] or [`Error::Refused`] by one
/// of the next calls, and by each call after that. With [`Options::window`] of 1 each call waits for its own reply.
///
/// ```
/// use yehatu::{Kind, Monitor};
///
/// # fn main() -> Result<(), yehatu::Error> {
/// let mut monitor = Monitor::new(Kind::Counter, &["a", "b"])?;
/// let label = monitor.increment("a")?;
/// monitor.deliver("b", label)?;
/// monitor.read_count("b", 1)?;
/// let report = monitor.close()?;
/// assert!(report.is_linearizable);
/// # Ok(())
/// # }
/// ```
///
/// A monitor that is dropped without [`close`](Monitor::close) or [`stop`](Monitor::stop) panics, since its last
/// reports were not checked ([`Options::must_close`]).
#[must_use]
pub struct Monitor {
    kind: Kind,
    pipe: Pipe,
    options: Options,
    labels: u32,
    replicas: u32,
    failure: Option<Error>,
    is_open: bool,
}

impl Monitor {
    /// Starts the program on a history with these initial replicas.
    ///
    /// # Errors
    /// [`Error::NotRepresentable`] if a name is not a letter a to z and up to 15 letters a to z or digits,
    /// [`Error::MonitorExited`] if the program cannot be started.
    pub fn new<S: AsRef<str>>(kind: Kind, replicas: &[S]) -> Result<Monitor, Error> {
        Monitor::with_options(kind, replicas, &Options::default())
    }

    /// Does the same with these options.
    ///
    /// # Errors
    /// As [`Monitor::new`].
    pub fn with_options<S: AsRef<str>>(kind: Kind, replicas: &[S], options: &Options) -> Result<Monitor, Error> {
        let names: Vec<&str> = replicas.iter().map(AsRef::as_ref).collect();
        let is_repeated = |place: usize| names[..place].contains(&names[place]);
        let is_wrong = |it: usize| !is_name(names[it]) || is_repeated(it);
        if names.is_empty() || names.len() > MAX_REPLICAS || (0..names.len()).any(is_wrong) {
            return Err(Error::not_representable(format!(
                "the replicas are {names:?}: expected 1 to {MAX_REPLICAS} distinct names, each a letter a to z and up \
                 to 15 letters a to z or digits"
            )));
        }
        let header = format!("RAH 2 {kind}\nreplicas {}\n", names.join(" "));
        let pipe = Pipe::start(&program::find(options.program.as_deref())?, &header, options.window)?;
        let replicas = u32::try_from(names.len()).unwrap_or(u32::MAX);
        let is_open = options.must_close;
        Ok(Monitor { kind, pipe, options: options.clone(), labels: 0, replicas, failure: None, is_open })
    }

    /// Reports a counter's increment by one, and returns its label.
    ///
    /// # Errors
    /// As each report: [`Error::Violation`] or [`Error::Refused`] if this report or an earlier one was not accepted,
    /// and [`Error::MonitorExited`] if the program ended.
    pub fn increment(&mut self, replica: &str) -> Result<Label, Error> {
        self.operate(replica, "inc")
    }

    /// Reports a counter's decrement by one, and returns its label.
    ///
    /// # Errors
    /// As [`Monitor::increment`].
    pub fn decrement(&mut self, replica: &str) -> Result<Label, Error> {
        self.operate(replica, "dec")
    }

    /// Reports a register's write of this value with this clock, and returns its label.
    ///
    /// # Errors
    /// As [`Monitor::increment`].
    pub fn write(&mut self, replica: &str, value: u32, clock: u32) -> Result<Label, Error> {
        self.operate(replica, &format!("write {value} @{clock}"))
    }

    /// Reports an LWW set's addition with this clock, and returns its label.
    ///
    /// # Errors
    /// As [`Monitor::increment`].
    pub fn add_at(&mut self, replica: &str, element: u32, clock: u32) -> Result<Label, Error> {
        self.operate(replica, &format!("add {element} @{clock}"))
    }

    /// Reports an LWW set's removal with this clock, and returns its label.
    ///
    /// # Errors
    /// As [`Monitor::increment`].
    pub fn remove_at(&mut self, replica: &str, element: u32, clock: u32) -> Result<Label, Error> {
        self.operate(replica, &format!("remove {element} @{clock}"))
    }

    /// Reports an OR-Set's addition under this identifier, and returns its label.
    ///
    /// # Errors
    /// As [`Monitor::increment`].
    pub fn add(&mut self, replica: &str, element: u32, identifier: u32) -> Result<Label, Error> {
        self.operate(replica, &format!("add {element} #{identifier}"))
    }

    /// Reports an OR-Set's removal of these identifiers of an element, and returns its label.
    ///
    /// # Errors
    /// As [`Monitor::increment`].
    pub fn remove(&mut self, replica: &str, element: u32, identifiers: &[u32]) -> Result<Label, Error> {
        let sorted = join_numbers(&crate::numbers::sort_unique(identifiers.to_vec()));
        self.operate(replica, &format!("remove {element} #{sorted}"))
    }

    /// Reports a list's insertion between two elements that the replica had: mostly those that it showed on both sides.
    ///
    /// `None` says that there was none, or that it is unknown. Returns the label. Elements are numbers from 1.
    ///
    /// # Errors
    /// As [`Monitor::increment`].
    pub fn insert(
        &mut self,
        replica: &str,
        left: Option<u32>,
        element: u32,
        right: Option<u32>,
    ) -> Result<Label, Error> {
        self.operate(replica, &format!("insert {} {element} {}", left.unwrap_or(0), right.unwrap_or(0)))
    }

    /// Reports an RGA's insertion directly behind the anchor, or at the start if that is `None`.
    ///
    /// Returns its label. Elements are numbers from 1.
    ///
    /// # Errors
    /// As [`Monitor::increment`].
    pub fn insert_after(
        &mut self,
        replica: &str,
        anchor: Option<u32>,
        element: u32,
        clock: u32,
    ) -> Result<Label, Error> {
        self.operate(replica, &format!("after {} {element} @{clock}", anchor.unwrap_or(0)))
    }

    /// Reports a removal of this element from a list or an RGA, and returns its label.
    ///
    /// # Errors
    /// As [`Monitor::increment`].
    pub fn delete(&mut self, replica: &str, element: u32) -> Result<Label, Error> {
        self.operate(replica, &format!("remove {element}"))
    }

    /// Reports that a counter's read returned this number.
    ///
    /// # Errors
    /// As [`Monitor::increment`].
    pub fn read_count(&mut self, replica: &str, count: i32) -> Result<Label, Error> {
        self.operate(replica, &format!("read {count}"))
    }

    /// Reports that a register's read returned this value, or `None` before the first write.
    ///
    /// # Errors
    /// As [`Monitor::increment`].
    pub fn read_register(&mut self, replica: &str, value: Option<u32>) -> Result<Label, Error> {
        let result = value.map_or_else(|| String::from("none"), |it| it.to_string());
        self.operate(replica, &format!("read {result}"))
    }

    /// Reports that a read of a set or a list returned these elements, which a set sorts.
    ///
    /// # Errors
    /// As [`Monitor::increment`].
    pub fn read_elements(&mut self, replica: &str, elements: &[u32]) -> Result<Label, Error> {
        let mut elements = elements.to_vec();
        if !self.kind.is_ordered() {
            elements = crate::numbers::sort_unique(elements);
        }
        self.operate(replica, &format!("read {}", join_numbers(&elements)))
    }

    /// Reports that a list shows these elements in this order, perhaps with others between.
    ///
    /// # Errors
    /// As [`Monitor::increment`].
    pub fn read_part(&mut self, replica: &str, elements: &[u32]) -> Result<Label, Error> {
        self.operate(replica, &format!("part {}", join_numbers(elements)))
    }

    /// Reports that the update with this label was delivered to the replica and applied there.
    ///
    /// # Errors
    /// As [`Monitor::increment`].
    pub fn deliver(&mut self, replica: &str, label: Label) -> Result<(), Error> {
        self.post(&format!("{replica} got {label}"), Expected::Got(label.0))
    }

    /// Reports that a new replica joins with a copy of the source's state.
    ///
    /// # Errors
    /// As [`Monitor::increment`].
    pub fn join(&mut self, replica: &str, source: &str) -> Result<(), Error> {
        self.post(&format!("join {replica} {source}"), Expected::Joined(self.replicas))?;
        self.replicas += 1;
        Ok(())
    }

    /// Returns the number of accepted operations, once the program has confirmed that all so far are explained.
    ///
    /// # Errors
    /// As [`Monitor::increment`].
    pub fn verdict(&mut self) -> Result<u32, Error> {
        let reply = self.ask("verdict")?;
        reply.strip_prefix("yes ").and_then(|it| it.parse().ok()).ok_or_else(|| {
            Error::MonitorExited(format!("the program is not a monitor: it replied {reply:?} to \"verdict\""))
        })
    }

    /// Waits until each report has its reply.
    ///
    /// # Errors
    /// As [`Monitor::increment`].
    pub fn settle(&mut self) -> Result<(), Error> {
        let settled = self.pipe.settle();
        self.accepted(settled)
    }

    /// Returns the text so far, which `ra_monitor check` reads.
    #[must_use]
    pub fn history(&self) -> String {
        self.pipe.history(None)
    }

    /// Returns what `ra_monitor explain` says of the history so far.
    ///
    /// # Errors
    /// [`Error::MonitorExited`] if the program cannot explain.
    pub fn explanation(&self) -> Result<String, Error> {
        program::explain(self.pipe.program(), &self.history()).ok_or_else(|| {
            Error::MonitorExited(format!("{} cannot explain", self.pipe.program().display()))
        })
    }

    /// Ends the history, waits for the program and returns its report.
    ///
    /// # Errors
    /// As [`Monitor::increment`].
    pub fn close(mut self) -> Result<Report, Error> {
        self.is_open = false;
        let closed = self.pipe.close();
        let lines = self.accepted(closed)?;
        Report::of_closing_lines(&lines)
    }

    /// Ends the history without waiting for replies.
    pub fn stop(mut self) {
        self.is_open = false;
        self.pipe.stop();
    }

    fn operate(&mut self, replica: &str, fields: &str) -> Result<Label, Error> {
        let label = Label(self.labels);
        self.post(&format!("{replica} {fields}"), Expected::Ok(label.0))?;
        self.labels += 1;
        Ok(label)
    }

    fn post(&mut self, line: &str, expected: Expected) -> Result<(), Error> {
        // A line feed in a name would make two lines, and the replies would not fit any more.
        if line.contains('\n') {
            return Err(Error::not_representable(format!("{line:?} has a line feed, and a name has none")));
        }
        let posted = self.pipe.post(line, expected);
        self.accepted(posted)
    }

    fn ask(&mut self, line: &str) -> Result<String, Error> {
        let asked = self.pipe.ask(line);
        self.accepted(asked)
    }

    fn accepted<T>(&mut self, result: Result<T, Stopped>) -> Result<T, Error> {
        let stopped = match result {
            Ok(it) => return Ok(it),
            Err(it) => it,
        };
        self.is_open = false;
        let error = match (self.failure.take(), stopped) {
            (Some(it), _) | (None, Stopped::Exited(it)) => it,
            (None, Stopped::Unexpected(it)) => self.create_error(&it),
        };
        self.failure = Some(error.clone());
        Err(error)
    }

    fn create_error(&self, unexpected: &Unexpected) -> Error {
        let text = self.pipe.history(Some(unexpected.command + 1));
        let notes = BTreeMap::new();
        let report = FailureReport::new(self.kind, &text, &notes, &Lines);
        report.create_error(&text, &unexpected.reply, self.options.history.as_deref(), Some(self.pipe.program()))
    }
}

impl Drop for Monitor {
    fn drop(&mut self) {
        self.pipe.stop();
        assert!(
            !self.is_open || std::thread::panicking(),
            "the Monitor was not closed, so its last reports were not checked: call close() or stop(), or use \
             Options::must_close"
        );
    }
}

impl fmt::Debug for Monitor {
    fn fmt(&self, out: &mut fmt::Formatter<'_>) -> fmt::Result {
        out.debug_struct("Monitor").field("kind", &self.kind).field("labels", &self.labels).finish_non_exhaustive()
    }
}

/// Lines that are described by themselves.
struct Lines;

impl Describe for Lines {
    fn line(&self, line: &str, _: &FailureReport<'_>) -> String {
        line.to_string()
    }

    fn message(&self, _: u32) -> Option<String> {
        None
    }

    fn identifiers(&self, numbers: &[u32]) -> String {
        join_numbers(numbers)
    }

    fn says_more(&self) -> bool {
        false
    }
}
