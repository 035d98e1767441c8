//! The reports of a recorder: labels, messages and deliveries.

use std::collections::{BTreeMap, HashMap};
use std::fmt::Debug;
use std::path::PathBuf;

use crate::failure_report::{Describe, FailureReport};
use crate::numbers::Key;
use crate::observed::{Effect, ObservedIdentifiers};
use crate::pipe::{Expected, Pipe, Stopped, Unexpected};
use crate::translation::Translator;
use crate::{Error, Kind, Operation, Value};

/// The number of known messages that an error names.
const SHOWN_MESSAGES: usize = 3;

/// The updates that had been delivered to a replica at one moment, as [`Reports::seen`] returns them for a merge.
#[derive(Clone, Debug)]
pub struct Seen<N> {
    replica: N,
    /// For each replica, the number of its updates.
    counts: Vec<usize>,
    /// What descriptions say of the moment, behind the name of the replica.
    pub(crate) moment: String,
}

/// The updates of a message: the first label, their replica, the position among that replica's updates, and their
/// number.
#[derive(Clone, Copy, Debug, PartialEq, Eq, PartialOrd, Ord)]
struct Message {
    label: u32,
    issuer: usize,
    position: usize,
    count: usize,
}

/// Where the lines go.
pub(crate) enum Sink {
    /// To the program, which checks them at once.
    Pipe(Pipe),
    /// Into a list, so that one run of the program checks them later.
    Transcript(Vec<String>),
}

/// What a history has so far. [`Recorder::step`](crate::Recorder::step) hands it to an act, so that the act and its
/// reports are one step.
pub struct Reports<N, V = u64, M = u64, I = u64> {
    translator: Translator<N, V, I>,
    pub(crate) sink: Sink,
    history: Option<PathBuf>,
    labels: u32,
    commands: usize,
    /// Lines that a failure report prints before the command of a number.
    notes: BTreeMap<usize, Vec<String>>,
    /// For each replica, how many updates of each other one were delivered to it.
    delivered: Vec<Vec<usize>>,
    /// For each replica, the labels of its updates.
    updates: Vec<Vec<u32>>,
    messages: HashMap<M, Message>,
    /// The keys in the order in which they were reported.
    keys: Vec<M>,
    observed: Option<ObservedIdentifiers>,
    failure: Option<Error>,
}

impl<N: Key, V: Key, M: Key, I: Key> Reports<N, V, M, I> {
    pub(crate) fn new(translator: Translator<N, V, I>, sink: Sink, history: Option<PathBuf>) -> Self {
        let replicas = translator.replicas.keys.len();
        let observed = Some(ObservedIdentifiers::new(replicas)).filter(|_| translator.kind == Kind::OrSet);
        Reports {
            translator,
            sink,
            history,
            labels: 0,
            commands: 0,
            notes: BTreeMap::new(),
            delivered: vec![vec![0; replicas]; replicas],
            updates: vec![Vec::new(); replicas],
            messages: HashMap::new(),
            keys: Vec::new(),
            observed,
            failure: None,
        }
    }

    /// Reports an update of this replica. `message` is the key that its deliveries name.
    ///
    /// # Errors
    /// [`Error::Violation`] or [`Error::Refused`] if this report or an earlier one was not accepted,
    /// [`Error::NotRepresentable`] if the text format cannot have it, [`Error::MonitorExited`] if the program ended.
    pub fn update(
        &mut self,
        replica: &N,
        operation: &Operation<V, I>,
        message: impl Into<Option<M>>,
    ) -> Result<(), Error> {
        self.compose(replica, std::slice::from_ref(operation), message)
    }

    /// Reports a composition: these operations of the replica in their order, with one message.
    ///
    /// # Errors
    /// As [`Reports::update`].
    pub fn compose(
        &mut self,
        replica: &N,
        operations: &[Operation<V, I>],
        message: impl Into<Option<M>>,
    ) -> Result<(), Error> {
        let message = message.into();
        let describe = || format!("update({replica:?}, {operations:?})");
        let index = self.enter(replica, describe)?;
        if let Some(key) = message.as_ref().filter(|it| self.messages.contains_key(it)) {
            let why = format!("the message {key:?} was reported before: each message needs its own key");
            return Err(self.fail(&describe(), &Error::NotRepresentable(why)));
        }
        let position = self.delivered[index][index];
        let first = Message { label: self.labels, issuer: index, position, count: operations.len() };
        for operation in operations {
            self.issue(index, operation)?;
        }
        if let Some(key) = message {
            self.keys.push(key.clone());
            self.messages.insert(key, first);
        }
        Ok(())
    }

    /// Reports that the replica applies the message of this key. A repeated delivery is not reported.
    ///
    /// # Errors
    /// As [`Reports::update`].
    pub fn deliver(&mut self, replica: &N, message: &M) -> Result<(), Error> {
        let describe = || format!("deliver({replica:?}, {message:?})");
        let index = self.enter(replica, describe)?;
        let found = self.find_message(message).map_err(|it| self.fail(&describe(), &it))?;
        self.deliver_message(index, found)
    }

    /// Reports that the replica merges a state, given by what its replica had [`seen`](Reports::seen) by then.
    ///
    /// # Errors
    /// As [`Reports::update`].
    pub fn merge(&mut self, replica: &N, state: &Seen<N>) -> Result<(), Error> {
        let index = self.enter(replica, || format!("merge({replica:?}, {state:?})"))?;
        self.note(format!("{replica:?} merges the state of {:?}{}", state.replica, state.moment));
        let mut merged = Vec::new();
        for (issuer, count) in state.counts.iter().enumerate() {
            for position in self.delivered[index][issuer]..*count {
                merged.push(Message { label: self.updates[issuer][position], issuer, position, count: 1 });
            }
        }
        // Labels are numbered in the order of the reports, so this order is causal.
        merged.sort_unstable();
        merged.into_iter().try_for_each(|it| self.deliver_message(index, it))
    }

    /// Reports that the replica merges a state that has the updates of these messages.
    ///
    /// # Errors
    /// As [`Reports::update`].
    pub fn merge_messages(&mut self, replica: &N, messages: &[M]) -> Result<(), Error> {
        let describe = || format!("merge_messages({replica:?}, {messages:?})");
        let index = self.enter(replica, describe)?;
        let found: Result<Vec<Message>, Error> = messages.iter().map(|it| self.find_message(it)).collect();
        let mut merged = found.map_err(|it| self.fail(&describe(), &it))?;
        merged.sort_unstable();
        merged.into_iter().try_for_each(|it| self.deliver_message(index, it))
    }

    /// Reports that a new replica joins with a copy of the source's state. It is the last one in the order of ties.
    ///
    /// # Errors
    /// As [`Reports::update`]. A join that is impossible, because the name exists or there are 64 replicas, is
    /// [`Error::NotRepresentable`], and the history continues without it.
    pub fn join(&mut self, replica: N, source: &N) -> Result<(), Error> {
        let describe = || format!("join({replica:?}, {source:?})");
        let source_index = self.enter(source, describe)?;
        self.translator.replicas.check_join(&replica)?;
        let line = self.translator.join(replica, source_index);
        let index = self.delivered.len();
        self.delivered.push(self.delivered[source_index].clone());
        self.delivered.iter_mut().for_each(|it| it.push(0));
        self.updates.push(Vec::new());
        if let Some(it) = &mut self.observed {
            it.join(source_index);
        }
        self.post(&line, Expected::Joined(number(index)))
    }

    /// Reports a read with this result.
    ///
    /// # Errors
    /// As [`Reports::update`].
    pub fn read(&mut self, replica: &N, value: &Value<V>) -> Result<(), Error> {
        let describe = || format!("read({replica:?}, {value:?})");
        let index = self.enter(replica, describe)?;
        let result = self.translator.format_result(value).map_err(|it| self.fail(&describe(), &it))?;
        self.operate(index, &format!("read {result}"))
    }

    /// Reports a read of a part of a list: these elements are shown in this order, perhaps with others between.
    ///
    /// It is for lists of the kind [`Kind::List`] that are too long to be reported as a whole.
    ///
    /// # Errors
    /// As [`Reports::update`].
    pub fn part(&mut self, replica: &N, elements: &[V]) -> Result<(), Error> {
        let describe = || format!("part({replica:?}, {elements:?})");
        let index = self.enter(replica, describe)?;
        let result = self.translator.format_part(elements).map_err(|it| self.fail(&describe(), &it))?;
        self.operate(index, &format!("part {result}"))
    }

    /// Returns the updates that were delivered to the replica so far, for a [`merge`](Reports::merge) of its current
    /// state.
    ///
    /// # Errors
    /// [`Error::NotRepresentable`] if there is no such replica.
    pub fn seen(&self, replica: &N) -> Result<Seen<N>, Error> {
        let index = self.translator.replicas.index_of(replica)?;
        Ok(Seen { replica: replica.clone(), counts: self.delivered[index].clone(), moment: String::new() })
    }

    /// Returns the text so far, which `ra_monitor check` reads.
    #[must_use]
    pub fn history(&self) -> String {
        match &self.sink {
            Sink::Pipe(pipe) => pipe.history(None),
            Sink::Transcript(lines) => text_of(&self.translator.header(), lines),
        }
    }

    /// Returns the first two lines of the text.
    #[must_use]
    pub fn header(&self) -> String {
        self.translator.header()
    }

    pub(crate) fn kind(&self) -> Kind {
        self.translator.kind
    }

    /// Adds a line that a failure's message shows before the next report.
    pub(crate) fn note(&mut self, text: String) {
        self.notes.entry(self.commands).or_default().push(text);
    }

    /// Calls this with a report on a text of this history.
    pub(crate) fn with_report<T>(&self, text: &str, act: impl FnOnce(&FailureReport<'_>) -> T) -> T {
        let described = Named { translator: &self.translator, messages: self.keys_of_labels() };
        act(&FailureReport::new(self.translator.kind, text, &self.notes, &described))
    }

    /// Returns the result of a read, from its line.
    pub(crate) fn result_of(&self, line: &str) -> Option<Value<V>> {
        match line.split(' ').collect::<Vec<_>>()[..] {
            [_, "read", field] => self.translator.result_of(field),
            _ => None,
        }
    }

    /// Returns the failure of this history, if there is one so far.
    pub(crate) fn failure(&self) -> Option<&Error> {
        self.failure.as_ref()
    }

    pub(crate) fn accepted<T>(&mut self, result: Result<T, Stopped>) -> Result<T, Error> {
        let error = match (self.failure.take(), result) {
            (None, Ok(it)) => return Ok(it),
            (Some(it), _) | (None, Err(Stopped::Exited(it))) => it,
            (None, Err(Stopped::Unexpected(it))) => self.create_error(&it),
        };
        self.failure = Some(error.clone());
        Err(error)
    }

    fn create_error(&self, unexpected: &Unexpected) -> Error {
        let (text, program) = match &self.sink {
            Sink::Pipe(pipe) => (pipe.history(Some(unexpected.command + 1)), Some(pipe.program())),
            Sink::Transcript(lines) => (text_of(&self.translator.header(), lines), None),
        };
        self.with_report(&text, |it| it.create_error(&text, &unexpected.reply, self.history.as_deref(), program))
    }

    fn keys_of_labels(&self) -> HashMap<u32, String> {
        let mut keys = HashMap::new();
        for (key, message) in &self.messages {
            for place in 0..number(message.count) {
                keys.insert(message.label + place, format!("{key:?}"));
            }
        }
        keys
    }

    /// Returns the number of the replica, or the failure, if there is one.
    fn enter(&mut self, replica: &N, describe: impl Fn() -> String) -> Result<usize, Error> {
        if let Some(it) = &self.failure {
            return Err(it.clone());
        }
        self.translator.replicas.index_of(replica).map_err(|it| self.fail(&describe(), &it))
    }

    /// Ends the history: the act has run and is not reported, so later steps would be checked wrongly.
    fn fail(&mut self, call: &str, error: &Error) -> Error {
        let error = Error::NotRepresentable(format!("{call}: {error}"));
        self.failure.get_or_insert(error).clone()
    }

    fn issue(&mut self, replica: usize, operation: &Operation<V, I>) -> Result<(), Error> {
        let identifiers = self.identifiers_of(replica, operation);
        let fields = self.translator.format_operation(operation, &identifiers);
        let fields = fields.map_err(|it| {
            let call = format!("update({:?}, {operation:?})", self.translator.replicas.keys[replica]);
            self.fail(&call, &it)
        })?;
        if let (Some(observed), Operation::Add { element, .. } | Operation::Remove { element, .. }) =
            (&mut self.observed, operation)
        {
            let is_addition = matches!(operation, Operation::Add { .. });
            let element = self.translator.number_of(element);
            observed.issue(replica, self.labels, Effect { element, identifiers, is_addition });
        }
        self.delivered[replica][replica] += 1;
        self.updates[replica].push(self.labels);
        self.operate(replica, &fields)
    }

    /// Returns the numbers of the identifiers of an OR-Set's operation.
    fn identifiers_of(&mut self, replica: usize, operation: &Operation<V, I>) -> Vec<u32> {
        let numbering = &mut self.translator.identifiers;
        match operation {
            Operation::Add { identifier: Some(it), .. } => vec![numbering.number_of(it)],
            Operation::Add { identifier: None, .. } => vec![numbering.reserve()],
            Operation::Remove { identifiers: Some(named), .. } => {
                named.iter().map(|it| numbering.number_of(it)).collect()
            }
            Operation::Remove { element, identifiers: None } => {
                let element = self.translator.number_of(element);
                self.observed.as_ref().map_or_else(Vec::new, |it| it.identifiers_of(replica, element))
            }
            _ => Vec::new(),
        }
    }

    fn operate(&mut self, replica: usize, fields: &str) -> Result<(), Error> {
        let label = self.labels;
        self.labels += 1;
        self.post(&format!("{} {fields}", self.translator.replicas.names[replica]), Expected::Ok(label))
    }

    fn deliver_message(&mut self, replica: usize, message: Message) -> Result<(), Error> {
        for place in 0..message.count {
            let (issuer, position) = (message.issuer, message.position + place);
            if position < self.delivered[replica][issuer] {
                continue;
            }
            self.delivered[replica][issuer] = position + 1;
            let label = message.label + number(place);
            if let Some(it) = &mut self.observed {
                it.deliver(replica, label);
            }
            let name = &self.translator.replicas.names[replica];
            self.post(&format!("{name} got {label}"), Expected::Got(label))?;
        }
        Ok(())
    }

    fn find_message(&self, key: &M) -> Result<Message, Error> {
        self.messages.get(key).copied().ok_or_else(|| {
            let shown: Vec<String> = self.keys.iter().take(SHOWN_MESSAGES).map(|it| format!("{it:?}")).collect();
            let known = match self.keys.len() {
                0 => String::from("none is known"),
                it if it <= SHOWN_MESSAGES => format!("known are {}", shown.join(", ")),
                it => format!("known are {} and {} more", shown.join(", "), it - SHOWN_MESSAGES),
            };
            Error::not_representable(format!(
                "no update was reported with the message {key:?}; {known}: report the update that sends it before its \
                 delivery"
            ))
        })
    }

    fn post(&mut self, line: &str, expected: Expected) -> Result<(), Error> {
        self.commands += 1;
        let posted = match &mut self.sink {
            Sink::Pipe(pipe) => pipe.post(line, expected),
            Sink::Transcript(lines) => {
                lines.push(line.to_string());
                Ok(())
            }
        };
        self.accepted(posted)
    }
}

impl<N: Debug, V, M, I> Debug for Reports<N, V, M, I> {
    fn fmt(&self, out: &mut std::fmt::Formatter<'_>) -> std::fmt::Result {
        let (kind, labels) = (self.translator.kind, self.labels);
        out.debug_struct("Reports").field("kind", &kind).field("labels", &labels).finish_non_exhaustive()
    }
}

/// Returns a text of these lines.
pub(crate) fn text_of(header: &str, lines: &[String]) -> String {
    let mut text = header.to_string();
    for line in lines {
        text.push_str(line);
        text.push('\n');
    }
    text
}

/// Returns a number of the text format. A history has at most 1,048,576 commands, so it fits.
fn number(count: usize) -> u32 {
    u32::try_from(count).unwrap_or(u32::MAX)
}

/// Lines that are described in the user's names.
struct Named<'a, N, V, I> {
    translator: &'a Translator<N, V, I>,
    messages: HashMap<u32, String>,
}

impl<N: Key, V: Key, I: Key> Describe for Named<'_, N, V, I> {
    fn line(&self, line: &str, report: &FailureReport<'_>) -> String {
        self.translator.describe(line, report)
    }

    fn message(&self, label: u32) -> Option<String> {
        self.messages.get(&label).cloned()
    }

    fn identifiers(&self, numbers: &[u32]) -> String {
        self.translator.describe_identifiers(numbers)
    }

    fn says_more(&self) -> bool {
        true
    }
}
