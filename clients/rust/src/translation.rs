//! Translates between operations in the user's names and lines of the text format.

use std::fmt::Debug;

use crate::failure_report::{is_join, numbers_of, FailureReport};
use crate::numbers::{join_numbers, sort_unique, Clocks, Key, Numbering, Replicas};
use crate::{Error, Kind, Operation, Value};

/// The lines of one history, with the user's values that their numbers represent.
#[derive(Debug)]
pub(crate) struct Translator<N, V, I> {
    pub(crate) kind: Kind,
    pub(crate) replicas: Replicas<N>,
    pub(crate) identifiers: Numbering<I>,
    values: Numbering<V>,
    clocks: Clocks,
}

impl<N: Key, V: Key, I: Key> Translator<N, V, I> {
    pub(crate) fn new(kind: Kind, replicas: Vec<N>) -> Result<Self, Error> {
        Ok(Translator {
            kind,
            replicas: Replicas::new(replicas)?,
            identifiers: Numbering::new(),
            values: Numbering::new(),
            clocks: Clocks::default(),
        })
    }

    /// Returns the first two lines.
    pub(crate) fn header(&self) -> String {
        format!("RAH 2 {}\nreplicas {}\n", self.kind, self.replicas.initial_names())
    }

    /// Adds a replica that joins from the source, and returns the line of the join.
    pub(crate) fn join(&mut self, replica: N, source: usize) -> String {
        self.replicas.join(replica);
        let names = &self.replicas.names;
        format!("join {} {}", names[names.len() - 1], names[source])
    }

    /// Returns the number of a value or an element.
    pub(crate) fn number_of(&mut self, value: &V) -> u32 {
        self.values.number_of(value)
    }

    /// Returns the fields of an operation, behind the replica's name. `identifiers` are those of an OR-Set's operation.
    pub(crate) fn format_operation(
        &mut self,
        operation: &Operation<V, I>,
        identifiers: &[u32],
    ) -> Result<String, Error> {
        if !operation.is_of(self.kind) {
            return Err(Error::not_representable(format!(
                "{operation:?} is not an operation of the kind {}",
                self.kind
            )));
        }
        Ok(match operation {
            Operation::Increment => String::from("inc"),
            Operation::Decrement => String::from("dec"),
            Operation::Write { value, clock } => {
                format!("write {} @{}", self.number_of(value), self.clocks.number_of(*clock)?)
            }
            Operation::AddAt { element, clock } => {
                format!("add {} @{}", self.number_of(element), self.clocks.number_of(*clock)?)
            }
            Operation::RemoveAt { element, clock } => {
                format!("remove {} @{}", self.number_of(element), self.clocks.number_of(*clock)?)
            }
            Operation::Add { element, .. } => format!("add {} #{}", self.number_of(element), join_numbers(identifiers)),
            Operation::Remove { element, .. } => {
                let sorted = sort_unique(identifiers.to_vec());
                format!("remove {} #{}", self.number_of(element), join_numbers(&sorted))
            }
            Operation::InsertAfter { anchor, element, clock } => {
                let behind = anchor.as_ref().map_or(0, |it| self.values.number_of(it));
                format!("after {behind} {} @{}", self.number_of(element), self.clocks.number_of(*clock)?)
            }
            Operation::Insert { left, element, right } => {
                let left = left.as_ref().map_or(0, |it| self.values.number_of(it));
                let element = self.number_of(element);
                let right = right.as_ref().map_or(0, |it| self.values.number_of(it));
                format!("insert {left} {element} {right}")
            }
            Operation::Delete { element } => format!("remove {}", self.number_of(element)),
        })
    }

    /// Returns the last field of the line of a read that returned this value.
    pub(crate) fn format_result(&mut self, value: &Value<V>) -> Result<String, Error> {
        match (self.kind, value) {
            (Kind::Counter, Value::Count(count)) if i32::try_from(*count).is_ok() => Ok(count.to_string()),
            (Kind::Register, Value::Register(None)) => Ok(String::from("none")),
            (Kind::Register, Value::Register(Some(value))) => Ok(self.number_of(value).to_string()),
            (Kind::Rga | Kind::List, Value::Elements(elements)) => Ok(join_numbers(&self.numbers_of(elements))),
            (Kind::LwwSet | Kind::OrSet, Value::Elements(elements)) => {
                Ok(join_numbers(&sort_unique(self.numbers_of(elements))))
            }
            _ => Err(Error::not_representable(format!(
                "a read of the kind {} returned {value:?}: expected {}",
                self.kind,
                expected_result(self.kind)
            ))),
        }
    }

    /// Returns the last field of the line of a partial read of a list, which returned these elements.
    pub(crate) fn format_part(&mut self, elements: &[V]) -> Result<String, Error> {
        if self.kind == Kind::List {
            return Ok(join_numbers(&self.numbers_of(elements)));
        }
        Err(Error::not_representable(format!(
            "part is not a read of the kind {}: it is one of the kind list",
            self.kind
        )))
    }

    fn numbers_of(&mut self, values: &[V]) -> Vec<u32> {
        values.iter().map(|it| self.values.number_of(it)).collect()
    }

    // Descriptions of lines in the user's names.

    /// Describes a line of the text.
    pub(crate) fn describe(&self, line: &str, report: &FailureReport<'_>) -> String {
        let mut words: Vec<&str> = line.split(' ').collect();
        if is_join(line) && words.len() == 3 {
            let (new, source) = (self.replicas.describe(words[1]), self.replicas.describe(words[2]));
            return format!("{new} joins with a copy of {source}");
        }
        let is_clock = |it: &&&str| it.starts_with('@');
        let clock = words.last().filter(is_clock).and_then(|it| it[1..].parse().ok());
        let clock = clock.map_or_else(String::new, |it| format!(" at clock {}", self.clocks.clock_of(it)));
        words.retain(|it| !it.starts_with('@'));
        match words.split_first() {
            Some((name, fields)) => {
                format!("{} {}{clock}", self.replicas.describe(name), self.describe_fields(fields, report))
            }
            None => String::new(),
        }
    }

    fn describe_fields(&self, fields: &[&str], report: &FailureReport<'_>) -> String {
        match *fields {
            ["got", label] => {
                let label = label.parse().unwrap_or(u32::MAX);
                format!("receives {}", report.describe_label(label))
            }
            ["read", result] => format!("reads {}", self.describe_result(result)),
            ["after", "0", element] => format!("inserts {} at the beginning", self.describe_value(element)),
            ["after", anchor, element] => {
                format!("inserts {} behind {}", self.describe_value(element), self.describe_value(anchor))
            }
            ["insert", left, element, right] => {
                let side = |word: &str, it: &str| {
                    if it == "0" { None } else { Some(format!("{word} {}", self.describe_value(it))) }
                };
                let sides: Vec<String> = side("behind", left).into_iter().chain(side("before", right)).collect();
                let inserted = format!("inserts {}", self.describe_value(element));
                if sides.is_empty() { inserted } else { format!("{inserted} {}", sides.join(" and ")) }
            }
            ["part", result] => {
                format!("shows {} in this order, perhaps with others between", self.describe_result(result))
            }
            ["inc"] => String::from("increments"),
            ["dec"] => String::from("decrements"),
            [word, value] => format!("{} {}", verb_of(word), self.describe_value(value)),
            [word, value, identifiers] => {
                let identifiers = self.describe_identifiers(&numbers_of(identifiers.trim_start_matches('#')));
                format!("{} {} under {identifiers}", verb_of(word), self.describe_value(value))
            }
            _ => fields.join(" "),
        }
    }

    fn describe_result(&self, result: &str) -> String {
        match self.kind {
            Kind::Counter => result.to_string(),
            Kind::Register if result == "none" => String::from("None"),
            Kind::Register => self.describe_value(result),
            _ => format!("{:?}", self.values_of(result)),
        }
    }

    /// Returns the result of a read, from the last field of its line.
    pub(crate) fn result_of(&self, field: &str) -> Option<Value<V>> {
        match self.kind {
            Kind::Counter => field.parse().ok().map(Value::Count),
            Kind::Register if field == "none" => Some(Value::Register(None)),
            Kind::Register => self.values.thing_of(field.parse().ok()?).cloned().map(|it| Value::Register(Some(it))),
            _ => Some(Value::Elements(self.values_of(field).into_iter().cloned().collect())),
        }
    }

    fn values_of(&self, list: &str) -> Vec<&V> {
        numbers_of(list).into_iter().filter_map(|it| self.values.thing_of(it)).collect()
    }

    fn describe_value(&self, number: &str) -> String {
        let value = number.parse().ok().and_then(|it| self.values.thing_of(it));
        value.map_or_else(|| number.to_string(), |it| format!("{it:?}"))
    }

    /// Describes the identifiers with these numbers.
    pub(crate) fn describe_identifiers(&self, numbers: &[u32]) -> String {
        if numbers.is_empty() {
            return String::from("none");
        }
        let describe = |it: &u32| self.identifiers.thing_of(*it).map_or(String::from("an unnamed one"), show);
        numbers.iter().map(describe).collect::<Vec<_>>().join(", ")
    }
}

fn show(thing: &impl Debug) -> String {
    format!("{thing:?}")
}

fn verb_of(word: &str) -> &str {
    match word {
        "write" => "writes",
        "add" => "adds",
        "remove" => "removes",
        _ => word,
    }
}

/// Describes what a read of this kind has to return.
pub(crate) fn expected_result(kind: Kind) -> &'static str {
    match kind {
        Kind::Counter => "Value::Count with a number from -2147483648 to 2147483647",
        Kind::Register => "Value::Register",
        Kind::LwwSet | Kind::OrSet | Kind::Rga | Kind::List => "Value::Elements",
    }
}
