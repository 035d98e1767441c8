//! The source of a regression test for a small run.

use std::collections::{BTreeMap, BTreeSet};
use std::path::Path;

use super::driver::{update_of, Indexes};
use super::replica::Replica;
use super::runs::FailedRun;
use super::steps::{initial_replicas, Action, Step};
use crate::{Kind, Value};

const MAX_LINES: usize = 30;
/// Words that no variable can have as its name.
const RESERVED: &str = "as async await break const continue crate dyn else enum extern false fn for if impl in let \
                        loop match mod move mut pub ref return self static struct super trait true type unsafe use \
                        where while yield";

/// Returns the source of a test with the calls of the steps, or, if that is longer than 30 lines, with `replay`.
pub(crate) fn regression_test<R: Replica>(
    names: &[String],
    small: &FailedRun,
    seed: &str,
    expected: Option<&Value>,
    path: &Path,
) -> String {
    let full_name = std::any::type_name::<R>();
    let name = full_name.split('<').next().unwrap_or(full_name).rsplit("::").next().unwrap_or(full_name);
    // The arguments of a generic type are not known to be importable.
    let replica = if full_name.contains('<') { format!("{name}::<..>") } else { name.to_string() };
    let test = format!("seed_{}", seed.replace('-', "_"));
    let body = Source::new(&replica, names, small, R::KIND).body(&small.steps, expected);
    let says = (expected.is_some() || small.raised.is_some()) && !full_name.contains('<');
    let lines: Vec<String> = if says && body.len() + 3 <= MAX_LINES {
        let head = [String::from("#[test]"), format!("fn {test}() {{")];
        let body = body.into_iter().map(|it| format!("    {it}"));
        head.into_iter().chain(body).chain([String::from("}")]).collect()
    } else {
        vec![
            String::from("#[test]"),
            format!("fn {test}() -> Result<(), yehatu::Error> {{"),
            format!("    yehatu::replay::<{replica}>({:?}).map(|_| ())", path.display().to_string()),
            String::from("}"),
        ]
    };
    lines.iter().map(|it| format!("    {it}")).collect::<Vec<_>>().join("\n")
}

/// The statements of the test, one step after another.
struct Source<'a> {
    replica: &'a str,
    names: &'a [String],
    kind: Kind,
    indexes: &'a Indexes,
    received: BTreeSet<usize>,
    restarting: BTreeSet<usize>,
    /// For each replica that restarts, what it received since it was stored.
    since: BTreeMap<usize, Vec<String>>,
    lines: Vec<String>,
}

impl<'a> Source<'a> {
    fn new(replica: &'a str, names: &'a [String], small: &'a FailedRun, kind: Kind) -> Self {
        let steps = small.steps.iter();
        let received = steps.clone().filter(|it| it.action.receives()).map(|it| it.number).collect();
        let restarting = steps.filter(|it| it.action == Action::Restart).map(|it| it.replica).collect();
        let (indexes, since) = (&small.indexes, BTreeMap::new());
        Source { replica, names, kind, indexes, received, restarting, since, lines: Vec::new() }
    }

    fn body(mut self, steps: &[Step], expected: Option<&Value>) -> Vec<String> {
        for replica in initial_replicas(steps) {
            self.lines.push(format!(
                "let mut {} = {}::create({:?});",
                self.variable(replica),
                self.replica,
                self.names[replica]
            ));
            self.save(replica);
        }
        let last = steps.last().filter(|_| expected.is_some());
        for step in &steps[..steps.len() - usize::from(last.is_some())] {
            self.add(step);
        }
        if let (Some(step), Some(expected)) = (last, expected) {
            self.add_assertion(step, expected);
        }
        collapsed(&self.lines)
    }

    /// Returns the variable of a replica: its name, if it can be one.
    fn variable(&self, replica: usize) -> String {
        let name = &self.names[replica];
        let is_plain = name.chars().all(|it| it.is_ascii_lowercase() || it.is_ascii_digit())
            && name.chars().next().map_or(false, |it| it.is_ascii_lowercase());
        let is_message = name.strip_prefix('m').map_or(false, |it| it.chars().all(|it| it.is_ascii_digit()));
        let is_reserved = RESERVED.split(' ').any(|it| it == name);
        if is_plain && !is_message && !is_reserved { name.clone() } else { format!("replica_{replica}") }
    }

    fn add(&mut self, step: &Step) {
        let (replica, number) = (self.variable(step.replica), step.number);
        match step.action {
            Action::Update => {
                let target = if self.received.contains(&number) { format!("let m{number} = ") } else { String::new() };
                let update = update_of(step, self.indexes).map_or_else(String::new, |it| format!("Update::{it:?}"));
                let message = if target.is_empty() { "let _ = " } else { target.as_str() };
                self.lines.push(format!("{message}{replica}.update({update}).message;"));
                self.save(step.replica);
            }
            Action::Deliver => self.receive(step.replica, format!("{replica}.receive(&m{number});")),
            Action::Duplicate => self.lines.push(format!("{replica}.receive(&m{number});")),
            Action::Merge => {
                let state = format!("merged_{}", self.lines.len());
                let sender = self.variable(number);
                self.lines.push(format!("let {state} = {sender}.state().expect(\"a state\");"));
                self.receive(step.replica, format!("{replica}.merge(&{state});"));
            }
            Action::Snapshot => {
                self.lines.push(format!("let state_{number} = {replica}.state().expect(\"a state\");"));
            }
            Action::MergeSnapshot => self.receive(step.replica, format!("{replica}.merge(&state_{number});")),
            Action::Save => self.save(step.replica),
            Action::Restart => self.restart(step.replica),
            Action::Join => {
                let (source, name) = (self.variable(number), &self.names[step.replica]);
                self.lines.push(format!("let mut {replica} = {source}.fork({name:?}).expect(\"a fork\");"));
                self.save(step.replica);
            }
            Action::Read => self.lines.push(format!("{replica}.read();")),
        }
    }

    fn save(&mut self, replica: usize) {
        if self.restarting.contains(&replica) {
            self.since.insert(replica, Vec::new());
            let variable = self.variable(replica);
            self.lines.push(format!("let saved_{replica} = {variable}.state().expect(\"a state\");"));
        }
    }

    fn receive(&mut self, replica: usize, line: String) {
        if let Some(it) = self.since.get_mut(&replica) {
            it.push(line.clone());
        }
        self.lines.push(line);
    }

    fn restart(&mut self, replica: usize) {
        let (variable, name) = (self.variable(replica), &self.names[replica]);
        let load = format!("{}::load({name:?}, &saved_{replica})", self.replica);
        self.lines.push(format!("{variable} = {load}.expect(\"a replica\");"));
        self.lines.extend(self.since.get(&replica).cloned().unwrap_or_default());
    }

    /// Adds the last read, with its expected result. The order of a set's elements is not compared.
    fn add_assertion(&mut self, step: &Step, expected: &Value) {
        let variable = self.variable(step.replica);
        let is_set = matches!(self.kind, Kind::LwwSet | Kind::OrSet);
        match expected {
            Value::Elements(elements) if is_set => {
                let mut sorted = elements.clone();
                sorted.sort_unstable();
                let shown: Vec<String> = sorted.iter().map(u64::to_string).collect();
                self.lines.push(format!(
                    "assert_eq!({variable}.read().sorted(), Value::Elements(vec![{}]));",
                    shown.join(", ")
                ));
            }
            Value::Elements(elements) => {
                self.lines.push(format!("assert_eq!({variable}.read(), Value::Elements(vec!{elements:?}));"));
            }
            _ => self.lines.push(format!("assert_eq!({variable}.read(), Value::{expected:?});")),
        }
    }
}

/// Returns the lines with a loop in the place of three or more equal calls in a row.
fn collapsed(lines: &[String]) -> Vec<String> {
    let mut result = Vec::new();
    let mut start = 0;
    while start < lines.len() {
        let count = lines[start..].iter().take_while(|it| **it == lines[start]).count();
        if count > 2 {
            let line = &lines[start];
            result.extend([format!("for _ in 0..{count} {{"), format!("    {line}"), String::from("}")]);
        } else {
            result.extend_from_slice(&lines[start..start + count]);
        }
        start += count;
    }
    result
}
