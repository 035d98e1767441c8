//! The steps of a random run, as plain values that can be stored.

use std::collections::HashMap;

use crate::json::Json;
use crate::Method;

/// What a step does.
#[derive(Clone, Copy, Debug, PartialEq, Eq, Hash)]
pub(crate) enum Action {
    Update,
    Deliver,
    Duplicate,
    Merge,
    Snapshot,
    MergeSnapshot,
    Save,
    Restart,
    Join,
    Read,
}

const ACTIONS: [(Action, &str); 10] = [
    (Action::Update, "update"),
    (Action::Deliver, "deliver"),
    (Action::Duplicate, "duplicate"),
    (Action::Merge, "merge"),
    (Action::Snapshot, "snapshot"),
    (Action::MergeSnapshot, "merge_snapshot"),
    (Action::Save, "save"),
    (Action::Restart, "restart"),
    (Action::Join, "join"),
    (Action::Read, "read"),
];

impl Action {
    /// Returns whether a replica receives the current state of another one, whose number the step has.
    pub(crate) fn copies(self) -> bool {
        matches!(self, Action::Merge | Action::Join)
    }

    /// Returns whether a replica receives a message, whose number the step has.
    pub(crate) fn receives(self) -> bool {
        matches!(self, Action::Deliver | Action::Duplicate)
    }

    fn name(self) -> &'static str {
        ACTIONS.iter().find(|it| it.0 == self).map_or("", |it| it.1)
    }
}

/// One step of a plan.
#[derive(Clone, Debug, PartialEq, Eq, Hash)]
pub(crate) struct Step {
    pub(crate) action: Action,
    pub(crate) replica: usize,
    /// The number of the update that is issued or delivered, of the replica whose state is copied, or of the state
    /// that is taken early and merged late.
    pub(crate) number: usize,
    pub(crate) method: Option<Method>,
    pub(crate) arguments: Vec<Option<u64>>,
}

impl Step {
    pub(crate) fn new(action: Action, replica: usize, number: usize) -> Self {
        Step { action, replica, number, method: None, arguments: Vec::new() }
    }

    pub(crate) fn update(replica: usize, number: usize, method: Method, arguments: Vec<Option<u64>>) -> Self {
        Step { action: Action::Update, replica, number, method: Some(method), arguments }
    }

    /// Returns whether the step is an update of a counter, whose argument is an amount.
    pub(crate) fn counts(&self) -> bool {
        matches!(self.method, Some(Method::Increment | Method::Decrement))
    }

    /// Returns the step as a list, for JSON.
    pub(crate) fn to_json(&self) -> Json {
        let argument = |it: &Option<u64>| it.as_ref().map_or(Json::Null, Json::number);
        Json::Array(vec![
            Json::text(self.action.name()),
            Json::number(&self.replica),
            Json::number(&self.number),
            Json::text(self.method.map_or("", Method::name)),
            Json::Array(self.arguments.iter().map(argument).collect()),
        ])
    }

    /// Returns the step of such a list, or what is wrong with it.
    pub(crate) fn from_json(json: &Json) -> Result<Step, String> {
        let (action, replica, number, method, arguments) = match json.as_array() {
            Some([action, replica, number, method, arguments]) => (action, replica, number, method, arguments),
            _ => return Err(format!("is {}: expected a list of five values", json.print())),
        };
        let found = ACTIONS.iter().find(|it| Some(it.1) == action.as_text());
        let action = found.map(|it| it.0).ok_or_else(|| {
            let names = ACTIONS.map(|it| it.1).join(", ");
            format!("has the action {}: expected one of {names}", action.print())
        })?;
        let argument = |it: &Json| match it {
            Json::Null => Ok(None),
            _ => it.as_u64().map(Some).ok_or_else(|| format!("has the argument {}: expected a number", it.print())),
        };
        let wrong = |what: &str, it: &Json| format!("has the {what} {}: expected a number", it.print());
        let name = method.as_text().unwrap_or("");
        let found = Method::from_name(name);
        if action == Action::Update && found.is_none() {
            return Err(format!("has the method {}: expected one of a kind", method.print()));
        }
        Ok(Step {
            action,
            replica: replica.as_usize().ok_or_else(|| wrong("replica", replica))?,
            number: number.as_usize().ok_or_else(|| wrong("number", number))?,
            method: found,
            arguments: arguments.as_array().unwrap_or_default().iter().map(argument).collect::<Result<_, _>>()?,
        })
    }
}

/// Returns the steps with their updates, and their early states, numbered from 1 in their order.
pub(crate) fn renumbered(steps: &[Step]) -> Vec<Step> {
    let (mut updates, mut states) = (HashMap::new(), HashMap::new());
    let mut result = steps.to_vec();
    for step in &mut result {
        let numbers = match step.action {
            Action::Update | Action::Deliver | Action::Duplicate => &mut updates,
            Action::Snapshot | Action::MergeSnapshot => &mut states,
            _ => continue,
        };
        let next = numbers.len() + 1;
        step.number = *numbers.entry(step.number).or_insert(next);
    }
    result
}

/// Returns the initial replicas in their order: those that do not join.
///
/// A replica joins only if its number is above all that are present, since it is the last one in the order of ties.
pub(crate) fn initial_replicas(steps: &[Step]) -> Vec<usize> {
    let mut used: Vec<usize> = Vec::new();
    let mut joining: Vec<usize> = Vec::new();
    for step in steps {
        let other = Some(step.number).filter(|_| step.action.copies());
        if step.action == Action::Join && !used.contains(&step.replica) && other != Some(step.replica) {
            joining.push(step.replica);
        }
        used.extend(other.into_iter().chain([step.replica]));
    }
    used.sort_unstable();
    used.dedup();
    loop {
        let initial: Vec<usize> = used.iter().copied().filter(|it| !joining.contains(it)).collect();
        let mut last = initial.last().copied();
        let mut rising = joining.clone();
        rising.retain(|it| {
            let is_above = last.map_or(true, |last| *it > last);
            last = if is_above { Some(*it) } else { last };
            is_above
        });
        if rising.len() == joining.len() {
            return initial;
        }
        joining = rising;
    }
}
