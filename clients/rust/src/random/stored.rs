//! Failures as JSON files, which `replay` runs again. All clients write and read the same format.

use std::fs;
use std::io;
use std::path::Path;

use super::options::{Delivery, Profile};
use super::steps::Step;
use crate::json::Json;
use crate::{Error, Kind};

const VERSION: u64 = 1;
const KEYS: [&str; 8] = ["version", "seed", "kind", "replicas", "profile", "steps", "cause", "history"];

/// A failure as its file has it.
#[derive(Clone, Debug, PartialEq)]
pub(crate) struct Stored {
    pub(crate) seed: String,
    pub(crate) kind: Kind,
    pub(crate) replicas: Vec<String>,
    pub(crate) profile: Profile,
    pub(crate) steps: Vec<Step>,
    pub(crate) cause: Vec<String>,
    pub(crate) history: String,
    /// What the replica did last, for people who read the file.
    pub(crate) operation: String,
}

/// Writes the failure to this file.
pub(crate) fn store(path: &Path, stored: &Stored) -> io::Result<()> {
    let texts = |it: &[String]| Json::Array(it.iter().map(Json::text).collect());
    let member = |key: &str, value: Json| (String::from(key), value);
    let Profile { delivery, duplicates, late_states, restarts } = stored.profile;
    let profile = Json::Object(vec![
        member("delivery", Json::text(if delivery == Delivery::Any { "any" } else { "causal" })),
        member("duplicates", Json::Bool(duplicates)),
        member("late_states", Json::Bool(late_states)),
        member("restarts", Json::Bool(restarts)),
    ]);
    let values = Json::Object(vec![
        member("version", Json::number(&VERSION)),
        member("seed", Json::text(&stored.seed)),
        member("kind", Json::text(stored.kind.name())),
        member("replicas", texts(&stored.replicas)),
        member("profile", profile),
        member("steps", Json::Array(stored.steps.iter().map(Step::to_json).collect())),
        member("cause", texts(&stored.cause)),
        member("history", Json::text(&stored.history)),
        member("operation", Json::text(&stored.operation)),
    ]);
    fs::write(path, format!("{}\n", values.print()))
}

/// Reads a failure from this file.
pub(crate) fn load(path: &Path) -> Result<Stored, Error> {
    let text = fs::read_to_string(path).map_err(|it| Error::invalid(format!("{}: {it}", path.display())))?;
    parse(&text).map_err(|why| Error::invalid(format!("{} {why}", path.display())))
}

fn parse(text: &str) -> Result<Stored, String> {
    let values = Json::parse(text).map_err(|it| {
        format!("is not a stored failure: {it}; expected the JSON that check_random wrote")
    })?;
    let missing: Vec<&str> = KEYS.into_iter().filter(|it| values.get(it).is_none()).collect();
    if !missing.is_empty() {
        return Err(format!("is not a stored failure: it lacks {}", missing.join(", ")));
    }
    let value = |key: &str| values.get(key).unwrap_or(&Json::Null);
    if value("version").as_u64() != Some(VERSION) {
        let version = value("version").print();
        return Err(format!("has version {version} of the format, and this client reads {VERSION}"));
    }
    let text = |key: &str| value(key).as_text().unwrap_or("").to_string();
    let texts = |key: &str| value(key).as_array().unwrap_or_default().iter().map(shown).collect::<Vec<String>>();
    let replicas = texts("replicas");
    Ok(Stored {
        seed: text("seed"),
        kind: text("kind").parse().map_err(|it: Error| format!("is not a stored failure: {it}"))?,
        profile: parse_profile(value("profile"))?,
        steps: parse_steps(value("steps"), replicas.len())?,
        replicas,
        cause: texts("cause"),
        history: text("history"),
        operation: text("operation"),
    })
}

/// Returns a text as it is, and any other name of a replica as its JSON.
fn shown(json: &Json) -> String {
    json.as_text().map_or_else(|| json.print(), String::from)
}

fn parse_profile(json: &Json) -> Result<Profile, String> {
    let delivery = json.get("delivery").unwrap_or(&Json::Null);
    let flag = |key: &str| json.get(key).and_then(Json::as_bool).unwrap_or(false);
    Ok(Profile {
        delivery: match delivery.as_text() {
            Some("causal") => Delivery::Causal,
            Some("any") => Delivery::Any,
            _ => return Err(format!("has the delivery {}: expected causal or any", delivery.print())),
        },
        duplicates: flag("duplicates"),
        late_states: flag("late_states"),
        restarts: flag("restarts"),
    })
}

fn parse_steps(json: &Json, replicas: usize) -> Result<Vec<Step>, String> {
    let values = json.as_array().unwrap_or_default();
    let steps: Result<Vec<Step>, String> = values.iter().zip(1..).map(|(value, number)| {
        let step = Step::from_json(value).map_err(|it| format!("is not a stored failure: step {number} {it}"))?;
        let other = if step.action.copies() { step.number } else { 0 };
        let highest = step.replica.max(other);
        if highest >= replicas {
            return Err(format!("has step {number} of replica {highest}, and there are {replicas}"));
        }
        Ok(step)
    }).collect();
    steps
}
