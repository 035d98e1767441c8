//! The error for a failed random run: its message and its files.

use std::path::{Path, PathBuf};

use super::driver::{update_of, Indexes};
use super::faults::describe_faults;
use super::regression::regression_test;
use super::replica::Replica;
use super::runs::{FailedRun, Setting};
use super::steps::{Action, Step};
use super::stored::{store, Stored};
use crate::error::Failure;
use crate::failure_report::{save_history, Table, HEADER_LINES};
use crate::json::Json;
use crate::{program, Error, Value};

/// The largest number of lines of a history that a message shows.
const SHOWN_LINES: usize = 40;

/// Where a failure is stored.
pub(crate) enum Place<'a> {
    /// In this new file, or in a temporary one.
    New(Option<&'a Path>),
    /// It was stored in this file before, and is not stored again.
    Stored(&'a Path),
}

/// Creates the error for a shrunk run, and stores its history and its steps. `summary` says which run it was.
pub(crate) fn create_error<R: Replica>(
    setting: &Setting<R>,
    small: &FailedRun,
    seed: &str,
    summary: &str,
    place: &Place<'_>,
) -> Error {
    let files = match place {
        Place::Stored(path) => Ok((path.with_extension("rah"), path.to_path_buf())),
        Place::New(path) => store_failure(setting, small, seed, *path),
    };
    let (history, steps) = match files {
        Ok(it) => it,
        Err(error) => return error,
    };
    let is_new = matches!(place, Place::New(_));
    let operation = operation_of(setting, small);
    let reply = if small.raised.is_some() { "" } else { small.replies.last().map_or("", String::as_str) };
    let explained = Some(reply).filter(|it| it.starts_with("no ")).and_then(|_| {
        program::explain_violation(&setting.program, &small.text)
    });
    let what = match small.raised {
        Some(_) => operation.clone(),
        None => small.reports.with_report(&small.text, |it| it.summarize(reply, explained.as_ref())),
    };
    let (first, run) =
        if is_new { (String::new(), format!("{summary}; ")) } else { (format!("{summary}: "), String::new()) };
    let mut message = format!(
        "{first}{what}\n{}{run}the history is {}, the steps are {}:\n\n{}",
        at_work(setting, small),
        history.display(),
        steps.display(),
        format_history(small, &operation)
    );
    if is_new {
        let expected = expected_read(small, explained.as_ref());
        let source = regression_test::<R>(&setting.names, small, seed, expected.as_ref(), &steps);
        message.extend(["\n\nthe same as a test:\n\n", &source]);
    }
    let (history, steps) = (Some(history), Some(steps));
    let failure = Failure { message, operation, reply: reply.to_string(), history, steps };
    if small.raised.is_some() {
        return Error::ReplicaFailed(Box::new(failure));
    }
    Error::of_reply(failure)
}

/// Returns a line with the faults of the network that are at work, or nothing if there are none.
fn at_work<R>(setting: &Setting<R>, small: &FailedRun) -> String {
    let faults = describe_faults(&small.steps, &setting.names).join("; ");
    if faults.is_empty() { faults } else { format!("at work: {faults}\n") }
}

/// Returns the header and a table of the commands, with a row for a call that failed, which has no command.
fn format_history(small: &FailedRun, operation: &str) -> String {
    let last = small.raised.as_ref().map(|_| operation.lines().next().unwrap_or(""));
    let table = Table { first: 0, most: SHOWN_LINES, last };
    let header: String = small.text.lines().take(HEADER_LINES).flat_map(|it| ["    ", it, "\n"]).collect();
    let commands = small.reports.with_report(&small.text, |it| it.format_commands(&small.replies, table));
    format!("{header}{commands}")
}

/// Returns the expected result of the last step, if it is a read and the explanation knows it.
fn expected_read(small: &FailedRun, explanation: Option<&Json>) -> Option<Value> {
    small.steps.last().filter(|it| it.action == Action::Read)?;
    small.reports.result_of(explanation?.get("right")?.as_text()?)
}

/// Creates the error for a run that did not fail in the same way again.
pub(crate) fn create_flaky<R: Replica>(
    setting: &Setting<R>,
    found: &FailedRun,
    again: Option<&FailedRun>,
    seed: &str,
    summary: &str,
    path: Option<&Path>,
) -> Error {
    let (history, steps) = match store_failure(setting, found, seed, path) {
        Ok(it) => it,
        Err(error) => return error,
    };
    let answer = |it: &FailedRun| match (&it.raised, it.replies.last()) {
        (None, Some(reply)) => it.reports.with_report(&it.text, |report| report.summarize(reply, None)),
        _ => operation_of(setting, it),
    };
    let message = format!(
        "{summary} failed, and the same steps did not fail in the same way again: the type is not deterministic \
         (random numbers, time, the order of a set, or what replicas share)\nat one time: {}\nat another time: {}\n\
         the history is {}, and the steps are {}",
        answer(found),
        again.map_or_else(|| String::from("it passed"), answer),
        history.display(),
        steps.display()
    );
    let reply = if found.raised.is_some() { None } else { found.replies.last().cloned() };
    Error::FlakyRun(Box::new(Failure {
        message,
        operation: operation_of(setting, found),
        reply: reply.unwrap_or_default(),
        history: Some(history),
        steps: Some(steps),
    }))
}

/// Returns a description of the last command, or the last call with what came of it.
fn operation_of<R>(setting: &Setting<R>, failure: &FailedRun) -> String {
    match (&failure.raised, failure.steps.last()) {
        (Some(raised), Some(step)) => {
            format!("{} {}", describe_call(&setting.names, step, &failure.indexes), raised.outcome)
        }
        (Some(raised), None) => format!("creating a replica {}", raised.outcome),
        (None, _) => failure.reports.with_report(&failure.text, |it| it.describe_last()),
    }
}

/// Writes the history and the steps, and returns both paths.
fn store_failure<R>(
    setting: &Setting<R>,
    failure: &FailedRun,
    seed: &str,
    path: Option<&Path>,
) -> Result<(PathBuf, PathBuf), Error> {
    let beside = path.map(|it| it.with_extension("rah"));
    let not_written = |it: std::io::Error| Error::invalid(format!("the failure could not be stored: {it}"));
    let history = save_history(&failure.text, beside.as_deref()).map_err(not_written)?;
    let steps = path.map_or_else(|| history.with_extension("json"), Path::to_path_buf);
    let stored = Stored {
        seed: seed.to_string(),
        kind: failure.reports.kind(),
        replicas: setting.names.clone(),
        profile: setting.profile,
        steps: failure.steps.clone(),
        cause: failure.cause.clone(),
        history: failure.text.clone(),
        operation: operation_of(setting, failure),
    };
    store(&steps, &stored).map_err(not_written)?;
    Ok((history, steps))
}

/// Returns an error if the steps cannot be written to this file, or the history to the one beside it.
pub(crate) fn require_writable(path: &Path) -> Result<(), Error> {
    let folder = path.parent().filter(|it| !it.as_os_str().is_empty()).unwrap_or_else(|| Path::new("."));
    if path.file_name().is_none() || !folder.is_dir() {
        return Err(Error::invalid(format!(
            "failure({:?}): expected the path of a file in a folder that exists, so that a failure can be stored",
            path.display().to_string()
        )));
    }
    for file in [path.to_path_buf(), path.with_extension("rah")] {
        let exists = file.exists();
        let opened = std::fs::OpenOptions::new().append(true).create(true).open(&file);
        let error = match opened {
            Ok(_) if exists => continue,
            Ok(_) => std::fs::remove_file(&file).err(),
            Err(error) => Some(error),
        };
        if let Some(error) = error {
            return Err(Error::invalid(format!("{} cannot be written: {error}", file.display())));
        }
    }
    Ok(())
}

/// Returns the call of a replica's method that a step makes.
fn describe_call(names: &[String], step: &Step, indexes: &Indexes) -> String {
    let (name, number) = (&names[step.replica], step.number);
    let other = |it: usize| names.get(it).map_or("", String::as_str);
    let call = match step.action {
        Action::Update => {
            update_of(step, indexes).map_or_else(|| String::from("update"), |it| format!("update(Update::{it:?})"))
        }
        Action::Deliver => format!("receive(message {number})"),
        Action::Duplicate => format!("receive(message {number}) again"),
        Action::Merge => format!("merge(state of {:?})", other(number)),
        Action::Snapshot | Action::Save => String::from("state()"),
        Action::MergeSnapshot => format!("merge(state {number}, which was taken earlier)"),
        Action::Restart => String::from("load(stored state)"),
        Action::Join => return format!("{:?}: fork({name:?})", other(number)),
        Action::Read => String::from("read()"),
    };
    format!("{name:?}: {call}")
}
